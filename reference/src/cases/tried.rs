//! Document 01's tried names and the errors its rules invite, and names that
//! document 02's requests decide.

use super::CaseFile;
use crate::points;

/// A tried name: the text, the number, the place, the class's letter and the
/// normal form (empty where it is refused).
pub type Tried = (String, u8, usize, char, String);

pub fn row(text: &str, number: u8, place: usize, class: char, normal: &str) -> Tried {
    (text.to_string(), number, place, class, normal.to_string())
}

/// The tried names, starred and not.
pub fn names() -> Vec<Tried> {
    let a = |times: usize| "a".repeat(times);
    let hiragana = |times: usize| "\u{3042}".repeat(times);
    let taken = |name: String| (name.clone(), 0, 0, 'G', name);
    vec![
        row("ABC.JP", 0, 0, 'G', "abc.jp"),
        row("abc\u{3002}\u{FF2A}\u{FF30}", 0, 0, 'G', "abc.jp"),
        row("ab.jp", 8, 0, '-', ""),
        taken("\u{3042}.jp".to_string()),
        row("\u{FF76}\u{FF9E}.jp", 0, 0, 'G', "\u{30AC}.jp"),
        row("\u{3046}\u{309B}.jp", 4, 1, '-', ""),
        row("\u{30FB}.jp", 10, 0, '-', ""),
        taken("\u{30FC}.jp".to_string()),
        taken("\u{30FB}\u{3005}.jp".to_string()),
        row("-\u{3042}.jp", 7, 0, '-', ""),
        row("abc.jp.", 6, 2, '-', ""),
        row("jp", 5, 0, '-', ""),
        row("abc.tokyo.jp", 0, 0, 'P', "abc.tokyo.jp"),
        row("abc.tokio.jp", 12, 0, '-', ""),
        row("abc.com", 11, 0, '-', ""),
        taken(a(63) + ".jp"),
        row(&(a(64) + ".jp"), 9, 0, '-', ""),
        taken(hiragana(15) + ".jp"),
        row(&(hiragana(16) + ".jp"), 9, 0, '-', ""),
        row(&a(256), 5, 0, '-', ""),
        row(&a(257), 3, 256, '-', ""),
    ]
}

fn refused(text: &str, number: u8, place: usize) -> Tried {
    row(text, number, place, '-', "")
}

/// Names that document 02's requests decide.
pub fn requested() -> Vec<Tried> {
    [with_minus_sign(), with_hyphen_pair()].concat()
}

/// K2: 2212 is a hyphen. It is no base and no mark, and it is not unfit.
fn with_minus_sign() -> Vec<Tried> {
    vec![
        row("a\u{2212}b.jp", 0, 0, 'G', "a-b.jp"),
        row("\u{3042}\u{2212}\u{2212}\u{3042}.jp", 0, 0, 'G', "\u{3042}--\u{3042}.jp"),
        row("\u{3042}\u{2212}\u{2212}\u{3042}\u{3002}TOKYO.jp", 0, 0, 'P', "\u{3042}--\u{3042}.tokyo.jp"),
        refused("\u{2212}\u{3042}.jp", 7, 0),
        refused("\u{3042}\u{2212}.jp", 7, 0),
        refused("\u{2212}.jp", 7, 0),
        refused("\u{2212}.nara.jp", 7, 0),
        refused("\u{30AB}\u{2212}\u{309B}.jp", 4, 2),
        refused("\u{2212}\u{FF9E}.jp", 4, 1),
        refused("\u{2212}", 5, 0),
        refused("abc.j\u{2212}p", 11, 0),
        refused("abc.nara\u{2212}.jp", 12, 0),
        refused("a\u{2213}b.jp", 4, 1),
    ]
}

/// K3: an ASCII leftmost label with hyphens in its third and fourth places is
/// refused, after 9. The places are those of the normal form. A Japanese label
/// may have the pair, and so may the other labels as far as 17 goes.
fn with_hyphen_pair() -> Vec<Tried> {
    let long = |times: usize| format!("01--{}.jp", "a".repeat(times));
    let taken = |name: &str| row(name, 0, 0, 'G', name);
    vec![
        refused("ab--c.jp", 17, 0),
        refused("xn--l8j.jp", 17, 0),
        refused("XN--L8J.JP", 17, 0),
        refused("ab--c.tokyo.jp", 17, 0),
        refused("ab--c.tokio.jp", 17, 0),
        refused("ab--c.com", 17, 0),
        refused("ab\u{2212}\u{FF0D}c.jp", 17, 0),
        refused("\u{FF21}\u{FF42}\u{FF0D}-\u{FF11}\u{3002}JP", 17, 0),
        refused("a---b.jp", 17, 0),
        refused("ab---c.jp", 17, 0),
        refused(&long(59), 17, 0),
        refused(&long(60), 9, 0),
        refused("ab--.jp", 7, 0),
        refused("-a--b.jp", 7, 0),
        refused("ab--c..jp", 6, 1),
        refused("ab--c", 5, 0),
        refused("ab--c_.jp", 4, 5),
        refused("ab--\u{30FB}.jp", 10, 0),
        taken("a--b.jp"),
        taken("abc--d.jp"),
        taken("ab-c-d.jp"),
        taken("abc-d.jp"),
        taken("ab--\u{3042}.jp"),
        row("\u{FF8A}\u{FF9E}\u{3042}--\u{3046}.jp", 0, 0, 'G', "\u{30D0}\u{3042}--\u{3046}.jp"),
        row("\u{3042}b\u{2212}-c.Tokyo.jp", 0, 0, 'P', "\u{3042}b--c.tokyo.jp"),
        refused("abc.ab--c", 11, 0),
        refused("abc.ab--c.jp", 12, 0),
    ]
}

/// Errors the rules invite, and their neighbours: a composition is not made
/// across a separator or a hyphen.
const ACROSS: [&str; 4] = [
    "\u{30AB}.\u{309B}jp", "\u{30AB}\u{3002}\u{309B}", "\u{FF76}\u{FF61}\u{FF9E}.jp", "\u{30AB}-\u{309B}.jp",
];

/// 30CF is not composed twice.
const TWICE: [&str; 7] = [
    "\u{30CF}\u{309B}\u{309B}.jp", "\u{30CF}\u{309B}\u{309C}.jp", "\u{30CF}\u{309C}\u{309B}.jp",
    "\u{30CF}\u{309C}\u{309C}.jp", "\u{30CF}\u{30CF}\u{309C}\u{309B}.jp", "\u{30D0}\u{309B}.jp",
    "\u{30D1}\u{FF9F}.jp",
];

/// Letters go to lower case before the label is encoded.
const LOWERED: [&str; 3] = ["A\u{3042}.jp", "\u{3042}BC\u{FF24}.JP", "\u{FF21}\u{3042}\u{FF3A}.TOKYO.jp"];

/// The middle dot alone brings the rule in.
const DOTTED: [&str; 12] = [
    "\u{30FC}.jp", "\u{3006}.jp", "\u{30FC}\u{3006}a-b.jp", "\u{30FC}\u{30FB}.jp",
    "\u{3006}\u{30FB}\u{30FC}.jp", "a\u{30FB}b.jp", "a\u{30FB}-\u{30FC}b.jp", "a\u{30FB}\u{4EDD}b.jp",
    "\u{30FB}\u{3007}.jp", "\u{30FB}\u{30FD}.jp", "\u{FF65}.jp", "\u{FF65}\u{FF71}.jp",
];

/// Three characters are not asked of "jp", nor of any last label.
const SHORT_LAST: [&str; 11] = [
    "abc.JP", "abc.j", "abc.jpn", "abc.pj", "abc.-jp", "abc.jp-", "abc.\u{3042}", "abc.tokyo.j",
    "abc.tokyo.tokyo", "jp.jp", "jpn.jp",
];

/// Fifteen are counted after composition.
fn counted_after_composition() -> Vec<String> {
    let half = |times: usize| "\u{FF76}\u{FF9E}".repeat(times);
    let wide_jp = "\u{FF61}\u{FF4A}\u{FF50}";
    vec![
        half(15) + ".jp",
        half(16) + ".jp",
        half(15) + "\u{30AB}.jp",
        "\u{FF8A}\u{FF9F}".repeat(15) + wide_jp,
    ]
}

/// The tried names, the requested ones and the invited errors.
pub fn texts() -> Vec<String> {
    let tried = names().into_iter().chain(requested()).map(|name| name.0);
    let fixed = [&ACROSS[..], &TWICE, &LOWERED, &DOTTED, &SHORT_LAST].concat();
    let invited = fixed.into_iter().map(String::from).chain(counted_after_composition());
    tried.chain(invited).collect()
}

/// Each name by every call, with the live check on each of its beginnings.
pub fn add(file: &mut CaseFile) {
    for text in texts() {
        let text = points(&text);
        file.everything(&text);
        file.add('S', 0, &text);
        for end in 0..text.len().min(20) {
            file.add('L', 0, &text[..end]);
        }
    }
    file.label(&points("\u{3042}"));
    file.label(&points(&"\u{3042}".repeat(63)));
    file.batch("a1\tABC.JP\na2\tab.jp\na3\t\u{3042}.tokyo.jp\n".as_bytes());
}
