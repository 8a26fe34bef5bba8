//! Where each label stands (K7): names whose normal form is shorter than the text,
//! names of every length, refused names, and names as they are typed, by the calls
//! whose answers tell the places of labels.

use super::names::wide;
use super::random::NameMaker;
use super::{CaseFile, SEED};
use crate::name::{japanese_prefectures, latin_prefectures};
use crate::points;
use crate::random::Random;

/// The four separators.
const SEPARATORS: [&str; 4] = [".", "\u{FF0E}", "\u{3002}", "\u{FF61}"];

/// The six calls, each with the room that it asks for.
pub const CALLS: [(char, usize); 6] = [('C', 256), ('L', 0), ('J', 0), ('c', 256), ('l', 0), ('j', 0)];

/// Leftmost labels that shrink by composition: at the front, in the midst, at the
/// end, once and often.
const SHRINKING: [&str; 14] = [
    "\u{FF76}\u{FF9E}", "\u{30CF}\u{309C}", "\u{304B}\u{FF9E}", "\u{309D}\u{309B}", "\u{30A6}\u{309B}",
    "\u{FF76}\u{FF9E}a", "a\u{FF76}\u{FF9E}", "a\u{FF8A}\u{FF9F}b", "\u{FF76}\u{FF9E}-\u{FF8A}\u{FF9F}",
    "\u{FF76}\u{FF9E}\u{FF77}\u{FF9E}\u{FF78}\u{FF9E}", "\u{3042}\u{306F}\u{309B}\u{4E9C}",
    "\u{FF73}\u{FF9E}\u{FF67}\u{FF72}\u{FF75}\u{FF98}\u{FF9D}", "ab--\u{FF8E}\u{FF9F}",
    "\u{FF76}\u{FF9E}\u{FF76}\u{3042}\u{FF76}\u{FF9E}",
];

/// Leftmost labels that change and stay as long, or do not change.
const STEADY: [&str; 8] = [
    "\u{FF21}\u{FF22}\u{FF23}", "Printer", "\u{FF4C}\u{2212}\u{FF11}", "\u{FF71}\u{FF72}",
    "\u{30AC}\u{30AE}", "\u{FF70}", "0-9", "\u{3042}\u{2212}\u{FF0D}\u{4E9C}",
];

/// Refused names of two labels and of three, from 4 on in the order of the checks.
/// 12 has three labels only; 5 has others, and 9 stands further down.
pub const REFUSED: [&str; 24] = [
    "\u{FF76}\u{FF9E}\u{FF9F}.jp", "\u{FF76}\u{FF9E}.tokyo .jp", "fax.jp\u{309B}", ".\u{FF4A}\u{FF50}",
    "fax.", "fax..jp", "\u{FF76}\u{FF9E}.tokyo.", "-fax.jp", "\u{FF76}\u{FF9E}\u{2212}.tokyo.jp", "fa.JP",
    "fa.\u{6771}\u{4EAC}.jp", "fa--x.jp", "fa--x.osaka.jp", "\u{FF65}\u{FF70}.jp",
    "f\u{30FB}x.\u{6771}\u{4EAC}.jp", "fax.jq", "\u{FF76}\u{FF9E}.jpn", "\u{FF76}\u{FF9E}.tokyo.jq",
    "fax.tokyo.\u{6771}\u{4EAC}", "fax.tokyu.jp", "\u{FF76}\u{FF9E}.jp.jp",
    "\u{FF76}\u{FF9E}.\u{6771}\u{90FD}.jp", "fax.jp.JP", "tokyo.fax.jp",
];

/// One label, and four or more.
pub const NOT_TWO_OR_THREE: [&str; 8] = [
    "fax",
    "\u{FF76}\u{FF9E}",
    "jp",
    "fax.tokyo.jp.jp",
    "\u{FF76}\u{FF9E}.fax.tokyo.jp",
    "f.a.x.jp",
    "fax\u{3002}\u{FF61}\u{FF0E}jp",
    "\u{FF76}\u{FF9E}.\u{FF77}\u{FF9E}.\u{FF78}\u{FF9E}.\u{FF79}\u{FF9E}.jp",
];

/// Marks in other labels than the leftmost. No prefecture label and no "jp" has
/// them, so these are refused.
const MARKED_LATER: [&str; 8] = [
    "fax.\u{FF76}\u{FF9E}.jp", "\u{FF76}\u{FF9E}.\u{FF77}\u{FF9E}.jp", "\u{FF76}\u{FF9E}.\u{304B}\u{309B}",
    "\u{FF76}\u{FF9E}.\u{FF77}\u{FF9E}.\u{FF78}\u{FF9E}", "\u{FF76}\u{FF9E}.tokyo.j\u{FF76}\u{FF9E}p",
    "\u{FF76}\u{FF9E}.\u{6771}\u{4EAC}\u{309B}.jp", "fax.\u{FF84}\u{FF9E}.jp", "fax.jp.\u{FF76}\u{FF9E}",
];

/// Texts that are a name at some point while they are typed, and are none once
/// more is typed.
const TYPED_ON: [&str; 12] = [
    "kana.jpx.jp", "kiku.jp.jp", "kuki.jp\u{3002}tokyo.jp", "\u{FF76}\u{FF9E}\u{FF77}\u{FF61}jp\u{FF0E}jp",
    "\u{FF8A}\u{FF9F}n.nara.jp.jp", "\u{304E}\u{3093}\u{3002}\u{5948}\u{826F}\u{3002}jpn",
    "\u{304B}\u{306A}\u{FF0E}\u{FF4A}\u{FF50}\u{309B}", "mie.mie.jp-",
    "\u{306F}\u{309C}\u{306F}\u{309C}.JPa", "k--\u{3042}.jp.",
    "KAI\u{FF61}Chiba\u{3002}\u{FF2A}P\u{FF0E}\u{FF61}", "\u{3042}\u{30FB}.jp\u{3042}",
];

pub fn add(file: &mut CaseFile) {
    shrinking(file);
    steady(file);
    lengths(file);
    prefectures(file);
    refused(file);
    buffers(file);
    typed_on(file);
    past_the_longest(file);
    random(file);
}

/// One of the six calls.
fn ask(file: &mut CaseFile, which: usize, text: &[u32]) {
    let (call, lent) = CALLS[which % CALLS.len()];
    file.add(call, lent, text);
}

fn by_all(file: &mut CaseFile, text: &str) {
    (0..CALLS.len()).for_each(|which| ask(file, which, &points(text)));
}

/// One of the six, each in its turn.
fn in_turn(file: &mut CaseFile, text: &str) {
    file.turn += 1;
    let which = file.turn;
    ask(file, which, &points(text));
}

/// The check, the live check, and one of the others in its turn.
fn by_three(file: &mut CaseFile, text: &str) {
    file.turn += 1;
    let other = 2 + file.turn % 4;
    [0, 1, other].into_iter().for_each(|which| ask(file, which, &points(text)));
}

/// Each separator after each label, and each two of them in a prefecture name.
fn shrinking(file: &mut CaseFile) {
    for (order, label) in SHRINKING.iter().enumerate() {
        let separator = SEPARATORS[order % 4];
        by_three(file, &format!("{label}{separator}jp"));
        by_three(file, &format!("{label}{separator}Kyoto{}\u{FF2A}\u{FF30}", SEPARATORS[order / 4]));
    }
    for first in SEPARATORS {
        by_all(file, &format!("\u{FF8E}\u{FF9F}\u{FF9D}{first}jp"));
        for second in SEPARATORS {
            in_turn(file, &format!("n\u{FF8E}\u{FF9E}{first}\u{4EAC}\u{90FD}{second}jp"));
            in_turn(file, &format!("\u{30DB}\u{309C}\u{30DB}\u{309B}{first}oita{second}jp"));
        }
    }
}

fn steady(file: &mut CaseFile) {
    for (order, label) in STEADY.iter().enumerate() {
        let separator = SEPARATORS[order % 4];
        by_three(file, &format!("{label}{separator}\u{FF2A}\u{FF50}"));
        by_three(file, &format!("{label}.{}{separator}jp", wide("GIFU")));
    }
}

/// Leftmost labels of every length, in names of both classes.
fn lengths(file: &mut CaseFile) {
    for length in 1..=15 {
        for unit in ["\u{3051}", "\u{FF79}\u{FF9E}"] {
            let label = unit.repeat(length);
            in_turn(file, &format!("{label}.jp"));
            in_turn(file, &format!("{label}.saga.jp"));
        }
    }
    for length in 3..=63 {
        let label: String = "label7".chars().cycle().take(length).collect();
        ask(file, length, &points(&format!("{label}.jp")));
        ask(file, length + 1, &points(&format!("{label}.fukui.jp")));
    }
}

/// Each prefecture label, after a label that shrinks.
fn prefectures(file: &mut CaseFile) {
    for (order, word) in latin_prefectures().iter().chain(&japanese_prefectures()).enumerate() {
        let label = SHRINKING[order % SHRINKING.len()];
        let spelled = if order % 3 == 0 { word.to_uppercase() } else { word.clone() };
        in_turn(file, &format!("{label}.{spelled}.jp"));
        in_turn(file, &format!("{label}k.{word}{}jp", SEPARATORS[order % 4]));
    }
}

/// A refused name has no places, whatever refuses it.
fn refused(file: &mut CaseFile) {
    for text in REFUSED.iter().chain(&NOT_TWO_OR_THREE) {
        by_all(file, text);
    }
    for text in MARKED_LATER {
        by_three(file, text);
    }
    // 9 and 3, of two labels and of three.
    for ending in [".jp", ".tokyo.jp"] {
        by_all(file, &format!("{}{ending}", "\u{FF79}\u{FF9E}".repeat(16)));
        by_three(file, &format!("{}{ending}", "k".repeat(64)));
        by_all(file, &format!("{}{ending}", "k".repeat(257 - ending.len())));
    }
}

/// A lent buffer that is too short: no places are told.
fn buffers(file: &mut CaseFile) {
    for lent in [0, 1, 7, 63, 192, 255, 257, 300] {
        for text in ["fax.jp", "\u{FF76}\u{FF9E}.kyoto.JP", "fax.tokyu.jp"] {
            file.add('C', lent, &points(text));
            file.add('c', lent, &points(text));
        }
    }
}

/// Each beginning by the live check, and the last ones by another call too.
fn typed_on(file: &mut CaseFile) {
    for text in TYPED_ON {
        let text = points(text);
        for end in 1..=text.len() {
            file.add('L', 0, &text[..end]);
        }
        for end in text.len() - 3..=text.len() {
            ask(file, [4, 2, 0, 5, 3][end % 5], &text[..end]);
        }
    }
}

/// A name, and so much after it that the text is about as long as may be or longer.
fn past_the_longest(file: &mut CaseFile) {
    for (name, filler) in [("fax.jp", 'k'), ("\u{FF76}\u{FF9E}.mie.jp", '\u{3042}')] {
        for length in [256, 257, 300] {
            let more = length - name.chars().count();
            let text = format!("{name}{}", String::from(filler).repeat(more));
            match length {
                257 => by_all(file, &text),
                _ => by_three(file, &text),
            }
        }
    }
}

/// Random names as typed, each with a damaged copy.
fn random(file: &mut CaseFile) {
    let mut random = Random::seeded(SEED ^ 0x4B37);
    let maker = NameMaker::default();
    for round in 0..40 {
        let typed = maker.typed_name(&mut random);
        ask(file, round, &typed);
        ask(file, round + 1, &typed);
        ask(file, round, &maker.edit(&typed, &mut random));
    }
}
