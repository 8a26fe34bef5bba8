//! Nameserver host names (K10): the ASCII form, the judge and the live check's
//! look.

use super::names::{wide, LONG_FORMS};
use super::random::NameMaker;
use super::{CaseFile, SEED};
use crate::chars::{kanji_in_rows, PERIOD};
use crate::edition::Edition;
use crate::grammar::host_octets;
use crate::host::OF_HOSTS;
use crate::name::check_label;
use crate::normal::{labels, normal_form};
use crate::points;
use crate::random::Random;

/// A tried host: the text, the number, the place and the ASCII form (empty
/// where it is refused).
pub type Tried = (String, u8, usize, String);

/// Every call on a host, with the room it asks for. Of a pair, the one in upper
/// case is lent the table of kanji.
pub const CALLS: [(char, usize); 6] = [('H', 255), ('G', 0), ('V', 0), ('h', 255), ('g', 0), ('v', 0)];

pub fn add(file: &mut CaseFile) {
    for (text, ..) in tried() {
        judged(file, &points(&text));
    }
    for (text, ..) in by_total() {
        everything(file, &points(&text));
    }
    for text in ["", "a", "a.b", "\u{3042}.-", "."] {
        everything(file, &points(text));
    }
    label_counts(file);
    totals(file);
    refused_in_places(file);
    several_refusals(file);
    too_long_and_refused(file);
    text_lengths(file);
    typed(file);
    spellings(file);
    short_labels(file);
    label_lengths(file);
    hyphen_pairs(file);
    unfit(file);
    some_kanji(file);
    buffers(file);
    random(file);
}

/// A host by every call.
fn everything(file: &mut CaseFile, text: &[u32]) {
    for (call, lent) in CALLS {
        file.add(call, lent, text);
    }
}

/// A host by the ASCII form, the judge and the live check, all lent the table,
/// and by one of the calls in turn.
fn judged(file: &mut CaseFile, text: &[u32]) {
    for (call, lent) in &CALLS[..3] {
        file.add(*call, *lent, text);
    }
    in_turn(file, text);
}

/// A host by the ASCII form, and by one of the other calls in turn.
fn formed(file: &mut CaseFile, text: &[u32]) {
    file.add('H', 255, text);
    let (call, lent) = CALLS[1 + file.turn % 5];
    file.turn += 1;
    file.add(call, lent, text);
}

/// A host by one of the calls in turn.
fn in_turn(file: &mut CaseFile, text: &[u32]) {
    let (call, lent) = CALLS[file.turn % CALLS.len()];
    file.turn += 1;
    file.add(call, lent, text);
}

fn taken(text: &str, form: &str) -> Tried {
    (text.to_string(), 0, 0, form.to_string())
}

fn refused(text: &str, number: u8, place: usize) -> Tried {
    (text.to_string(), number, place, String::new())
}

fn a(times: usize) -> String {
    "a".repeat(times)
}

/// A label whose encoding has six octets more than it has characters.
fn hiragana(times: usize) -> String {
    "\u{3042}".repeat(times)
}

/// Labels of each refusal that a label of a host can get, with its number.
fn refused_labels() -> [(u8, Vec<String>); 4] {
    let labels = |labels: &[&str]| labels.iter().map(|label| label.to_string()).collect();
    [
        (7, labels(&["-a", "\u{3042}-", "b-", "-", "-\u{3042}"])),
        (9, labels(&[&hiragana(16), &(a(15) + "\u{30FC}"), &a(64)])),
        (17, labels(&["xn--l8j", "ab--\u{3042}", "ab--c", "\u{3042}\u{3044}--\u{3046}", "\u{3042}1--a"])),
        (10, labels(&["\u{30FB}", "a\u{30FB}b", "\u{3006}\u{30FB}\u{30FC}"])),
    ]
}

/// The first two of each refusal.
fn some_refused_labels() -> Vec<(u8, String)> {
    let two =
        |(number, labels): (u8, Vec<String>)| labels.into_iter().take(2).map(move |label| (number, label));
    refused_labels().into_iter().flat_map(two).collect()
}

/// Labels to which two refusals apply: 7 and each other, 9 and 17, 9 and 10, 17
/// and 10.
fn twice_refused_labels() -> Vec<String> {
    let fixed =
        ["-aaaaaaaaaaaaaaa\u{3042}", "-a--b", "ab--", "\u{30FB}-", "ab--ccccccccccc\u{3042}", "ab--\u{30FB}"];
    let long = ["-".to_string() + &a(64), "ab--".to_string() + &a(60), "\u{30FB}".repeat(16)];
    fixed.map(String::from).into_iter().chain(long).collect()
}

/// Hosts that K10 decides.
pub fn tried() -> Vec<Tried> {
    [accepted(), refused_by_count(), refused_by_label(), in_order(), by_total()].concat()
}

fn accepted() -> Vec<Tried> {
    let plain = ["a.b.c", "1.2.3.4", "ns1.example.jp", "a-b.c--d.abc--d", "a.bc.com", "jp.jp.jp", "0.0.0"];
    let mut hosts: Vec<Tried> = plain.iter().map(|host| taken(host, host)).collect();
    hosts.extend([
        taken("NS1.Example.COM", "ns1.example.com"),
        taken("ns\u{3002}\u{3042}\u{FF0E}jp\u{FF61}\u{FF2A}\u{FF30}", "ns.xn--l8j.jp.jp"),
        taken("\u{3042}.\u{3042}.\u{3042}", "xn--l8j.xn--l8j.xn--l8j"),
        taken("\u{FF76}\u{FF9E}.a\u{2212}b.\u{FF11}", "xn--mck.a-b.1"),
        taken("\u{30FB}\u{3042}.\u{30FC}.c", "xn--l8j3u.xn--wek.c"),
        taken(&[a(63), a(63), a(1)].join("."), &[a(63), a(63), a(1)].join(".")),
        taken("a.\u{3042}--\u{3042}.c", "a.xn-----763ac.c"),
    ]);
    hosts
}

fn refused_by_count() -> Vec<Tried> {
    vec![
        refused("", 2, 0),
        refused(&a(257), 3, 256),
        refused("a b.c", 4, 1),
        refused("a.b.\u{3046}\u{309B}", 4, 5),
        refused("a", 5, 0),
        refused("a.b", 5, 0),
        refused("\u{3042}.jp", 5, 0),
        refused(".", 5, 0),
        refused("-a.b", 5, 0),
        refused("a.b.c.", 6, 3),
        refused(".a.b.c", 6, 0),
        refused("a..c", 6, 1),
        refused("..", 6, 0),
        refused("a.b.", 6, 2),
    ]
}

fn refused_by_label() -> Vec<Tried> {
    vec![
        refused("-a.b.c", 7, 0),
        refused("a.b-.c", 7, 1),
        refused("a.b.\u{2212}", 7, 2),
        refused(&format!("a.{}.c", a(64)), 9, 1),
        refused(&format!("a.b.{}", hiragana(16)), 9, 2),
        refused("xn--l8j.b.c", 17, 0),
        refused("a.xn--l8j.c", 17, 1),
        refused("a.b.XN--L8J", 17, 2),
        refused("ab--\u{3042}.b.c", 17, 0),
        refused("a.\u{3042}\u{3044}--\u{3046}.c", 17, 1),
        refused("a.b.\u{3042}\u{3044}\u{FF0D}\u{2212}c", 17, 2),
        refused("\u{30FB}.b.c", 10, 0),
        refused("a.a\u{FF65}b.c", 10, 1),
        refused("a.b.c.\u{30FB}\u{30FC}", 10, 3),
    ]
}

/// The first row that applies is given, and the leftmost label before the lower
/// number.
fn in_order() -> Vec<Tried> {
    vec![
        refused(&format!("{} ", a(256)), 3, 256),
        refused("a b", 4, 1),
        refused("a.", 5, 0),
        refused("-a.b.", 6, 2),
        refused(&format!("-{}.b.c", hiragana(16)), 7, 0),
        refused(&format!("ab--{}.b.c", a(60)), 9, 0),
        refused(&format!("a.b.{}", "\u{30FB}".repeat(16)), 9, 2),
        refused("ab--\u{30FB}.b.c", 17, 0),
        refused("\u{30FB}.-a.c", 10, 0),
        refused("a.xn--l8j.-c", 17, 1),
        refused(&format!("a.\u{30FB}.{}", a(64)), 10, 1),
        refused(&format!("ab--c.{}.-", a(64)), 17, 0),
        refused(&[a(63), a(63), a(63), a(60), "-".to_string()].join("."), 7, 4),
        refused(&[a(63), a(63), a(63), a(60), "\u{30FB}".to_string()].join("."), 10, 4),
    ]
}

/// Nine labels of fifteen half-width GA are a text that is too long, though
/// their normal form would do.
fn by_total() -> Vec<Tried> {
    let ascii = |last: usize| [a(63), a(63), a(63), a(last)].join(".");
    let half_width = vec!["\u{FF76}\u{FF9E}".repeat(15); 9].join(".");
    let full_width = vec!["\u{30AC}".repeat(15); 9].join(".");
    let encoded = ["xn--mckaaaaaaaaaaaaaa"; 9].join(".");
    vec![
        taken(&ascii(60), &ascii(60)),
        taken(&ascii(61), &ascii(61)),
        refused(&ascii(62), 19, 0),
        refused(&ascii(63), 19, 0),
        taken(&vec!["a"; 127].join("."), &vec!["a"; 127].join(".")),
        refused(&vec!["a"; 128].join("."), 19, 0),
        taken(&vec!["\u{3042}"; 31].join("."), &vec!["xn--l8j"; 31].join(".")),
        refused(&vec!["\u{3042}"; 32].join("."), 19, 0),
        refused(&vec!["\u{3042}"; 128].join("."), 19, 0),
        refused(&half_width, 3, 256),
        taken(&full_width, &encoded),
    ]
}

/// From no period to as many as there can be.
fn label_counts(file: &mut CaseFile) {
    for count in [1, 2, 3, 4, 5, 31, 32, 33, 64, 126, 127, 128] {
        for label in ["a", "\u{3042}"] {
            formed(file, &points(&vec![label; count].join(".")));
        }
        // One label is another than all the rest.
        for (other, at) in [("\u{3042}", 0), ("bc", count / 2), ("\u{3042}a", count - 1)] {
            let mut labels = vec!["a"; count];
            labels[at] = other;
            in_turn(file, &points(&labels.join(".")));
        }
    }
    // Periods alone, by each separator, and empty labels beside others.
    for separator in [".", "\u{FF0E}", "\u{3002}", "\u{FF61}"] {
        for count in 1..=4 {
            in_turn(file, &points(&separator.repeat(count)));
        }
        for pattern in 0..16 {
            let pick = |bit: usize, word: &'static str| if pattern >> bit & 1 == 1 { word } else { "" };
            let four = [pick(0, "a"), pick(1, "\u{3042}"), pick(2, "b"), pick(3, "jp")];
            in_turn(file, &points(&four.join(separator)));
        }
    }
}

/// Labels and one more, which brings the ASCII form to so many octets: an ASCII
/// label, or one whose encoding has six octets more than it has characters.
fn to_total(front: &[String], total: usize, japanese: bool) -> Option<Vec<String>> {
    let parts: Vec<Vec<u32>> = front.iter().map(|label| points(label)).collect();
    let left = total.checked_sub(host_octets(&parts) + 1)?;
    let last = match japanese {
        true => Some(left.checked_sub(6)?).filter(|count| (1..=15).contains(count)).map(hiragana),
        false => Some(left).filter(|count| (1..=63).contains(count)).map(a),
    };
    Some([front, &[last?]].concat())
}

/// ASCII forms of 252 to 255 octets by ASCII labels, by encoded ones and by
/// both, the odd label at either end.
fn totals(file: &mut CaseFile) {
    let [long, longer] = LONG_FORMS.map(String::from);
    let fronts: [Vec<String>; 6] = [
        vec![a(63), a(63), a(63)],
        vec![a(1); 110],
        vec![hiragana(15); 11],
        vec![hiragana(1); 30],
        vec![longer.clone(), long.clone(), longer.clone(), long.clone()],
        vec![longer, a(63), long, a(50)],
    ];
    for front in fronts {
        for total in 252..=255 {
            for labels in [false, true].into_iter().filter_map(|japanese| to_total(&front, total, japanese)) {
                formed(file, &points(&labels.join(".")));
                let (last, rest) = labels.split_last().expect("there is a last label");
                in_turn(file, &points(&[std::slice::from_ref(last), rest].concat().join(".")));
            }
        }
    }
}

/// Good labels, one of them replaced.
fn with_label(count: usize, at: usize, label: &str) -> Vec<u32> {
    let mut labels: Vec<&str> =
        ["a", "\u{3042}", "b1", "\u{30AB}\u{30FB}", "jp"].into_iter().cycle().take(count).collect();
    labels[at] = label;
    points(&labels.join("."))
}

/// Each refusal in the first, a middle and the last label.
fn refused_in_places(file: &mut CaseFile) {
    let once = refused_labels().into_iter().map(|(_number, labels)| labels);
    for labels in once.chain([twice_refused_labels(), vec![String::new()]]) {
        for at in 0..3 {
            everything(file, &with_label(3, at, &labels[0]));
            labels.iter().for_each(|label| in_turn(file, &with_label(3, at, label)));
        }
        for label in labels {
            formed(file, &with_label(5, 3, &label));
            in_turn(file, &with_label(2, 1, &label));
        }
    }
    for at in [63, 126] {
        for label in ["-", "\u{30FB}", "xn--b", "\u{3042}\u{3042}--a"] {
            let mut labels = vec!["a"; 127];
            labels[at] = label;
            in_turn(file, &points(&labels.join(".")));
        }
    }
}

/// Two and three refusals at once in several labels, and empty labels and unfit
/// characters after them.
fn several_refusals(file: &mut CaseFile) {
    let some = some_refused_labels();
    for (one, first) in &some {
        for (other, second) in some.iter().filter(|(other, _)| other != one) {
            formed(file, &points(&format!("{first}.a.{second}")));
            if one > other {
                in_turn(file, &points(&format!("\u{3042}.{first}.{second}.jp")));
            }
        }
        for tail in [".", ".a.", "..a", ".a.\u{20}", ".\u{309B}.b"] {
            in_turn(file, &points(&format!("{first}{tail}")));
            in_turn(file, &points(&format!("a.{first}{tail}")));
        }
    }
    for labels in
        ["-a.ab--c.\u{30FB}", "\u{30FB}.ab--c.-a", "ab--c.-a.\u{30FB}", "a.\u{30FB}.ab--\u{3042}.-a"]
    {
        everything(file, &points(labels));
    }
}

/// Some labels, one more, and letters up to 256 code points or a whole label.
fn too_long(front: &str, label: &str) -> Vec<u32> {
    let begun = points(&format!("{front}.{label}."));
    let letters = (256 - begun.len()).min(63);
    [begun, vec![0x61; letters]].concat()
}

/// Hosts whose form is too long and to which another refusal applies, in a late
/// label or in the first.
fn too_long_and_refused(file: &mut CaseFile) {
    let ascii = [a(63), a(63), a(63), a(30)].join(".");
    for front in [ascii, vec![hiragana(15); 12].join("."), vec![hiragana(1); 40].join(".")] {
        for (_number, label) in some_refused_labels() {
            in_turn(file, &too_long(&front, &label));
            in_turn(file, &too_long(&label, &front));
        }
        for label in ["", "b", "a b", "\u{3046}\u{309B}"] {
            in_turn(file, &too_long(&front, label));
        }
    }
    for last in ["-", "\u{30FB}", ""] {
        formed(file, &points(&("\u{3042}.".repeat(127) + last)));
    }
}

/// Texts of about 256 code points.
fn text_lengths(file: &mut CaseFile) {
    let half_width = "\u{FF76}\u{FF9E}".repeat(15);
    for unit in ["a.", "\u{3042}.", "."] {
        for length in [255, 256, 257, 300] {
            in_turn(file, &points(unit).into_iter().cycle().take(length).collect::<Vec<_>>());
        }
    }
    for (count, tail) in [(8, ""), (8, ".aaaaaaaa"), (8, ".aaaaaaaaa"), (9, ".a")] {
        let typed = points(&(vec![half_width.clone(); count].join(".") + tail));
        formed(file, &typed);
        in_turn(file, &normal_form(&typed));
    }
    for (labels, last) in [(125, 6), (126, 4), (127, 2), (127, 3)] {
        in_turn(file, &points(&("a.".repeat(labels) + &a(last))));
        in_turn(file, &points(&("\u{3042}.".repeat(labels) + &a(last))));
    }
    // The last code point is a mark, an unfit one, a period or a base.
    for last in ["\u{FF9E}", " ", ".", "\u{FF76}"] {
        for front in ["b", ""] {
            in_turn(file, &points(&("a.".repeat(126) + front + "b\u{FF8A}" + last)));
        }
    }
}

/// Hosts as they are typed: each beginning.
fn typed(file: &mut CaseFile) {
    for host in [
        "ns1.\u{3042}\u{30FB}\u{3044}.co.jp", "-a.xn--b.\u{30FB}a.c",
        "\u{FF76}\u{FF9E}.a.\u{30CF}\u{309C}\u{309C}", "\u{3042}\u{3044}--\u{3046}.b.c.",
        "A\u{3002}\u{2212}\u{FF61}\u{FF2A}-\u{FF50}\u{FF0E}b", "1.2.3.4",
    ] {
        let host = points(host);
        for end in 0..=host.len() {
            file.add('V', 0, &host[..end]);
        }
        in_turn(file, &host);
    }
    let long = points(&[a(63), a(63), a(63), a(70)].join("."));
    for end in [63, 64, 65, 128, 129, 192, 193].into_iter().chain(252..=259) {
        in_turn(file, &long[..end]);
    }
    for length in [14, 15, 16, 17, 31] {
        file.add('V', 0, &points(&("a.b.".to_string() + &hiragana(length))));
    }
    for length in [256, 257, 258, 300] {
        file.add('V', 0, &vec![0x3042; length]);
        file.add('v', 0, &vec![0x20; length]);
        file.add('G', 0, &vec![0u32; length]);
        file.add('g', 0, &vec![0x61u32; length]);
    }
}

/// Ways to type a host.
fn spellings(file: &mut CaseFile) {
    for host in ["ns-1.a-b.jp", "x.y.z", "ab--c.b.c", "a.-b.c", "a.\u{3042}.9", "A.b.c.", "\u{3042}a--b.c.d"]
    {
        for spelled in [wide(host), host.to_uppercase(), wide(&host.to_uppercase())] {
            in_turn(file, &points(&spelled));
        }
        for hyphen in ["\u{FF0D}", "\u{2212}", "\u{2010}", "\u{30FC}"] {
            in_turn(file, &points(&host.replace('-', hyphen)));
        }
        for separator in ["\u{3002}", "\u{FF0E}", "\u{FF61}", "\u{30FB}", ",", "\u{3001}"] {
            in_turn(file, &points(&host.replace('.', separator)));
        }
    }
    for place in 0..=6 {
        let mut text = points("a.b.cd");
        text.insert(place, 0x2212);
        formed(file, &text);
    }
    // A base and its mark, together and parted by a separator or a hyphen.
    for base in ["\u{30AB}", "\u{FF8A}", "\u{3046}", ""] {
        for mark in ["\u{309B}", "\u{309C}", "\u{FF9E}", "\u{FF9F}"] {
            in_turn(file, &points(&format!("a.{base}{mark}.b")));
            in_turn(file, &points(&format!("{base}.{mark}a.b")));
        }
    }
}

/// One, two and three characters of each kind in each place.
fn short_labels(file: &mut CaseFile) {
    let kinds = [
        "a", "0", "z9", "\u{3042}", "-", "\u{30FB}", "\u{30FC}", "\u{3006}", "\u{3005}", "a-", "-a",
        "a\u{30FB}", "\u{30FB}\u{3005}", "a-b", "--", "---", "\u{3042}-",
    ];
    for kind in kinds {
        for text in [
            format!("{kind}.b.c"),
            format!("a.{kind}.c"),
            format!("a.b.{kind}"),
            format!("{kind}.{kind}.{kind}"),
        ] {
            in_turn(file, &points(&text));
        }
    }
    for last in ["jp", "com", "tokyo", "\u{6771}\u{4EAC}", "j", "1", "\u{65E5}\u{672C}", "jpn", "x-y"] {
        formed(file, &points(&format!("ns.example.{last}")));
    }
}

/// Labels about as long as may be, in each place.
fn label_lengths(file: &mut CaseFile) {
    for (unit, lengths) in [
        ("a", 61..=66),
        ("\u{3042}", 13..=18),
        ("\u{FF71}", 14..=16),
        ("\u{FF76}\u{FF9E}", 14..=16),
        ("\u{30FC}", 14..=16),
    ] {
        for length in lengths {
            for at in 0..3 {
                in_turn(file, &with_label(3, at, &unit.repeat(length)));
            }
        }
    }
    for length in [13, 14, 15, 62, 63] {
        for at in 0..3 {
            in_turn(file, &with_label(3, at, &(a(length) + "\u{4E9C}")));
            in_turn(file, &with_label(3, at, &("\u{4E9C}".to_string() + &a(length))));
        }
    }
}

/// Two hyphens side by side at each place of a label, ASCII and Japanese.
fn hyphen_pairs(file: &mut CaseFile) {
    for length in [4, 5, 6] {
        for place in 0..length - 1 {
            for kinds in ["a0bc1d", "\u{3042}0bc1d", "\u{3042}\u{30FC}\u{30A2}\u{4E9C}\u{3005}\u{3006}"] {
                let mut label: Vec<char> = kinds.chars().take(length).collect();
                label[place..place + 2].fill('-');
                let label = String::from_iter(label);
                in_turn(file, &with_label(3, place % 3, &label));
                in_turn(file, &with_label(4, 1 + place % 3, &label));
            }
        }
    }
    let others = [
        "ab-c", "a-b-c", "abc--d", "ab---c", "ab----c", "-a--b", "ab--", "xn--", "XN--l8j", "ab--\u{30FB}",
        "\u{FF76}\u{FF9E}a--b", "\u{FF76}\u{FF9E}--b",
    ];
    for label in others {
        for at in 0..3 {
            in_turn(file, &with_label(3, at, label));
        }
    }
    for length in [62, 63, 64] {
        formed(file, &points(&format!("a.b.cd--{}", "e".repeat(length - 4))));
    }
}

/// An unfit character at each place, alone and twice.
fn unfit(file: &mut CaseFile) {
    for code in [0, 0x20, 0x5F, 0x309B, 0xFF9F, 0x30F7, 0x9FA1, 0x10000061] {
        for at in [0, 2, 6] {
            let mut text = points("\u{FF8A}\u{FF9E}.b.cd");
            text.insert(at, code);
            in_turn(file, &text);
            text.push(code);
            in_turn(file, &text);
        }
        in_turn(file, &[code]);
        in_turn(file, &[0x2E, code, 0x2E]);
    }
}

/// Some kanji in hosts of three labels, and both ends of them by every call.
fn some_kanji(file: &mut CaseFile) {
    for (order, nine) in kanji_in_rows().chunks(9).enumerate().step_by(24) {
        let labels: Vec<&[u32]> = nine.chunks(3).collect();
        let text = labels.join(&PERIOD);
        file.add(['H', 'h'][order / 24 % 2], 255, &text);
    }
    for code in [0x4DFF, 0x4E00, 0x4EDD, 0x9FA0, 0x9FA1] {
        everything(file, &[0x61, 0x2E, code, 0x2E, 0x62]);
    }
}

/// Lent buffers of many lengths.
fn buffers(file: &mut CaseFile) {
    for text in ["", "a.b.c", "a.b", "a.b.-", "\u{FF76}\u{FF9E}.B.\u{3042}", " "].map(points) {
        for lent in [0, 1, 5, 63, 191, 192, 252, 253, 254, 255, 256, 257, 300] {
            file.add('H', lent, &text);
        }
        for lent in [0, 253, 254, 255, 256] {
            file.add('h', lent, &text);
        }
    }
    let full = [a(63), a(63), a(63), a(61)].join(".");
    let over = [a(63), a(63), a(63), a(62)].join(".");
    let encoded = ["\u{3042}"; 31].join(".");
    for text in
        [full, over, encoded, a(257), format!("a.{}.b", a(64)), "a.b.ab--c".into(), "a.\u{30FB}.b".into()]
    {
        for lent in [0, 254, 255, 256] {
            file.add('H', lent, &points(&text));
        }
    }
    // LEN is not read by the others.
    for (call, lent) in [('G', 1), ('V', 255), ('g', 256), ('v', 300)] {
        file.add(call, lent, &points("a.b.c"));
    }
}

/// What makes random hosts.
#[derive(Default)]
pub struct HostMaker {
    names: NameMaker,
}

impl HostMaker {
    /// A label that a host may have.
    fn label(&self, random: &mut Random) -> Vec<u32> {
        loop {
            let label = match random.once_in(4) {
                true => points(random.pick::<&str>(&["a", "7", "ns", "jp", "co", "\u{3042}", "\u{30FC}"])),
                false => self.names.label(random),
            };
            if check_label(&label, OF_HOSTS, Edition::Today, 0).is_ok() {
                return label;
            }
        }
    }

    /// A host as an applicant may type it. It is accepted unless it is too long.
    pub fn typed_host(&self, random: &mut Random) -> Vec<u32> {
        let count = if random.once_in(10) { random.between(7, 20) } else { random.between(3, 6) };
        let labels: Vec<Vec<u32>> = (0..count).map(|_| self.label(random)).collect();
        self.names.respell(&labels.join(&PERIOD), random)
    }

    /// A host with one label replaced by one that is refused, or with one code
    /// point changed, put in, left out or swapped.
    pub fn damaged(&self, typed: &[u32], random: &mut Random) -> Vec<u32> {
        if random.once_in(2) {
            return self.names.edit(typed, random);
        }
        let mut labels = labels(&normal_form(typed));
        let at = random.below(labels.len());
        let of_number = refused_labels();
        let (_number, refused) = random.pick(&of_number);
        labels[at] = points(random.pick::<String>(refused));
        labels.join(&PERIOD)
    }
}

/// Random hosts as typed and their damaged copies.
fn random(file: &mut CaseFile) {
    let mut random = Random::seeded(SEED ^ 0x4057);
    let maker = HostMaker::default();
    for _ in 0..50 {
        let typed = maker.typed_host(&mut random);
        let damaged = maker.damaged(&typed, &mut random);
        formed(file, &typed);
        in_turn(file, &damaged);
        in_turn(file, &damaged);
    }
}
