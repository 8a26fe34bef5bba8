//! Old editions for old names (K12): what differs between the editions, what does
//! not, numbers that are no edition, and words that are no number. The editions 1 to
//! 4 are asked here by their numbers, today's too.

use super::kinds::IN_A_CASE;
use super::labels::numbers;
use super::random::NameMaker;
use super::tried::{self, row, Tried};
use super::{CaseFile, SEED};
use crate::chars::SIGNS;
use crate::name::{japanese_prefectures, latin_prefectures};
use crate::points;
use crate::random::Random;
use std::ops::RangeInclusive;

/// The four editions, and a number before and after them.
const NEAR: RangeInclusive<u32> = 0..=5;
const EDITIONS: RangeInclusive<u32> = 1..=4;

/// Numbers that are no edition, and of which a cut to eight or sixteen bits or a sign
/// would make one.
pub const STRANGERS: [u32; 15] = [
    0, 5, 6, 255, 256, 257, 258, 259, 260, 65_536, 65_537, 65_540, 2_147_483_649, 4_294_967_292,
    4_294_967_295,
];

/// The calls that judge a name, lent the table of kanji, and those that name it
/// themselves, each with the room that it asks for.
const LENT: [(char, usize); 4] = [('C', 256), ('A', 192), ('J', 0), ('L', 0)];
const OWN: [(char, usize); 4] = [('c', 256), ('a', 192), ('j', 0), ('l', 0)];

/// Words that name no call: numbers that are not written as they should be, and an
/// edition after a call that takes none.
const MALFORMED: [&str; 42] = [
    "C01 256", "C00 256", "C-1 256", "C+1 256", "C4294967296 256", "C18446744073709551617 256", "Cx 256",
    "C1x 256", "C1.0 256", "C0x1 256", "C1C 256", "CC 256", "c04 256", "A00000001 192", "a4294967297 192",
    "J1, 0", "j1_ 0", "L1- 0", "l9999999999 0", "M-0 0", "V03 0", "vv 0", "K1K 0", "N4 256", "N1 256",
    "H1 255", "h4 255", "S1 0", "s4 0", "B2 0", "G4 0", "g1 0", "X4 63", "E1 63", "D1 63", "P3 1", "T4 1",
    "U1 63", "F0 0", "W4 256", "Q04 0", "R-1 256",
];

pub fn add(file: &mut CaseFile) {
    for (edition, name) in requested() {
        by_two(file, edition, &name.0);
    }
    tried_names(file);
    early_sign(file);
    early_sign_as_unfit(file);
    early_sign_below_the_name(file);
    prefectures(file);
    begun_prefectures(file);
    three_labels(file);
    beside_other_refusals(file);
    short_buffers(file);
    strangers(file);
    typed(file);
    long_texts(file);
    hopes(file);
    hosts(file);
    characters_and_texts(file);
    random(file);
    malformed(file);
    which_there_are(file);
}

/// Which numbers have an edition.
fn which_there_are(file: &mut CaseFile) {
    for edition in NEAR.chain(STRANGERS) {
        file.add_in::<u32>('I', edition, 0, &[]);
    }
    file.add('I', 0, &[0x3003]);
}

fn taken(edition: u32, name: &str) -> (u32, Tried) {
    (edition, row(name, 0, 0, 'G', name))
}

fn refused(edition: u32, text: &str, number: u8, place: usize) -> (u32, Tried) {
    (edition, row(text, number, place, '-', ""))
}

/// Names that K12 decides, each with its edition.
pub fn requested() -> Vec<(u32, Tried)> {
    let mut names = with_early_sign();
    names.extend(with_prefecture());
    for edition in EDITIONS {
        names.push((edition, row("a\u{2212}B.jp", 0, 0, 'G', "a-b.jp")));
        names.push(refused(edition, "ab--c.jp", 17, 0));
        names.push(taken(edition, "ab--\u{3042}.jp"));
        names.push(refused(edition, "", 2, 0));
        names.push(refused(edition, &"a".repeat(257), 3, 256));
    }
    for edition in [0, 5] {
        for text in ["", "\u{3003}.jp", "abc.jp", "abc.tokyo.jp", "ab.jp", " ", &"a".repeat(257)] {
            names.push(refused(edition, text, 25, 0));
        }
    }
    names
}

/// 3003 is a Japanese character in edition 1, and unfit after it.
fn with_early_sign() -> Vec<(u32, Tried)> {
    let many = |times: usize| "\u{3003}".repeat(times) + ".jp";
    let mut names = vec![
        taken(1, "\u{3003}.jp"),
        taken(1, "\u{30FB}\u{3003}.jp"),
        taken(1, "ab--\u{3003}.jp"),
        taken(1, &many(15)),
        refused(1, &many(16), 9, 0),
        refused(1, "-\u{3003}.jp", 7, 0),
        refused(1, "\u{3003}\u{2212}.jp", 7, 0),
        refused(1, "\u{3003}", 5, 0),
        refused(1, "\u{3003}\u{309B}.jp", 4, 1),
        refused(1, "\u{3003}.com", 11, 0),
        refused(1, "\u{3003}.tokyo.jp", 5, 0),
        refused(1, "abc.\u{3003}.jp", 5, 0),
        (1, row("\u{FF76}\u{FF9E}\u{3003}.JP", 0, 0, 'G', "\u{30AC}\u{3003}.jp")),
    ];
    for edition in 2..=4 {
        names.extend([
            refused(edition, "\u{3003}.jp", 4, 0),
            refused(edition, "\u{30FB}\u{3003}.jp", 4, 1),
            refused(edition, "\u{3003}\u{309B}.jp", 4, 0),
            refused(edition, "\u{FF76}\u{FF9E}\u{3003}.JP", 4, 2),
            refused(edition, "\u{3003}.tokyo.jp", 4, 0),
            refused(edition, "abc.\u{3003}.jp", 4, 4),
        ]);
    }
    names
}

/// Prefecture names came with edition 3, Japanese ones with edition 4.
fn with_prefecture() -> Vec<(u32, Tried)> {
    let (latin, japanese) = ("abc.tokyo.jp", "abc.\u{6771}\u{4EAC}.jp");
    let mut names = Vec::new();
    for edition in [1, 2] {
        names.extend([latin, japanese, "abc.tokio.jp", "abc..jp"].map(|text| refused(edition, text, 5, 0)));
    }
    for edition in [3, 4] {
        names.push((edition, row(latin, 0, 0, 'P', latin)));
        names.push(refused(edition, "abc.tokio.jp", 12, 0));
        names.push(refused(edition, "abc..jp", 6, 1));
    }
    names.push(refused(3, japanese, 12, 0));
    names.push((4, row(japanese, 0, 0, 'P', japanese)));
    names
}

/// One of the four calls that are lent the table, or of those that name it.
fn ask(file: &mut CaseFile, calls: [(char, usize); 4], which: usize, edition: u32, text: &[u32]) {
    let (call, lent) = calls[which % 4];
    file.add_in(call, edition, lent, text);
}

fn by_all(file: &mut CaseFile, edition: u32, text: &str) {
    (0..4).for_each(|which| ask(file, LENT, which, edition, &points(text)));
}

/// The next turn of so many, one further on after each round, so that no edition meets
/// the same calls always.
fn next_turn(file: &mut CaseFile, of: usize) -> usize {
    file.turn += 1;
    (file.turn + file.turn / of) % of
}

/// The check, and one of the other calls in its turn.
fn by_two(file: &mut CaseFile, edition: u32, text: &str) {
    let which = next_turn(file, 6);
    let text = points(text);
    ask(file, LENT, 0, edition, &text);
    match which {
        other @ 0..=2 => ask(file, LENT, other + 1, edition, &text),
        other => ask(file, OWN, other - 2, edition, &text),
    }
}

/// One of the eight calls in its turn.
fn in_turn(file: &mut CaseFile, edition: u32, text: &[u32]) {
    let which = next_turn(file, 8);
    ask(file, if which < 4 { LENT } else { OWN }, which, edition, text);
}

/// The tried names of both documents by every call, and the errors that the rules
/// invite.
fn tried_names(file: &mut CaseFile) {
    let names: Vec<String> =
        tried::names().into_iter().chain(tried::requested()).map(|name| name.0).collect();
    for (order, text) in names.iter().enumerate() {
        for edition in NEAR {
            by_all(file, edition, text);
            if order % 3 == 0 {
                ask(file, OWN, order / 3 + edition as usize, edition, &points(text));
            }
        }
    }
    for text in tried::texts().iter().filter(|text| !names.contains(text)) {
        [1, 3].into_iter().for_each(|edition| in_turn(file, edition, &points(text)));
    }
}

/// 3003 in each place of a label.
fn in_each_place(label: &str) -> Vec<String> {
    let label: Vec<char> = label.chars().collect();
    let with =
        |place: usize| [&label[..place], &['\u{3003}'], &label[place..]].concat().into_iter().collect();
    (0..=label.len()).map(with).collect()
}

/// Leftmost labels with 3003: beside every kind, with middle dots, hyphens and
/// marks, once and often.
fn early_labels() -> Vec<String> {
    let signs = SIGNS.iter().filter_map(|code| char::from_u32(*code)).map(String::from);
    let kinds = ["a", "0", "-", "\u{3042}", "\u{30A2}", "\u{4E9C}", "\u{FF71}"].map(String::from);
    let beside = kinds.into_iter().chain(signs);
    let mut labels: Vec<String> =
        beside.flat_map(|other| [format!("\u{3003}{other}"), format!("{other}\u{3003}")]).collect();
    labels.extend(in_each_place("abcd"));
    labels.extend(in_each_place("\u{3042}\u{30FB}"));
    let fixed = "\u{3003} \u{3003}\u{3003} \u{30FB}\u{3003}\u{30FB} a\u{30FB}\u{3003} \
        \u{30FB}\u{30FC}\u{3003}\u{3006} \u{FF65}-\u{3003} -\u{3003}- \u{2212}\u{3003} \u{3003}\u{FF0D} \
        a-\u{3003} ab--\u{3003} \u{3003}b--c a\u{3003}--b xn--\u{3003} \u{3003}\u{309B} \u{3003}\u{309C} \
        \u{3003}\u{FF9E} \u{3003}\u{FF9F} \u{3003}\u{3099} \u{30CF}\u{3003}\u{309B} \u{30CF}\u{309B}\u{3003} \
        \u{FF76}\u{FF9E}\u{3003}\u{FF77}\u{FF9E} \u{3003}_ _\u{3003} \u{3042}\u{30A2}\u{4E9C}\u{3003}";
    labels.extend(fixed.split(' ').map(String::from));
    for times in [13, 14, 15] {
        labels.extend(
            [("\u{3003}", ""), ("\u{3003}", "a"), ("a", "\u{3003}")]
                .map(|(unit, end)| unit.repeat(times) + end),
        );
    }
    labels.push("\u{3003}".repeat(16));
    labels.push("\u{30FB}".repeat(14) + "\u{3003}");
    labels
}

/// Names with 3003 in other labels, and with other labels after it.
const EARLY_NAMES: [&str; 14] = [
    "\u{3003}", "\u{3003}.", "\u{3003}.com", "\u{3003}.jpn", "\u{3003}.tokyo.jp",
    "\u{3003}.\u{6771}\u{4EAC}.jp", "\u{3003}\u{3002}JP", "abc.\u{3003}.jp", "\u{3003}.\u{3003}.jp",
    "abc.\u{6771}\u{3003}.jp", "abc.\u{3003}", "abc.jp\u{3003}", "abc.\u{3003}jp",
    "\u{3003}.\u{3003}.\u{3003}.jp",
];

fn early_sign(file: &mut CaseFile) {
    let labels = early_labels();
    let names = labels.iter().map(|label| format!("{label}.jp")).chain(EARLY_NAMES.map(String::from));
    for (order, name) in names.enumerate() {
        [1, 2].into_iter().for_each(|edition| by_two(file, edition, &name));
        [3, 4].into_iter().for_each(|edition| in_turn(file, edition, &points(&name)));
        if order % 4 == 0 {
            [0, 5].into_iter().for_each(|edition| in_turn(file, edition, &points(&name)));
        }
    }
}

/// 3003 at each place of names, where it is unfit but for edition 1.
fn early_sign_as_unfit(file: &mut CaseFile) {
    for name in ["abc.jp", "\u{FF76}\u{FF9E}\u{3042}.nara.jp", "ab.\u{5948}\u{826F}.jp"] {
        for text in in_each_place(name) {
            EDITIONS.for_each(|edition| in_turn(file, edition, &points(&text)));
        }
    }
}

/// 3003 as a character, in a label by itself, and in a text of which it is asked
/// first whether it is fit.
fn early_sign_below_the_name(file: &mut CaseFile) {
    let labels = early_labels();
    for edition in NEAR {
        file.add_in('K', edition, 0, &[0x3003]);
        file.add_in(
            'K',
            edition,
            0,
            &[0x3002u32, 0x3003, 0x309B, 0x3003, 0x309C, 0x3004, 0x1_3003, 0x8000_3003],
        );
        for (order, label) in labels.iter().enumerate().skip(edition as usize % 3).step_by(3) {
            file.add_in('Q', edition, order % 2, &numbers(0, 3, order % 5, &points(label)));
        }
        for text in
            ["\u{3003}", "a\u{3003} \u{3003}", "\u{FF76}\u{FF9E}\u{3003}.jp", " \u{3003}", "\u{3003}\u{309B}"]
        {
            file.add_in('R', edition, 256, &points(text));
        }
    }
}

/// All prefecture labels, the Latin ones first.
fn all_prefectures() -> Vec<String> {
    [latin_prefectures(), japanese_prefectures()].concat()
}

/// Each prefecture label in each edition, by the check and the ASCII form, and by one of
/// the other calls.
fn prefectures(file: &mut CaseFile) {
    for (order, word) in all_prefectures().iter().enumerate() {
        let text = points(&format!("{}.{word}.jp", ["abc", "\u{3042}"][order % 2]));
        for edition in NEAR {
            file.add_in('C', edition, 256, &text);
            file.add_in('A', edition, 192, &text);
        }
        let (call, lent) = [('L', 0), ('J', 0), ('c', 256), ('l', 0), ('j', 0), ('a', 192)][order % 6];
        file.add_in(call, 1 + order as u32 / 6 % 4, lent, &text);
        if order % 8 == 0 {
            let spelled = points(&format!("abc.{}\u{3002}JP", super::names::wide(&word.to_uppercase())));
            EDITIONS.for_each(|edition| in_turn(file, edition, &spelled));
        }
    }
}

/// Each prefecture label as it is typed, and by itself, begun and whole. M asks of
/// every beginning.
fn begun_prefectures(file: &mut CaseFile) {
    for (order, word) in all_prefectures().iter().enumerate() {
        let text = points(&format!("abc.{word}.jp"));
        let other = [2, 4, 1, 4, 0, 4, 5][order % 7];
        file.add_in('M', 3, 0, &text);
        file.add_in('M', other, 0, &text);
        let word = points(word);
        file.add_in('Q', 3, 0, &numbers(0, 3, 1, &word));
        file.add_in('Q', [1, 2, 4, 0, 5][order % 5], 0, &numbers(0, 3, 1, &word));
        let begun = &word[..1 + order % (word.len() - 1)];
        file.add_in('Q', order as u32 % 6, 0, &numbers(0, 3, 1, begun));
    }
    for edition in NEAR {
        for label in ["", "jp", "j", "tokio", "x", "tokyo\u{3042}", "\u{6771}\u{90FD}"] {
            file.add_in('Q', edition, 0, &numbers(0, 3, 1, &points(label)));
        }
    }
}

/// Three labels to which other rows apply besides: 5 comes before them where there
/// are no prefecture names. And two or four labels, where nothing changes.
fn three_labels(file: &mut CaseFile) {
    let long = "a".repeat(64);
    let texts = [
        "abc..jp",
        ".tokyo.jp",
        "abc.tokyo.",
        "..",
        "-ab.tokyo.jp",
        "ab-.\u{6771}\u{4EAC}.jp",
        "ab.tokyo.jp",
        &format!("{long}.tokyo.jp"),
        "ab--c.tokyo.jp",
        "\u{30FB}.tokyo.jp",
        "abc.tokyo.com",
        "abc.\u{6771}\u{4EAC}.com",
        "abc.tokio.jp",
        "ab.tokio.com",
        "abc.jp.jp",
        "abc.tokyo .jp",
        "a b.tokyo.jp",
        "abc.tokyo.jp.",
        "a.b.c.jp",
        "...",
        "abc.",
        ".jp",
        "-ab.jp",
        "abc.com",
        "abc.tokyo",
        "tokyo.jp",
        "\u{6771}\u{4EAC}.jp",
        "jp.jp",
    ];
    for text in texts {
        [1, 2].into_iter().for_each(|edition| by_two(file, edition, text));
        [3, 4].into_iter().for_each(|edition| in_turn(file, edition, &points(text)));
    }
}

/// A text for each number that may stand after 25, and an accepted one.
fn of_each_number() -> Vec<String> {
    let fixed = [
        "", "abc_.jp", "abc", "abc..jp", "-ab.jp", "ab.jp", "ab--c.jp", "\u{30FB}.jp", "abc.com",
        "abc.tokio.jp", "abc.jp", "\u{3003}.jp", "abc.tokyo.jp", "abc.\u{6771}\u{4EAC}.jp",
    ];
    let long = ["a".repeat(257), "a".repeat(64) + ".jp", "\u{3042}".repeat(16) + ".jp"];
    fixed.map(String::from).into_iter().chain(long).collect()
}

/// 25 stands before all that is asked of the text.
fn beside_other_refusals(file: &mut CaseFile) {
    for (order, text) in of_each_number().iter().enumerate() {
        let text = points(text);
        for edition in [0, 5] {
            (0..4).for_each(|which| ask(file, LENT, which, edition, &text));
            [0, 2].into_iter().for_each(|more| ask(file, OWN, order + more, edition, &text));
        }
        // An edition gives the text its own number.
        EDITIONS.for_each(|edition| ask(file, OWN, order + edition as usize, edition, &text));
    }
    for text in ["", ".jp", "abc."] {
        EDITIONS.for_each(|edition| by_all(file, edition, text));
    }
}

/// 1 stands before 25, for both buffers.
fn short_buffers(file: &mut CaseFile) {
    for edition in NEAR {
        for text in ["", "abc.jp", "\u{3003}.jp", "abc.tokyo.jp"].map(points) {
            for (call, lents) in
                [('C', [0, 255, 257]), ('A', [0, 191, 193]), ('c', [192, 255, 300]), ('a', [63, 191, 256])]
            {
                let some = if text.len() == 6 { &lents[..] } else { &lents[1..2] };
                some.iter().for_each(|lent| file.add_in(call, edition, *lent, &text));
            }
        }
    }
    for (call, lent) in [('C', 255), ('c', 255), ('A', 191), ('a', 191)] {
        for edition in [0, 2, 5] {
            file.add_in(call, edition, lent, &[0x61; 257]);
        }
    }
}

/// Numbers that are no edition, by every call that takes one. The texts are answered
/// otherwise in each edition.
fn strangers(file: &mut CaseFile) {
    let early = points("\u{3003}.jp");
    let (latin, japanese) = (points("abc.nara.jp"), points("abc.\u{5948}\u{826F}.jp"));
    for (order, edition) in STRANGERS.into_iter().enumerate() {
        for text in [&early, &latin, &japanese] {
            ask(file, LENT, order + text.len(), edition, text);
            file.add_in('M', edition, 0, text);
        }
        for (call, lent) in LENT.into_iter().chain(OWN) {
            file.add_in(call, edition, lent, &early);
        }
        file.add_in(if order % 2 == 0 { 'V' } else { 'v' }, edition, 0, &points("a.\u{3003}.jp"));
        file.add_in(if order % 2 == 0 { 'v' } else { 'V' }, edition, 0, &points("a.\u{5948}\u{826F}.jp"));
        file.add_in('K', edition, 0, &[0x3003, 0x3005]);
        file.add_in('Q', edition, 0, &numbers(0, 3, 0, &[0x30FB, 0x3003]));
        file.add_in('Q', edition, 0, &numbers(0, 3, 0, &points("nara")));
        file.add_in('Q', edition, 0, &numbers(0, 3, 0, &points("\u{5948}\u{826F}")));
        file.add_in('R', edition, 256, &early);
    }
}

/// Names as they are typed, beginning by beginning.
fn typed(file: &mut CaseFile) {
    for text in
        ["a\u{3003}.jp.", "\u{FF76}\u{FF9E}\u{3003}\u{3002}mie.jp", "\u{30FB}\u{3003}.\u{4E09}\u{91CD}.jp"]
    {
        let text = points(text);
        for edition in NEAR {
            for end in 0..=text.len() {
                file.add_in('L', edition, 0, &text[..end]);
            }
            [text.len() / 2, text.len()]
                .into_iter()
                .for_each(|end| file.add_in('l', edition, 0, &text[..end]));
        }
    }
}

/// Texts about as long as may be: for a number that is no edition 25 stands in place
/// of 3 too, with the text up to 256 code points and none past it.
fn long_texts(file: &mut CaseFile) {
    for (turn, length) in [255, 256, 257, 300].into_iter().enumerate() {
        for edition in NEAR {
            let unit = ["a", "\u{3003}", "\u{FF76}\u{FF9E}"][(turn + edition as usize) % 3];
            let text: Vec<u32> = points(unit).into_iter().cycle().take(length).collect();
            file.add_in('L', edition, 0, &text);
            let letters = vec![0x62; length];
            file.add_in(['J', 'l', 'j'][(turn + edition as usize) % 3], edition, 0, &letters);
            ask(file, [LENT, OWN][turn % 2], edition as usize / 2 % 2, edition, &letters);
        }
    }
    for edition in [0, 6] {
        file.add_in('M', edition, 0, &[0x61; 257]);
    }
}

/// Texts on their way to a name: with 3003, and with second labels that only some
/// editions have.
fn hopes(file: &mut CaseFile) {
    let long = |unit: &str, times: usize, end: &str| unit.repeat(times) + end;
    let texts = [
        "\u{3003}.jp", "\u{3003}-\u{30FB}.j", "\u{30FB}\u{30FC}\u{3003}.jp", "-\u{3003}", "ab--\u{3003}.jp",
        "ab--c\u{3003}.", "\u{3003}\u{309B}", "\u{FF76}\u{FF9E}\u{3003}", "abc.\u{3003}", "abc.j\u{3003}",
        "\u{3003}.nara.jp", "\u{3003}.\u{5948}\u{826F}.jp", "abc.jp.", "abc.n.", "abc.\u{5948}.",
        "abc.nara.jpn", "abc.\u{5948}\u{826F}.jq", "\u{3042}.J\u{FF30}", "abc.KO", "\u{3042}.\u{611B}",
        "ab.", "abc.x", "-",
    ];
    let edges = [
        long("\u{3003}", 15, ".jp"),
        long("\u{3003}", 16, ""),
        long("a", 14, "\u{3003}."),
        long("a", 15, "\u{3003}"),
        long("\u{30FB}", 14, "\u{3003}."),
        long("\u{30FB}", 15, "\u{3003}"),
        "ab--".to_string() + &long("c", 10, "\u{3003}.jp"),
    ];
    for edition in NEAR {
        file.add_in::<u32>('M', edition, 0, &[]);
        for text in texts.iter().copied().chain(edges.iter().map(String::as_str)) {
            file.add_in('M', edition, 0, &points(text));
        }
    }
}

/// A look at a host is the same whatever edition the state was given.
fn hosts(file: &mut CaseFile) {
    let texts = [
        "a.b.c", "\u{3003}.b.c", "a.\u{3003}.c", "a.b.\u{30FB}\u{3003}", "a.\u{5948}\u{826F}.jp",
        "abc.nara.jp", "abc.jp", "", "a.b.", "-a.b.c", "a.ab--\u{3042}.c", "a.b.\u{30FB}",
        "a.\u{FF76}\u{FF9E}\u{3003}.jp",
    ];
    for (order, text) in texts.into_iter().enumerate() {
        for edition in NEAR {
            file.add_in(['V', 'v'][(order + edition as usize) % 2], edition, 0, &points(text));
        }
    }
    for edition in [0, 1, 5] {
        file.add_in('V', edition, 0, &[0x61; 257]);
    }
}

/// What is the same in every edition: the other characters, what is asked of a text
/// first, and labels without 3003.
fn characters_and_texts(file: &mut CaseFile) {
    let near: Vec<u32> =
        (0x2FFE..0x3010).chain(SIGNS).chain([0x3041, 0x30A1, 0x4E00, 0x61, 0x2E, 0xFF71]).collect();
    for edition in NEAR {
        near.chunks(IN_A_CASE).for_each(|codes| file.add_in('K', edition, 0, codes));
        for text in ["abc.jp", "\u{3042} ", "", "\u{FF76}\u{FF9E}\u{3094}"] {
            file.add_in('R', edition, 256, &points(text));
        }
        file.add_in('R', edition, 255, &[0x3003]);
        file.add_in('R', edition, 256, &[0x3003; 257]);
        for label in ["abc", "ab--c", "-a", "\u{30FB}", "\u{30FB}\u{3005}", "\u{3042}\u{30A2}\u{4E9C}"] {
            file.add_in('Q', edition, 1, &numbers(0, 4, 2, &points(label)));
        }
    }
}

/// A text with 3003 put in, or in place of a code point.
pub fn sprinkled(text: &[u32], random: &mut Random) -> Vec<u32> {
    let mut text = text.to_vec();
    let at = random.below(text.len());
    match random.once_in(2) {
        true => text.insert(at, 0x3003),
        false => text[at] = 0x3003,
    }
    text
}

/// Random names as typed, damaged, and with 3003, in random editions.
fn random(file: &mut CaseFile) {
    let mut random = Random::seeded(SEED ^ 0x3003);
    let maker = NameMaker::default();
    for round in 0..45 {
        let typed = maker.typed_name(&mut random);
        let early = sprinkled(&typed, &mut random);
        let damaged = maker.edit(&typed, &mut random);
        let both = maker.edit(&early, &mut random);
        for text in [typed, early, damaged, both] {
            let edition = random.between(1, 4) as u32;
            in_turn(file, edition, &text);
            let other = if random.once_in(10) { random.draw() as u32 } else { 1 + edition % 4 };
            in_turn(file, other, &text);
            if round % 5 == 0 && text.len() < 40 {
                file.add_in('M', edition, 0, &text);
            }
        }
    }
}

/// Lines that name no call, in their order.
pub fn malformed_lines() -> Vec<String> {
    MALFORMED.iter().map(|word| format!("{word} 61 62 63 2e 6a 70")).collect()
}

fn malformed(file: &mut CaseFile) {
    malformed_lines().into_iter().for_each(|line| file.add_line(line));
}
