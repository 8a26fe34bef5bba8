//! Yes or no for the search box (K9): an unfit code point at every place, marks
//! that join and marks that do not, lengths about the shortest and the longest, what
//! other rules refuse, and letters pasted whole; by the call that is lent the table of kanji, by the one
//! that names it itself and by the outside's.

use super::names::wide;
use super::random::NameMaker;
use super::{places, probe_line, probe_line_in, tried, CaseFile, SEED};
use crate::name::{japanese_prefectures, latin_prefectures};
use crate::points;
use crate::random::Random;

/// The outside's call.
const OUTSIDE: usize = 12;

/// What brings 4 wherever it stands: below the letters and above, beside the
/// Japanese characters, a sign of old editions, a combining mark, what is no
/// scalar value and what is no code point.
const UNFIT: [u32; 24] = [
    0x00, 0x20, 0x21, 0x2F, 0x3A, 0x5F, 0x7B, 0x80, 0xE9, 0x2010, 0x3000, 0x3003, 0x3040, 0x3094, 0x3099,
    0x30A0, 0x30F7, 0x4DFF, 0x9FA1, 0xD800, 0xFF3B, 0xFFA0, 0x110000, 0xFFFF_FFFF,
];

/// Marks in both widths.
const MARKS: [u32; 4] = [0x309B, 0x309C, 0xFF9E, 0xFF9F];

/// Whole letters, as they are pasted; the second is Japanese to its end.
const LETTERS: [&str; 4] = [
    "Dear Sirs, we ask for the name abc.jp and send our regards.",
    "\u{524D}\u{7565}\u{3002}\u{3042}\u{3044}\u{3046}\u{3092}\u{7533}\u{8ACB}\u{3057}\u{307E}\u{3059}\u{3002}\u{8349}\u{3005}",
    "\u{540D}\u{524D}\u{306F}\u{3001}abc.jp\u{3067}\u{3059}",
    "abc.jp\r\n",
];

pub fn add(file: &mut CaseFile) {
    for text in tried::texts() {
        by_all(file, &points(&text));
    }
    for text in places::REFUSED.iter().chain(&places::NOT_TWO_OR_THREE) {
        by_all(file, &points(text));
    }
    every_place(file);
    unfit(file);
    marks(file);
    lengths(file);
    letters(file);
    later(file);
    endings(file);
    random(file);
    malformed_lines().into_iter().for_each(|line| file.add_line(line));
}

/// One of the three calls.
fn ask(file: &mut CaseFile, which: usize, text: &[u32]) {
    let (call, lent) = [('Z', 0), ('z', 0), ('O', OUTSIDE)][which % 3];
    file.add(call, lent, text);
}

fn by_all(file: &mut CaseFile, text: &[u32]) {
    (0..3).for_each(|which| ask(file, which, text));
}

/// One of the three, each in its turn.
fn in_turn(file: &mut CaseFile, text: &[u32]) {
    file.turn += 1;
    let which = file.turn;
    ask(file, which, text);
}

/// Every place up to the last that is read, and something after it.
fn every_place(file: &mut CaseFile) {
    for place in 0..256 {
        let after = (255 - place).min(1 + place % 4);
        by_all(file, &[vec![0x61; place], vec![0x21], vec![0x62; after]].concat());
    }
    // Past characters that are joined the place is still one of the text.
    for pairs in (0..=20).chain([64, 126, 127]) {
        let joined = [0xFF76, 0xFF9E].repeat(pairs);
        in_turn(file, &[&joined[..], &[0x20], &points(".jp")[..(255 - joined.len()).min(3)]].concat());
        in_turn(file, &[&joined[..], &[0x4E9C]].concat());
    }
    by_all(file, &[vec![0x61; 255], vec![0x21]].concat());
    by_all(file, &[vec![0x21], vec![0x61; 255]].concat());
    by_all(file, &[0xFF76, 0xFF9E].repeat(128));
}

/// Each unfit code point first, last and between.
fn unfit(file: &mut CaseFile) {
    for code in UNFIT {
        for text in ["abc.jp", "\u{FF8A}\u{FF9F}\u{3042}.tokyo.jp"] {
            let text = points(text);
            for place in [0, 2, text.len()] {
                in_turn(file, &[&text[..place], &[code], &text[place..]].concat());
            }
        }
        by_all(file, &[code]);
    }
}

/// Marks after a base that they join, after others, after one another and first.
fn marks(file: &mut CaseFile) {
    let before = [
        "", "\u{3046}", "\u{30A6}", "\u{30AB}", "\u{306F}", "\u{FF8A}", "\u{FF73}", "\u{309D}",
        "\u{30CF}\u{309C}", "\u{30AC}", "a", "-", ".", "\u{4E9C}", "\u{30FB}", "\u{30FC}",
    ];
    for mark in MARKS {
        for before in before {
            let begun = [points(before), vec![mark]].concat();
            by_all(file, &begun);
            in_turn(file, &[&begun[..], &points(".jp")].concat());
            for again in [0x309B, 0xFF9F] {
                in_turn(file, &[&begun[..], &[again], &points(".jp")].concat());
            }
            in_turn(file, &[&points("\u{3042}\u{FF76}\u{FF9E}")[..], &begun, &points("\u{3002}JP")].concat());
        }
    }
    for many in 1..=20 {
        in_turn(file, &[vec![0x3093; many], vec![0x309B], points(".jp")].concat());
        in_turn(file, &[vec![0x30CF; many], vec![0xFF9F], points(".jp")].concat());
    }
}

/// Lengths about the longest, fit and with an unfit code point first and last.
fn lengths(file: &mut CaseFile) {
    for length in [0, 1, 2, 3, 254, 255, 256, 257, 258, 300, 512, 1000] {
        by_all(file, &vec![0x61; length]);
        if length > 0 {
            by_all(file, &[vec![0x21], vec![0x61; length - 1]].concat());
            in_turn(file, &[vec![0x61; length - 1], vec![0x20]].concat());
        }
    }
    for label in [1, 2, 3, 62, 63, 64, 252, 253, 254] {
        by_all(file, &[vec![0x6B; label], points(".jp")].concat());
        in_turn(file, &[vec![0x6B; label], points(".nara.jp")].concat());
    }
    for label in [1, 14, 15, 16, 127] {
        for unit in ["\u{3042}", "\u{FF8A}\u{FF9F}"] {
            by_all(file, &points(&(unit.repeat(label) + ".jp")));
            in_turn(file, &points(&(unit.repeat(label) + ".\u{6771}\u{4EAC}\u{3002}jp")));
        }
    }
}

/// Letters that people paste: a name and what stands about it.
fn letters(file: &mut CaseFile) {
    for text in LETTERS {
        by_all(file, &points(text));
        by_all(file, &points(&text.repeat(20))[..400.min(text.chars().count() * 20)]);
    }
    for (before, after) in
        [(" ", ""), ("", " "), ("", "\n"), ("\u{3000}", ""), ("\u{300C}", "\u{300D}"), ("\u{FEFF}", "")]
    {
        by_all(file, &points(&format!("{before}abc.jp{after}")));
        in_turn(file, &points(&format!("{before}\u{FF76}\u{FF9E}.\u{FF2A}\u{FF30}{after}")));
    }
}

/// Unfit code points beside what other rules refuse, and several of them: the
/// leftmost stops.
fn later(file: &mut CaseFile) {
    for text in places::REFUSED {
        let text = points(text);
        for place in [0, text.len() / 2, text.len()] {
            in_turn(file, &[&text[..place], &[0x5F], &text[place..]].concat());
        }
    }
    for text in [
        "a!b!c.jp", "!!", ".. .jp", "--!", "\u{3046}\u{309B}!.jp", "!\u{3046}\u{309B}.jp", "xn--l8j!.jp",
        "a.b.c.d!",
    ] {
        by_all(file, &points(text));
    }
}

/// Each prefecture label, and names of old editions: it stays with edition 4.
fn endings(file: &mut CaseFile) {
    for (order, word) in latin_prefectures().iter().chain(&japanese_prefectures()).enumerate() {
        let spelled = match order % 3 {
            0 => word.to_uppercase(),
            1 => wide(word),
            _ => word.clone(),
        };
        in_turn(file, &points(&format!("\u{30AB}\u{309B}.{spelled}.jp")));
    }
    for text in ["\u{3003}.jp", "\u{3042}\u{3003}.jp", "abc.\u{6771}\u{4EAC}.jp", "abc.tokyu.jp"] {
        by_all(file, &points(text));
    }
    for edition in [0, 1, 3, 5] {
        file.add_in('O', edition, OUTSIDE, &points("\u{3003}.jp"));
        file.add_in('O', edition, OUTSIDE, &points("abc.\u{6771}\u{4EAC}.jp"));
    }
}

/// Names as they are typed, each with a damaged copy.
fn random(file: &mut CaseFile) {
    let mut random = Random::seeded(SEED ^ 0x4B39);
    let maker = NameMaker::default();
    for _ in 0..150 {
        let typed = maker.typed_name(&mut random);
        in_turn(file, &typed);
        in_turn(file, &maker.edit(&typed, &mut random));
    }
}

/// It takes no edition.
pub fn malformed_lines() -> Vec<String> {
    let text = points("abc.jp");
    let with_edition = ['Z', 'z'].map(|call| probe_line_in(call, 4, 0, &text));
    let others = [probe_line('Z', 301, &text), "Z".to_string(), "z 0 ".to_string(), "Z 0 g".to_string()];
    with_edition.into_iter().chain(others).collect()
}
