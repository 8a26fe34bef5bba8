//! First and second wish (K1): texts of every number beside each other, each
//! separator after each kind of label, labels that composition shortens, lengths
//! about the longest, and where the second text begins; by the calls on two texts and
//! by the outside's.

use super::names::wide;
use super::random::NameMaker;
use super::{places, probe_line, probe_line_in, tried, CaseFile, SEED};
use crate::name::{japanese_prefectures, latin_prefectures};
use crate::points;
use crate::random::Random;

/// The calls on two texts, and the outside's.
pub const CALLS: [char; 2] = ['w', 'o'];

/// The four separators.
pub const SEPARATORS: [&str; 4] = [".", "\u{FF0E}", "\u{3002}", "\u{FF61}"];

/// Code points that look like a separator, or stand beside one.
const NEARLY: [u32; 20] = [
    0x2C, 0x2D, 0x2F, 0xB7, 0x2024, 0x2025, 0x2026, 0x3001, 0x3003, 0x30FB, 0xFE52, 0xFF0D, 0xFF0F, 0xFF60,
    0xFF62, 0xFF64, 0xFF65, 0x1002E, 0x8000_002E, 0xFFFF_FF0E,
];

/// Leftmost labels as they are typed: in every width, shortened by composition or not.
pub const LABELS: [&str; 14] = [
    "abc", "ABC", "\u{FF21}\u{FF42}\u{FF23}", "a\u{2212}1", "0-9\u{FF0D}z", "\u{3042}", "\u{30FC}",
    "\u{FF76}\u{FF9E}", "\u{30CF}\u{309C}\u{30CF}\u{309B}", "\u{FF8A}\u{FF9F}a\u{304B}\u{309B}",
    "\u{4E9C}\u{7199}", "\u{30FB}\u{3005}", "\u{FF65}\u{FF71}", "\u{309D}\u{309B}\u{4EDD}",
];

/// A text of each number that the check gives.
fn each_number() -> Vec<Vec<u32>> {
    let texts = [
        "", "\u{3042}\u{3046}\u{309B}.jp", "abc", "abc.jp.", "\u{FF76}\u{FF9E}\u{FF0D}\u{3002}jp", "Ab.jp",
        "\u{3042}\u{3042}\u{3042}\u{3042}\u{3042}\u{3042}\u{3042}\u{3042}\u{3042}\u{3042}\u{3042}\u{3042}\u{3042}\u{3042}\u{3042}\u{3042}.jp",
        "XN--L8J.jp", "a\u{30FB}b.jp", "\u{FF76}\u{FF9E}.com", "abc.tokio.jp", "\u{FF76}\u{FF9E}\u{FF61}\u{FF2A}P",
    ];
    let mut texts: Vec<Vec<u32>> = texts.iter().map(|text| points(text)).collect();
    texts.push([points("\u{3042}.jp."), vec![0x61; 252]].concat());
    texts
}

pub fn add(file: &mut CaseFile) {
    for first in each_number() {
        for second in each_number() {
            by_both(file, &first, &second);
        }
    }
    tried_names(file);
    separators(file);
    nearly(file);
    lengths(file);
    refused(file);
    endings(file);
    beginnings(file);
    random(file);
    malformed_lines().into_iter().for_each(|line| file.add_line(line));
}

fn ask(file: &mut CaseFile, which: usize, first: &[u32], second: &[u32]) {
    file.add(CALLS[which % 2], first.len(), &[first, second].concat());
}

fn by_both(file: &mut CaseFile, first: &[u32], second: &[u32]) {
    (0..2).for_each(|which| ask(file, which, first, second));
}

/// One of the calls: which, goes by the turn, but with no period, so that each call
/// gets texts of each kind as either wish.
fn in_turn(file: &mut CaseFile, first: &[u32], second: &[u32]) {
    file.turn += 1;
    let which = file.turn.count_ones() as usize;
    ask(file, which, first, second);
}

/// The names that the documents decide, before and after one that is accepted
/// and one that is refused, and each beside the next.
fn tried_names(file: &mut CaseFile) {
    let texts: Vec<Vec<u32>> = tried::texts().iter().map(|text| points(text)).collect();
    let fine = points("\u{FF21}\u{FF22}\u{2212}\u{FF23}\u{3002}JP");
    for (text, next) in texts.iter().zip(texts.iter().skip(1)) {
        in_turn(file, text, &fine);
        in_turn(file, &fine, text);
        in_turn(file, text, next);
        in_turn(file, next, text);
        in_turn(file, text, text);
    }
}

/// Each separator after each label, in names of both classes, as either wish.
fn separators(file: &mut CaseFile) {
    for label in LABELS {
        for separator in SEPARATORS {
            let name = points(&format!("{label}{separator}jp"));
            by_both(file, &name, &points("abc.jp"));
            by_both(file, &points("ab.jp"), &name);
            for other in SEPARATORS {
                let name = points(&format!("{label}{separator}Gifu{other}\u{FF2A}\u{FF50}"));
                in_turn(file, &name, &[]);
                in_turn(file, &[], &name);
            }
        }
    }
    // First, last, doubled and alone.
    for separator in SEPARATORS {
        for text in ["|", "||", "|jp", "abc|", "abc||jp", "|abc.jp", "abc.jp|", "|abc|jp|"] {
            let text = points(&text.replace('|', separator));
            by_both(file, &text, &points("\u{FF76}\u{FF9E}\u{FF61}jp"));
            in_turn(file, &points("\u{FF76}\u{FF9E}\u{FF61}jp"), &text);
            in_turn(file, &text, &text);
        }
    }
}

/// What is no separator parts nothing.
fn nearly(file: &mut CaseFile) {
    for code in NEARLY {
        for name in ["abc?jp", "abc?x.jp", "\u{3042}?\u{3002}jp", "?abc.jp"] {
            let name: Vec<u32> = name.chars().map(|c| if c == '?' { code } else { c.into() }).collect();
            in_turn(file, &name, &points("\u{30CF}\u{309C}\u{FF0E}jp"));
            in_turn(file, &points("-a.jp"), &name);
        }
    }
}

/// Labels of every length, and texts about the longest.
fn lengths(file: &mut CaseFile) {
    for length in 1..=65 {
        let name = [vec![0x4B; length], points("\u{FF61}jp")].concat();
        in_turn(file, &name, &points("\u{3042}.jp"));
        in_turn(file, &points("ab.jp"), &name);
    }
    for length in 1..=16 {
        for unit in ["\u{3042}", "\u{FF8A}\u{FF9F}", "\u{4E9C}"] {
            let name = points(&(unit.repeat(length) + "\u{3002}\u{6771}\u{4EAC}.jp"));
            in_turn(file, &name, &points("abc.jp"));
            in_turn(file, &points("abc.co.jp"), &name);
        }
    }
    for length in [255, 256, 257, 258, 300] {
        by_both(file, &vec![0x61; length], &points("\u{FF21}bc.jp"));
        by_both(file, &points("abc.jp"), &vec![0x2E; length]);
        by_both(file, &[points("abc.jp."), vec![0x61; length - 7]].concat(), &[]);
    }
    by_both(file, &points("\u{FF76}\u{FF9E}.jp"), &vec![0x21; 600]);
    by_both(file, &vec![0x61; 300], &vec![0x62; 600]);
}

/// Refused texts beside each other: the place of 4 and of 6 is told of both.
fn refused(file: &mut CaseFile) {
    let texts: Vec<&str> = places::REFUSED.iter().chain(&places::NOT_TWO_OR_THREE).copied().collect();
    for (order, text) in texts.iter().enumerate() {
        let other = texts[(order * 7 + 5) % texts.len()];
        in_turn(file, &points(text), &points(other));
        in_turn(file, &points(other), &points(text));
        in_turn(file, &points(text), &points("fax\u{FF0E}jp"));
    }
    for place in [0, 1, 2, 3, 9, 100, 255] {
        let unfit = [vec![0x61; place], vec![0x20], points(".jp")[..(255 - place).min(3)].to_vec()].concat();
        by_both(file, &unfit, &[&[0x2E][..], &unfit[..unfit.len() - 1]].concat());
        in_turn(file, &unfit, &points("abc.jp"));
    }
}

/// Each prefecture label, and names of old editions: it stays with edition 4.
fn endings(file: &mut CaseFile) {
    for (order, word) in latin_prefectures().iter().chain(&japanese_prefectures()).enumerate() {
        let spelled = match order % 3 {
            0 => word.to_uppercase(),
            1 => wide(word),
            _ => word.clone(),
        };
        let separator = SEPARATORS[order % 4];
        in_turn(file, &points(&format!("\u{30AB}\u{309B}{separator}{spelled}.jp")), &points("abc.jp"));
    }
    for text in ["\u{3003}.jp", "\u{3042}\u{3003}.jp", "abc.\u{6771}\u{4EAC}.jp", "abc.tokyu.jp"] {
        by_both(file, &points(text), &points("def.jp"));
        by_both(file, &points("de.jp"), &points(text));
    }
}

/// A pair parted at every place, and past its end.
fn beginnings(file: &mut CaseFile) {
    for text in ["abc.jpdef.jp", "\u{FF76}\u{FF9E}\u{3002}jp\u{FF8A}\u{FF9F}\u{FF0E}jp", "abc.jp.gifu.jp"] {
        let text = points(text);
        for at in (0..=text.len()).chain([text.len() + 1, 255, 256, 300]) {
            CALLS.into_iter().for_each(|call| file.add(call, at, &text));
        }
    }
}

/// Names as they are typed, and damaged ones, as either wish.
fn random(file: &mut CaseFile) {
    let mut random = Random::seeded(SEED ^ 0x4B31);
    let maker = NameMaker::default();
    for _ in 0..150 {
        let typed = maker.typed_name(&mut random);
        let other = maker.typed_name(&mut random);
        let damaged = maker.edit(&typed, &mut random);
        in_turn(file, &typed, &other);
        in_turn(file, &damaged, &other);
        in_turn(file, &other, &damaged);
        in_turn(file, &damaged, &maker.edit(&other, &mut random));
    }
}

/// It takes no edition.
pub fn malformed_lines() -> Vec<String> {
    let text = points("abc.jpdef.jp");
    let with_edition = CALLS.map(|call| probe_line_in(call, 4, 6, &text));
    let too_far = CALLS.map(|call| probe_line(call, 301, &text));
    let others = ["w", "o", "w 6 g", "o 0 ", "w -1 61"].map(str::to_string);
    with_edition.into_iter().chain(too_far).chain(others).collect()
}
