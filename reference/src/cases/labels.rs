//! The calls on one label. A case has the halves of where to begin, of the
//! least length and of the label's place, and then the label. LEN says in which
//! labels the hyphen pair is refused: with 0 in ASCII labels alone, else in all.

use super::kinds::{alike, borders, IN_A_CASE};
use super::random::NameMaker;
use super::{CaseFile, SEED};
use crate::name::{japanese_prefectures, latin_prefectures};
use crate::points;
use crate::random::Random;

/// Numbers that need more than 32 bits, or nearly so.
const HUGE: [usize; 6] = [0x7FFF_FFFF, 0xFFFF_FFFF, 1 << 32, (1 << 32) + 3, 1 << 63, usize::MAX];

pub fn add(file: &mut CaseFile) {
    characters(file);
    short(file);
    long(file);
    orders(file);
    places(file);
    ends(file);
    unfit(file);
    mixed(file);
    random(file);
    last_labels(file);
    prefectures(file);
    taken(file);
    pairs(file);
    pair_places(file);
    pair_orders(file);
}

/// The numbers of a case.
pub fn numbers(from: usize, least: usize, place: usize, label: &[u32]) -> Vec<u32> {
    let halves = [from, least, place].into_iter().flat_map(|number| [(number >> 32) as u32, number as u32]);
    halves.chain(label.iter().copied()).collect()
}

fn add_label(file: &mut CaseFile, from: usize, least: usize, place: usize, label: &[u32]) {
    file.add('Q', 0, &numbers(from, least, place, label));
}

/// A label with the pair refused in ASCII labels alone, and in every label.
fn both_ways(file: &mut CaseFile, least: usize, place: usize, label: &[u32]) {
    for every in [0, 1] {
        file.add('Q', every, &numbers(0, least, place, label));
    }
}

/// A label by itself, as the leftmost one.
fn leftmost(file: &mut CaseFile, label: &[u32]) {
    add_label(file, 0, 3, 0, label);
}

/// Characters, many to a case, and each border as a label.
fn characters(file: &mut CaseFile) {
    let near = (0..0x80).chain(0x2FF0..0x3110).chain(0xFF00..0xFFA0).chain((0x4DFE..=0x9FA2).step_by(31));
    let codes: Vec<u32> = near.chain(borders()).chain(alike()).collect();
    for some in codes.chunks(IN_A_CASE) {
        leftmost(file, some);
    }
    for code in borders().into_iter().chain(alike()) {
        leftmost(file, &[code]);
    }
}

/// Short labels with every least length.
fn short(file: &mut CaseFile) {
    let labels = [
        "", "a", "ab", "abc", "abcd", "-", "--", "---", "-ab", "ab-", "a-b", "\u{3042}", "-\u{3042}",
        "\u{3042}-", "\u{30FB}", "\u{30FC}", "\u{3006}", "\u{30FB}\u{3006}\u{30FC}", "\u{30FB}\u{3005}",
        "a\u{30FB}b", "AB", " ", "\u{FF21}", "a.b", "\u{FF71}", "\u{3094}", "\u{FF65}", "\u{FF65}\u{3042}",
    ];
    for label in labels.map(points) {
        for least in [0, 1, 2, 3, 4, 64] {
            add_label(file, 0, least, 1, &label);
        }
        for least in HUGE {
            add_label(file, least, least, 2, &label);
        }
    }
    leftmost(file, &[0x3042, 0x11_0000]);
    leftmost(file, &[0xFFFF_FFFF, 0x8000_002D, 0x2D]);
}

/// Labels about as long as may be.
fn long(file: &mut CaseFile) {
    for length in [62, 63, 64, 65] {
        for least in [0, 3, 62, 63, 64, 65, 66, usize::MAX] {
            add_label(file, 0, least, 0, &vec![0x61; length]);
        }
        add_label(file, 0, 3, 0, &vec![0x20; length]);
    }
    for length in [14, 15, 16, 17, 63, 64] {
        for unit in ["\u{3042}", "\u{30FB}", "\u{30FC}", "\u{30FB}\u{3006}"] {
            let label: Vec<u32> = points(unit).into_iter().cycle().take(length).collect();
            leftmost(file, &label);
            add_label(file, 1, if length < 20 { usize::MAX } else { 64 }, 1, &label);
        }
        // One Japanese character, at each end and in the midst.
        for at in [0, length / 2, length - 1] {
            let mut label = vec![0x62; length];
            label[at] = 0x4E9C;
            leftmost(file, &label);
        }
    }
    for length in [100, 300] {
        for least in [100, 101, usize::MAX] {
            add_label(file, length, least, 3, &vec![0x63; length]);
        }
    }
}

/// Labels to which two or three of the refusals apply.
fn orders(file: &mut CaseFile) {
    let dots = "\u{30FB}".repeat(15);
    let letters = "a".repeat(63);
    let labels = [
        "-".to_string(),
        "-a".to_string(),
        "a-".to_string(),
        format!("-{letters}"),
        format!("{letters}-"),
        format!("-{dots}"),
        format!("{dots}-"),
        "-\u{30FB}".to_string(),
        "\u{30FB}-".to_string(),
        format!("{dots}\u{30FB}"),
        format!("{dots}a"),
        format!("{dots}\u{3042}"),
        format!("{letters}a"),
    ];
    for label in labels.iter().map(|label| points(label)) {
        for least in [0, 3, 65, usize::MAX] {
            add_label(file, 0, least, 9, &label);
        }
    }
}

/// A label of each number at many places.
fn places(file: &mut CaseFile) {
    let labels =
        ["abc", "-abc", "abc-", "ab", &"\u{3042}".repeat(16), &"d".repeat(64), "\u{30FB}", "\u{3042}"];
    for label in labels.map(points) {
        for place in [1, 2, 3, 255, 256].into_iter().chain(HUGE) {
            add_label(file, 0, 3, place, &label);
        }
    }
}

/// Where a label ends, from each index on and from far past the end.
fn ends(file: &mut CaseFile) {
    let texts = [
        "", ".", "..", "...", "a", "abc", "a.b", "a..b", ".ab", "ab.", ".a.", "abc.tokyo.jp",
        "\u{3042}.\u{30FB}.", "a\u{3002}b", "a\u{FF0E}b.", "\u{FF61}a.", "-.-",
    ];
    for text in texts.map(points) {
        for from in (0..text.len() + 3).chain([0x7FFF_FFFF, 1 << 32, (1 << 32) + 1, usize::MAX]) {
            add_label(file, from, 1, 0, &text);
        }
    }
    // None of these is a period.
    let strangers = [0x12E, 0x1_002E, 0x8000_002E, 0x2D, 0x2F, 0xFFFF_FFFF];
    for from in 0..=strangers.len() {
        add_label(file, from, 1, 0, &strangers);
    }
    for length in [256, 300] {
        let mut text = vec![0x61; length];
        text[length - 1] = 0x2E;
        for from in [0, length - 2, length - 1, length, length + 1] {
            add_label(file, from, 1, 0, &text);
        }
    }
}

/// An unfit character at each place, and two of them.
fn unfit(file: &mut CaseFile) {
    for stranger in [0x20, 0x41, 0x3002, 0x309B, 0xFF41, 0xFF71, 0xD800, 0x11_0000, 0x8000_0061, 0xFFFF_FFFF]
    {
        for place in 0..=4 {
            let mut text = points("a.\u{3042}-");
            text.insert(place, stranger);
            add_label(file, 2, 3, 0, &text);
        }
        leftmost(file, &[0x61, stranger, 0x2E, stranger]);
        leftmost(file, &[stranger, stranger]);
        leftmost(file, &[stranger, 0x30FB, stranger]);
    }
}

/// Labels of two characters of eight kinds, and of three that begin with a
/// middle dot.
fn mixed(file: &mut CaseFile) {
    let kinds = points("a-.\u{3042}\u{30FB}\u{30FC}\u{3006} ");
    for first in &kinds {
        for second in &kinds {
            add_label(file, 1, 2, 4, &[*first, *second]);
        }
    }
    for middle in &kinds {
        for last in &kinds {
            add_label(file, 1, 4, 5, &[0x30FB, *middle, *last]);
        }
    }
}

/// Random names and damaged copies, from anywhere on, of any least length, with
/// the pair refused in some labels or in all.
fn random(file: &mut CaseFile) {
    let mut random = Random::seeded(SEED ^ 0x1ABE);
    let maker = NameMaker::default();
    for _ in 0..40 {
        let normal = maker.normal_name(&mut random);
        let damaged = maker.edit(&normal, &mut random);
        for text in [normal, damaged] {
            let from = random.below(text.len() + 2);
            let least = random.below(70);
            file.add('Q', random.below(3), &numbers(from, least, random.below(4), &text));
        }
    }
}

/// "jp", its beginnings, and labels near it.
fn last_labels(file: &mut CaseFile) {
    let labels = [
        "", "j", "jp", "jpp", "p", "JP", "jP", "Jp", "J", "pj", "pp", "jj", "jo", "jq", "ip", "kp", "jpn",
        "j.", "jp.", ".jp", "j-", "-jp", "j p", "jp ", "\u{FF4A}\u{FF50}", "j\u{FF50}", "ajp", "\u{3042}jp",
        "jpjp",
    ];
    for label in labels.map(points) {
        add_label(file, 0, 3, 2, &label);
    }
    for label in ["", "j", "jp", "jpp"].map(points) {
        for least in 0..=2 {
            add_label(file, least, least, 2, &label);
        }
    }
    // Alike in their lower halves.
    for label in [&[0x1_006A][..], &[0x6A, 0x8000_0070], &[0x8000_006A, 0x70], &[0x6A, 0x70, 0]] {
        add_label(file, 0, 3, 2, label);
    }
}

/// Each prefecture label and its beginnings; with the next one's first
/// character after it; without its own first; with another last one; with a
/// capital. Then some words near them.
fn prefectures(file: &mut CaseFile) {
    let words = latin_prefectures().into_iter().chain(japanese_prefectures());
    let labels: Vec<Vec<u32>> = words.map(|word| points(&word)).collect();
    let mut middle = |label: &[u32]| add_label(file, 0, 3, 1, label);
    for (label, next) in labels.iter().zip(labels.iter().cycle().skip(1)) {
        for end in 0..=label.len() {
            middle(&label[..end]);
        }
        middle(&[&label[..], &next[..1]].concat());
        middle(&label[1..]);
        let last = label.len() - 1;
        middle(&[&label[..last], &[label[last] + 1]].concat());
        if label[0] < 0x80 {
            middle(&[&[label[0] - 0x20], &label[1..]].concat());
        }
    }
    let near = [
        "TOKYO", "toKyo", "tokyO", "tokyotokyo", "tokyo-to", "tokyo.", "\u{FF54}okyo", "kyotoosaka",
        "東京都", "京都府", "青森県", "北海道道", "東", "海道", "道", "東京東京", "東京.", "東tokyo",
        "tokyo京",
    ];
    near.iter().for_each(|word| middle(&points(word)));
    // Alike in their lower halves.
    middle(&[0x1_006D, 0x69, 0x65]);
    middle(&[0x6D, 0x69, 0x8000_0065]);
    middle(&[0x4E09, 0x1_91CD]);
}

/// Labels that are taken for what they are not: about as long as either may
/// be, and with middle dots, which an ASCII label has none of.
fn taken(file: &mut CaseFile) {
    let dots =
        ["\u{30FB}", "\u{30FB}\u{30FB}\u{30FB}", "a\u{30FB}b", "\u{30FB}ab", "ab\u{30FB}", "ab\u{30FB}cd"];
    for least in [0, 1, 3, 64] {
        for length in [14, 15, 16, 62, 63, 64] {
            for unit in ["a", "\u{3042}", "\u{30FB}"] {
                let label: Vec<u32> = points(unit).into_iter().cycle().take(length).collect();
                add_label(file, 0, least, 1, &label);
            }
        }
        for label in dots {
            add_label(file, 0, least, 1, &points(label));
        }
    }
}

/// Labels with the hyphen pair, with hyphens near its places, and without it.
/// Then what is no pair: nothing is replaced here, and only 2D is a hyphen.
fn pairs(file: &mut CaseFile) {
    let labels = [
        "ab--c", "01--2", "xn--l8j", "a---b", "ab---c", "ab--c--d", "a--b", "abc--d", "ab-c", "abc-d",
        "ab--\u{3042}", "\u{3042}b--c", "a\u{3042}--c", "\u{3042}\u{3044}--\u{3046}", "\u{30FC}b--c",
        "a--\u{3042}", "abc--\u{3042}", "ab-\u{3042}", "abc-\u{3042}", "ab--\u{30FB}\u{3005}", "abc",
        "\u{3042}", "ab", "", "-", "\u{30FB}", "AB--C", "a.--b", "a_--b", "ab--.c", "ab--c.jp",
        "ab\u{FF0D}\u{FF0D}c", "ab\u{2212}-\u{3042}", "\u{FF8A}\u{FF9E}--c", "\u{FF8A}\u{FF9E}\u{3042}--c",
    ];
    for label in labels.map(points) {
        both_ways(file, 3, 0, &label);
        both_ways(file, 0, 2, &label);
    }
    for every in [2, 7, 255, 256, 300] {
        for label in ["ab--c", "ab--\u{3042}", "a--\u{3042}", "\u{3042}", "ab--\u{30FB}"].map(points) {
            file.add('Q', every, &numbers(0, 3, 1, &label));
        }
    }
    // Alike in their lower halves.
    for (third, fourth) in [(0x1_002D, 0x2D), (0x2D, 0x8000_002D), (0x12D, 0x2D), (0x2D, 0xFFFF_FF2D)] {
        both_ways(file, 3, 0, &[0x61, 0x62, third, fourth, 0x63]);
    }
}

/// Two hyphens at each place of short labels, ASCII and Japanese, and a label
/// of each kind at many places.
fn pair_places(file: &mut CaseFile) {
    for length in 4..=7 {
        for place in 0..length - 1 {
            for unit in [0x61, 0x3042] {
                let mut label = vec![unit; length];
                label[place..place + 2].fill(0x2D);
                both_ways(file, 3, 1, &label);
            }
        }
    }
    for label in ["ab--c", "ab--\u{3042}"].map(points) {
        for place in [1, 2, 3, 255, 256].into_iter().chain(HUGE) {
            both_ways(file, 3, place, &label);
        }
    }
}

/// Labels to which the pair and one or two of the other refusals apply.
fn pair_orders(file: &mut CaseFile) {
    let labels = [
        "ab--".to_string(),
        "-a--b".to_string(),
        "ab--c-".to_string(),
        "----".to_string(),
        "ab--\u{3042}-".to_string(),
        "ab--\u{30FB}".to_string(),
        "ab--\u{30FB}-".to_string(),
        "-\u{30FB}--\u{30FC}".to_string(),
        "\u{30FB}\u{3006}--a".to_string(),
        format!("ab--{}", "\u{30FB}".repeat(11)),
        format!("ab--{}", "\u{30FB}".repeat(12)),
        format!("ab--{}", "\u{3042}".repeat(11)),
        format!("ab--{}", "\u{3042}".repeat(12)),
        format!("ab--{}", "c".repeat(59)),
        format!("ab--{}", "c".repeat(60)),
        format!("ab--{}-", "c".repeat(59)),
    ];
    for label in labels.iter().map(|label| points(label)) {
        for least in [0, 3, 6, 65, usize::MAX] {
            both_ways(file, least, 9, &label);
        }
    }
}
