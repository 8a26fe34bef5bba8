//! The ASCII form of one label, whatever it holds (X), and what is asked of
//! every text first (R).

use super::characters::{bases, edges, MARKS};
use super::coder::SAMPLES;
use super::names::LONG_FORMS;
use super::random::{any_label, NameMaker};
use super::{tried, CaseFile, SEED};
use crate::points;
use crate::random::Random;

pub fn add(file: &mut CaseFile) {
    labels(file);
    label_lengths(file);
    single_characters(file);
    label_buffers(file);
    texts(file);
    text_lengths(file);
    unfit(file);
    text_buffers(file);
    random(file);
}

/// Labels of each kind: ASCII ones stay, whatever they are.
fn labels(file: &mut CaseFile) {
    for label in [
        "", "a", "abc", "-", "--", "ab--c", "xn--l8j", "ABC", "a b", "a.b", ".", "a_b", "\0", "a\0",
        "\u{7F}", "\u{80}", "a\u{80}", "\u{7F}\u{80}", "\u{FF}", "\u{100}", "\u{3042}", "A\u{3042}",
        "a\u{3042}", "\u{3042}-", "-\u{3042}", "a b\u{3042}", "a.\u{3042}", "\u{3042}\u{3044}--\u{3046}",
        "\u{30FB}", "\u{FF76}\u{FF9E}", "\u{30AC}", "\u{FF21}", "\u{FFFF}", "\u{1F600}", "\u{10FFFF}",
        "\u{3042}\0",
    ] {
        file.add('X', 63, &points(label));
    }
    for (text, _encoded) in SAMPLES {
        file.add('X', 63, &points(&text.to_lowercase()));
    }
    for label in LONG_FORMS {
        file.add('X', 63, &points(label));
    }
    for code in [0xD7FFu32, 0xD800, 0xDFFF, 0xE000, 0x110000, 0x10000061, 0x80000041, 0xFFFFFFFF] {
        file.add('X', 63, &[code]);
        file.add('X', 63, &[0x61, code]);
    }
}

/// About 63 characters and about 63 octets, and labels that are longer by far.
fn label_lengths(file: &mut CaseFile) {
    for length in [1, 2, 62, 63, 64, 65] {
        for unit in [0x61, 0x2D, 0x41, 0x20, 0x7F] {
            file.add('X', 63, &vec![unit; length]);
        }
        for wide in [0x80, 0x3042] {
            for at in [0, length - 1] {
                let mut mixed = vec![0x61; length];
                mixed[at] = wide;
                file.add('X', 63, &mixed);
            }
        }
    }
    for length in [100, 256, 257, 300] {
        file.add('X', 63, &vec![0x61; length]);
        file.add('X', 63, &vec![0x3042; length]);
    }
    for length in 54..=60 {
        file.add('X', 63, &vec![0x3042; length]);
        let mixed: Vec<u32> = vec![0x61; length - 5].into_iter().chain([0x3042]).collect();
        file.add('X', 63, &mixed);
    }
}

/// Each octet and its neighbours past it, alone and in a label.
fn single_characters(file: &mut CaseFile) {
    for code in (0..0x30).step_by(5).chain(0x2D..0x32).chain((0x39..0x62).step_by(4)).chain(0x7A..0x84) {
        file.add('X', 63, &[code]);
        file.add('X', 63, &[0x61, code, 0x62]);
    }
    for code in [0xFE, 0xFF, 0x100, 0x101, 0x17F, 0x180, 0x1061] {
        file.add('X', 63, &[code]);
        file.add('X', 63, &[code, 0x61]);
    }
}

fn label_buffers(file: &mut CaseFile) {
    let labels = [
        points(""),
        points("abc"),
        points("\u{3042}"),
        vec![0x61; 63],
        vec![0x61; 64],
        vec![0x3042; 50],
        vec![0x3042; 63],
        points("A\u{3042}"),
    ];
    for label in labels {
        for lent in [0, 62, 63, 64, 300] {
            file.add('X', lent, &label);
        }
    }
}

/// Some of the tried names, and short texts.
fn texts(file: &mut CaseFile) {
    for text in tried::texts().into_iter().step_by(3) {
        file.add('R', 256, &points(&text));
    }
    for text in [
        "", "a", ".", "-", " ", "\0", "a.b.c", "1.2.3.4", "\u{3042}", "\u{FF76}\u{FF9E}", "\u{FF9E}",
        "\u{FF76}\u{FF9E}\u{FF9E}", "\u{2212}", "\u{2213}", "A\u{3002}B", "a\u{309B}", "\u{3046}\u{309B}",
    ] {
        file.add('R', 256, &points(text));
    }
}

fn text_lengths(file: &mut CaseFile) {
    for length in [1, 2, 255, 256, 257] {
        for unit in ["a", "\u{FF76}\u{FF9E}", " "] {
            let text: Vec<u32> = points(unit).into_iter().cycle().take(length).collect();
            file.add('R', 256, &text);
        }
        // Unfit at the end alone.
        let mut text = vec![0x61; length];
        text[length - 1] = 0x5F;
        file.add('R', 256, &text);
    }
    file.add('R', 256, &vec![0x3042; 300]);
    // Unfit at the end of a normal form that is shorter than the text.
    for length in [255, 256] {
        let mut text: Vec<u32> = points("\u{FF8A}\u{FF9F}").into_iter().cycle().take(length).collect();
        text[length - 1] = 0x20;
        file.add('R', 256, &text);
    }
}

/// Unfit characters of each kind, in each place, once and twice.
fn unfit(file: &mut CaseFile) {
    for edge in edges().into_iter().step_by(2) {
        file.add('R', 256, &[0x61, edge, 0x62]);
    }
    for code in [0x20, 0x309B, 0x309C, 0xFF9F, 0xAAAAAAA9] {
        for at in 0..=6 {
            let mut text = points("\u{FF8A}\u{FF9E}.b\u{304B}\u{309B}");
            text.insert(at, code);
            file.add('R', 256, &text);
        }
    }
    for pairs in 0..5 {
        let pairs = "\u{FF76}\u{FF9E}".repeat(pairs);
        for mark in ["\u{FF9E}", "\u{309C}"] {
            file.add('R', 256, &points(&format!("{pairs}{mark}{pairs}{mark}")));
        }
    }
    for (order, base) in bases().enumerate().step_by(11) {
        file.add('R', 256, &[base, MARKS[order % 4]]);
    }
}

fn text_buffers(file: &mut CaseFile) {
    for lent in [0, 63, 254, 255, 256, 257, 300] {
        for text in ["", "abc", " ", "\u{FF76}\u{FF9E}a_", "a.b.c"] {
            file.add('R', lent, &points(text));
        }
    }
    for lent in [0, 255, 256, 257] {
        file.add('R', lent, &vec![0x61; 256]);
        file.add('R', lent, &vec![0x5F; 257]);
    }
}

/// Random labels, and random names as typed and damaged.
fn random(file: &mut CaseFile) {
    let mut random = Random::seeded(SEED ^ 0xF0F0);
    let maker = NameMaker::default();
    for _ in 0..30 {
        file.add('X', 63, &any_label(&mut random));
        let typed = maker.typed_name(&mut random);
        file.add('R', 256, &maker.edit(&typed, &mut random));
        file.add('R', 256, &typed);
    }
}
