//! Cases that go through the characters one by one.

use super::{CaseFile, SEED};
use crate::chars::{kanji, kanji_in_rows};
use crate::points;
use crate::random::Random;

/// The marks, full- and half-width, and the combining ones that are none.
pub const MARKS: [u32; 4] = [0x309B, 0x309C, 0xFF9E, 0xFF9F];
const COMBINING: [u32; 2] = [0x3099, 0x309A];

/// A text of some characters and ".jp".
pub fn with_jp(characters: &[u32]) -> Vec<u32> {
    [characters, &points(".jp")].concat()
}

pub fn add(file: &mut CaseFile) {
    bases_and_marks(file);
    every_kanji(file);
    thinned(file);
}

/// Everything that could be a base: kana and their signs, full-width and
/// half-width.
pub fn bases() -> impl Iterator<Item = u32> {
    (0x3041..=0x30FF).chain(0xFF61..=0xFF9F)
}

fn bases_and_marks(file: &mut CaseFile) {
    for base in bases() {
        for mark in MARKS {
            file.add('N', 256, &[base, mark]);
            file.in_turn(&with_jp(&[base, mark]));
        }
    }
    for base in [0x30AB, 0x30CF, 0x306F, 0x30A6, 0x3046, 0xFF8A, 0xFF73, 0x309D, 0x30FD] {
        for mark in COMBINING {
            file.text(&with_jp(&[base, mark]));
        }
        for mark in MARKS {
            file.text(&with_jp(&[mark, base]));
            file.text(&with_jp(&[base, base, mark, mark]));
            file.add('N', 256, &[base, mark]);
            file.add('L', 0, &[base, mark, mark]);
        }
    }
}

/// Every kanji in labels of fifteen, and every other code point of their
/// stretch by the second reader.
fn every_kanji(file: &mut CaseFile) {
    for fifteen in kanji_in_rows().chunks(15) {
        file.in_turn(&with_jp(fifteen));
    }
    for code in (0x4DFE..=0x9FA2).filter(|code| !kanji().contains(code)) {
        file.add('S', 0, &[code]);
    }
}

/// A thinned cut of the sweep.
fn thinned(file: &mut CaseFile) {
    let mut random = Random::seeded(SEED ^ 0x5EE9);
    let near = (0x00..0x100).chain(0x3000..0x3100).chain(0xFEFF..0x10001);
    for code in near {
        file.add('C', 256, &with_jp(&[code]));
        file.add('N', 256, &[code]);
        file.add('S', 0, &[code]);
        file.in_turn(&with_jp(&[0x61, 0x62, code, 0x63]));
        file.add('L', 0, &[0x30CF, code]);
    }
    for edge in edges() {
        for code in edge.saturating_sub(1)..=edge.saturating_add(1) {
            file.text(&with_jp(&[code]));
            file.add('E', 63, &[code]);
            file.add('S', 0, &[0x3042, code]);
        }
    }
    for _ in 0..400 {
        let code = random.between(0x4E00, 0x9FA0) as u32;
        file.add('C', 256, &with_jp(&[code]));
        let any = (random.draw() >> random.between(32, 52)) as u32;
        file.add('C', 256, &with_jp(&[0x3042, any]));
        file.add('L', 0, &with_jp(&[any, 0x309B]));
    }
}

/// Where kinds of code points begin or end.
pub fn edges() -> Vec<u32> {
    let first_kanji = *kanji().first().expect("there are kanji");
    let last_kanji = *kanji().last().expect("there are kanji");
    vec![
        first_kanji, last_kanji, 0x2212, 0x2E80, 0x3400, 0x4DFF, 0x9FFF, 0xA000, 0xD7FF, 0xD800, 0xDBFF,
        0xDFFF, 0xE000, 0xF900, 0xFA0E, 0xFFFD, 0xFFFF, 0x1B000, 0x20000, 0x2A6DF, 0x2F800, 0x2FFFF,
        0x10FFFF, 0x110000, 0x1004E00, 0x10003042, 0x7FFFFFFF, 0x80000000, 0x8000002E, 0xAAAAAAAA,
        0xAAAAAAA9, 0xFFFFFFFE, 0xFFFFFFFF,
    ]
}
