//! The calls on single characters.

use super::characters::{bases, edges, MARKS};
use super::CaseFile;
use crate::chars::SIGNS;

/// How many numbers a case has: an even count, so that pairs stay whole.
pub const IN_A_CASE: usize = 60;

/// First and last of every range of document 01, and document 02's 2212.
const RANGES: [(u32, u32); 16] = [
    (0x2D, 0x2E),
    (0x30, 0x39),
    (0x41, 0x5A),
    (0x61, 0x7A),
    (0x2212, 0x2212),
    (0x3002, 0x3002),
    (0x3041, 0x3093),
    (0x309B, 0x309C),
    (0x30A1, 0x30F6),
    (0x4E00, 0x9FA0),
    (0xFF0D, 0xFF0E),
    (0xFF10, 0xFF19),
    (0xFF21, 0xFF3A),
    (0xFF41, 0xFF5A),
    (0xFF61, 0xFF61),
    (0xFF65, 0xFF9F),
];

pub fn add(file: &mut CaseFile) {
    file.add::<u32>('K', 0, &[]);
    kinds(file, borders().into_iter());
    kinds(file, alike().into_iter());
    kinds(file, (0..0x80).chain(0xFEFE..0x1_0002));
    kinds(file, (0x4DFE..=0x9FA2).step_by(7));
    pairs(file);
}

/// Both ends of every range, the signs and other edges, with their neighbours.
pub fn borders() -> Vec<u32> {
    let ends = RANGES.iter().flat_map(|(first, last)| [*first, *last]);
    let picked = ends.chain(SIGNS).chain(edges());
    picked.flat_map(|code| [code.wrapping_sub(1), code, code.wrapping_add(1)]).collect()
}

/// Numbers whose lower half is a character's.
pub fn alike() -> Vec<u32> {
    let characters =
        [0x2D, 0x2E, 0x37, 0x41, 0x7A, 0x2212, 0x3042, 0x30AB, 0x30FB, 0x4E9C, 0x4EDD, 0xFF0D, 0xFF71];
    let high = [0x1_0000, 0x10_0000, 0x100_0000, 0x8000_0000, 0xFFFF_0000];
    high.iter().flat_map(|high| characters.map(|low| high | low)).collect()
}

fn kinds(file: &mut CaseFile, codes: impl Iterator<Item = u32>) {
    for codes in codes.collect::<Vec<_>>().chunks(IN_A_CASE) {
        file.add('K', 0, codes);
    }
}

/// Each kana, sign and neighbour before each mark, and others before the
/// marks that join.
fn pairs(file: &mut CaseFile) {
    let near = (0x2FF0..0x3110).flat_map(|base| [base, 0x309B, base, 0x309C]);
    kinds(file, near);
    kinds(file, bases().step_by(3).flat_map(|base| [base, MARKS[2], base, MARKS[3]]));
    let far = [0, 1, 0x61, 0x2E, 0x4E00, 0x309B - 0x60, 0x1_30AB, 0x8000_30CF, 0xFFFF_FFA0, 0xFFFF_FFFF];
    kinds(file, far.into_iter().flat_map(|base| [base, 0x309B, base, 0x309C]));
    // What is near a mark joins nothing.
    let strangers = [0, 0x3099, 0x309A, 0x309D, 0xFF9E, 0x1_309B, 0x8000_309C, 0xFFFF_FFFF];
    kinds(file, strangers.into_iter().flat_map(|mark| [0x30CF, mark, 0x306F, mark]));
}
