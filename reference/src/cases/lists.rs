//! The calls on lists of numbers. A case has two lists, one after the other;
//! LEN says where the second begins.

use super::{CaseFile, SEED};
use crate::points;
use crate::random::Random;

pub fn add(file: &mut CaseFile) {
    fixed(file);
    nearly_the_same(file);
    lengths(file);
    random(file);
}

fn two(file: &mut CaseFile, first: &[u32], second: &[u32]) {
    file.add('T', first.len(), &[first, second].concat());
}

fn fixed(file: &mut CaseFile) {
    let words = ["", "a", "b", "ab", "ba", "abc", "cba", "abab", "\0", "abcd"];
    for first in words.map(points) {
        for second in words.map(points) {
            two(file, &first, &second);
        }
    }
    // Numbers that are the same in part.
    let alike = [0x61, 0x161, 0x1_0061, 0x8000_0061, 0xFFFF_FF61, 0, 0xFFFF_FFFF];
    for first in alike {
        for second in alike {
            two(file, &[first], &[second]);
        }
    }
    // What the buffer holds before.
    two(file, &[0xAAAA_AAAA, 0xAAAA_AAAA], &[1, 2, 3]);
    two(file, &[0, 0xAAAA_AAA9, 0], &[1, 2, 3, 4]);
    // The second list begins past the numbers.
    for end in [1, 2, 300] {
        file.add::<u32>('T', end, &[]);
        file.add('T', end, &[0x61]);
    }
}

/// Lists that differ in one entry, or are longer by one, at each place.
fn nearly_the_same(file: &mut CaseFile) {
    for length in [1, 2, 5, 16] {
        let list: Vec<u32> = (0x3041..).take(length).collect();
        two(file, &list, &list);
        for place in 0..length {
            let mut other = list.clone();
            other[place] = 0x61;
            two(file, &list, &other);
            other = list.clone();
            other.remove(place);
            two(file, &list, &other);
            two(file, &other, &list);
        }
    }
}

/// Copies to buffers that are shorter, as long, and longer.
fn lengths(file: &mut CaseFile) {
    for first in [0, 1, 2, 63, 64, 299, 300] {
        for second in [0, 1, 2, 63, 64, 299, 300, 301] {
            two(file, &vec![0x61; first], &vec![0x61; second]);
        }
    }
}

fn random(file: &mut CaseFile) {
    let mut random = Random::seeded(SEED ^ 0x1157);
    for _ in 0..60 {
        let kinds = random.between(1, 4);
        let mut list = || -> Vec<u32> {
            let length = random.below(9);
            (0..length).map(|_| random.below(kinds) as u32).collect()
        };
        let (first, second) = (list(), list());
        two(file, &first, &second);
    }
}
