//! The calls of the outside: each on texts of every number, by every edition
//! and numbers that are none, at the edges of the lengths; on octets that are
//! no UTF-8; and the live check's state.

use super::desk::{in_utf8, utf8_sequences};
use super::hosts::HostMaker;
use super::random::NameMaker;
use super::{hosts, numbers_of, probe_line, tried, CaseFile, SEED};
use crate::edition::Edition;
use crate::name;
use crate::points;
use crate::random::Random;
use std::collections::BTreeMap;

/// The calls on code points, but the state and whether there is such an edition.
const ON_TEXT: [usize; 10] = [0, 1, 2, 3, 4, 5, 6, 7, 8, 9];
const STATE: usize = 10;
const IS_EDITION: usize = 11;

/// The calls on a name or host in UTF-8.
const ON_OCTETS: [usize; 3] = [0, 1, 2];
const DECODE: usize = 3;
const LINE: usize = 4;

pub fn add(file: &mut CaseFile) {
    for text in some_texts(file) {
        everything(file, &text);
    }
    for text in tried::texts() {
        everything(file, &points(&text));
    }
    for (order, (text, ..)) in hosts::tried().into_iter().enumerate() {
        for call in [3, 6, 9].into_iter().chain([ON_TEXT[order % ON_TEXT.len()]]) {
            file.add('O', call, &points(&text));
        }
        file.add('Y', 2, text.as_bytes());
    }
    lengths(file);
    editions(file);
    states(file);
    faults(file);
    labels(file);
    lines(file);
    malformed_lines().into_iter().for_each(|line| file.add_line(line));
    random(file);
}

/// A text by every call, and its UTF-8 where it has one.
fn everything(file: &mut CaseFile, text: &[u32]) {
    for call in ON_TEXT {
        file.add('O', call, text);
    }
    if text.iter().all(|code| char::from_u32(*code).is_some()) {
        for call in ON_OCTETS {
            file.add('Y', call, in_utf8(text).as_bytes());
        }
    }
}

/// Texts of the case file so far, some for each number: the first, the last and
/// others between.
fn some_texts(file: &CaseFile) -> Vec<Vec<u32>> {
    let mut texts = BTreeMap::<u8, Vec<Vec<u32>>>::new();
    for line in file.lines.iter().filter(|line| line.starts_with("C 256")) {
        let text = numbers_of(line);
        let number = name::check(&text, Edition::Today).err().map_or(0, |refusal| refusal.number);
        texts.entry(number).or_default().push(text);
    }
    let some = |of_number: &Vec<Vec<u32>>| {
        let last = of_number.len() - 1;
        (0..6).map(|order| of_number[order * last / 5].clone()).collect::<Vec<_>>()
    };
    texts.values().flat_map(some).collect()
}

/// Texts of 255 to 258 code points, and more.
fn lengths(file: &mut CaseFile) {
    for length in [1, 2, 255, 256, 257, 258, 300] {
        everything(file, &vec![0x61; length]);
    }
    for length in [256, 257] {
        for (unit, end) in [("\u{3042}", ".jp"), ("a.", "jp"), ("\u{FF76}\u{FF9E}", ".a.jp")] {
            let whole = unit.repeat(length) + end;
            everything(file, &points(&whole)[..length]);
        }
    }
}

/// Every edition, and numbers that are none, at a text of each answer.
fn editions(file: &mut CaseFile) {
    let texts = ["", "abc.jp", "\u{3003}.jp", "abc.tokyo.jp", "\u{3042}.\u{6771}\u{4EAC}.jp", "ab", " "];
    let short = texts.map(points).into_iter().map(|text| (text, vec![0, 1, 2, 3, 4, 5, 25, 257, u32::MAX]));
    let long = [vec![0x61; 257], vec![0x3042; 256]].map(|text| (text, vec![0, 1]));
    for (text, editions) in short.chain(long) {
        for edition in editions {
            for call in ON_TEXT.into_iter().chain([STATE, IS_EDITION]) {
                file.add_in('O', edition, call, &text);
            }
            for call in ON_OCTETS {
                file.add_in('Y', edition, call, in_utf8(&text).as_bytes());
            }
        }
    }
    for edition in (0..12).chain([100, 255, 256, 260, 65540, u32::MAX - 1]) {
        file.add_in('O', edition, IS_EDITION, &[] as &[u32]);
    }
}

/// What steps make of the fresh state, up to and past 256, and with numbers that
/// are no code point.
fn states(file: &mut CaseFile) {
    for length in [0, 1, 2, 100, 254, 255, 256, 257, 258, 300] {
        let text: Vec<u32> = (1..=length).collect();
        file.add('O', STATE, &text);
        file.add_in('O', 0, STATE, &text);
        file.add_in('O', 1, STATE, &vec![u32::MAX - length; length as usize]);
    }
    for text in [vec![0, 0, 0], vec![0x61, 0, 0x62], vec![u32::MAX, 0x110000, 0xD800]] {
        file.add('O', STATE, &text);
        everything(file, &text);
    }
}

/// UTF-8 with a fault at each place, cut off at each place, and long with a fault
/// past what the rules look at.
fn faults(file: &mut CaseFile) {
    let text = "a\u{E9}\u{3042}\u{1F600}.jp".as_bytes();
    for place in 0..=text.len() {
        for call in ON_OCTETS {
            file.add('Y', call, &text[..place]);
            file.add('Y', call, &[&text[..place], &b"\xFF"[..], &text[place..]].concat());
        }
    }
    for (order, sequence) in utf8_sequences().iter().enumerate() {
        file.add('Y', ON_OCTETS[order % 3], &[&sequence[..], b".b.jp"].concat());
    }
    for length in [256, 257, 300] {
        for call in ON_OCTETS {
            file.add('Y', call, &[&vec![b'a'; length][..], b"\xE3\x81"].concat());
            file.add('Y', call, &[&vec![b'a'; length][..], b"\xE3\x81\x82"].concat());
        }
    }
}

/// Labels for the coder and octets for the decoder, at the edges.
fn labels(file: &mut CaseFile) {
    let labels =
        ["", "a", "\u{3042}", "\u{3042}b-1", "\u{3042}B", "b\u{FC}cher", "\u{10FFFF}", "\u{80}", "\u{7F}"];
    for label in labels {
        file.add('O', 4, &points(label));
    }
    for length in [1, 2, 56, 57, 62, 63, 64, 100] {
        file.add('O', 4, &vec![0x3042; length]);
        file.add('O', 4, &[vec![0x61; length - 1], vec![0x3042]].concat());
    }
    file.add('O', 4, &[0x3042, 0xD800]);
    file.add('O', 4, &[0x3042, 0x110000]);
    let octets: [&[u8]; 12] = [
        b"", b"xn--", b"xn--l8j", b"XN--L8J", b"xn--l8J", b"xn--a", b"xn--a-", b"l8j", b"xn--bcher-kva",
        b"xn--l8j\xFF", b"xn--99999999", b"\xE3\x81\x82",
    ];
    for octets in octets {
        file.add('Y', DECODE, octets);
    }
    for length in [59, 60, 63, 64, 100] {
        file.add('Y', DECODE, &[&b"xn--l8j"[..], &vec![b'a'; length - 7]].concat());
    }
}

/// Lines, good and bad.
fn lines(file: &mut CaseFile) {
    let lines: [&[u8]; 14] = [
        b"", b"\t", b"a1\tABC.JP", b"a2\tab.jp", b"a3\t\xE3\x81\x82.tokyo.jp", b"a\tb\tc", b"a b\tabc.jp",
        b"a\t", b"a", b"a\t\xFF", b"a\tabc.jp\r", b"a\tabc.jp\n", b"a\0\tabc.jp", b"\xEF\xBB\xBFa\tabc.jp",
    ];
    for line in lines {
        file.add('Y', LINE, line);
    }
    for length in [31, 32, 33, 1018, 1024, 1025, 1026, 1100] {
        file.add('Y', LINE, &[&vec![b'i'; length][..], b"\tabc.jp"].concat());
        file.add('Y', LINE, &[b"i\t", &vec![b'a'; length][..]].concat());
    }
}

/// Lines whose number is no call, in their order.
pub fn malformed_lines() -> Vec<String> {
    let points = [13, 14, 255, 256, 300].map(|call| probe_line('O', call, &[0x61]));
    let octets = [5, 6, 256].map(|call| probe_line('Y', call, &[0x61]));
    points.into_iter().chain(octets).collect()
}

/// Names and hosts as they are typed, whole and damaged, by a call in turn.
fn random(file: &mut CaseFile) {
    let (maker, hosts) = (NameMaker::default(), HostMaker::default());
    let mut random = Random::seeded(SEED ^ 0x0D5E);
    for order in 0..600 {
        let typed = match order % 3 {
            0 => hosts.typed_host(&mut random),
            _ => maker.typed_name(&mut random),
        };
        let text = match order % 2 {
            0 => maker.edit(&typed, &mut random),
            _ => typed,
        };
        file.add('O', ON_TEXT[order % ON_TEXT.len()], &text);
        file.add('O', ON_TEXT[(order / 7 + 5) % ON_TEXT.len()], &text);
        if text.iter().all(|code| char::from_u32(*code).is_some()) {
            file.add('Y', ON_OCTETS[order / 2 % 3], in_utf8(&text).as_bytes());
        }
    }
}
