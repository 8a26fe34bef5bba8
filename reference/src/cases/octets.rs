//! The batch's calls on octets: UTF-8, the fields of a line, its answer.

use super::desk::{in_utf8, utf8_sequences};
use super::random::NameMaker;
use super::{tried, CaseFile, SEED};
use crate::random::Random;

pub fn add(file: &mut CaseFile) {
    sequences(file);
    faults(file);
    utf8_lengths(file);
    fields(file);
    ids(file);
    answers(file);
    answer_rooms(file);
    line_lengths(file);
    random_lines(file);
}

/// Sequences of every kind, alone and among others, by buffers of many
/// lengths.
fn sequences(file: &mut CaseFile) {
    for (order, sequence) in utf8_sequences().iter().enumerate() {
        match order % 3 {
            0 => file.add('U', order % 4, sequence),
            1 => file.add('U', 3 + order % 2, &[b"a", &sequence[..]].concat()),
            _ => file.add('U', 2 + order % 3, &[b"\xE3\x81\x82", &sequence[..], b"bc"].concat()),
        }
    }
    // The first and last value of each length, and those beside the surrogates.
    for edge in ["\0", "\x7F", "\u{80}", "\u{7FF}", "\u{800}", "\u{D7FF}", "\u{E000}", "\u{FFFF}"] {
        file.add('U', 2, edge.as_bytes());
    }
    for edge in ["\u{10000}", "\u{FFFFF}", "\u{100000}", "\u{10FFFF}"] {
        file.add('U', 2, edge.as_bytes());
    }
}

/// A fault at each place of a text, and a text cut off at each place.
fn faults(file: &mut CaseFile) {
    let text = "a\u{E9}\u{3042}\u{1F600}b".as_bytes();
    for lent in [0, 1, 2, 4, 5, 6] {
        file.add('U', lent, text);
    }
    for place in 0..text.len() {
        file.add('U', 8, &text[..place]);
        file.add('U', 8, &text[place..]);
        for octet in [0x41, 0x80, 0xC0, 0xE3, 0xF5, 0xFF] {
            let mut bad = text.to_vec();
            bad[place] = octet;
            file.add('U', if place % 2 == 0 { 8 } else { 2 }, &bad);
        }
    }
}

/// Texts that have fewer code points than the buffer, as many, and more.
fn utf8_lengths(file: &mut CaseFile) {
    for length in [0, 1, 2, 256, 257, 301] {
        for lent in [0, 1, 2, 256, 257, 300] {
            file.add('U', lent, "a".repeat(length).as_bytes());
        }
        file.add('U', 257, "\u{3042}".repeat(length).as_bytes());
        file.add('U', 300, &[&vec![b'a'; length], &b"\xFF"[..]].concat());
    }
    file.add('U', 257, &vec![b'a'; 1022]);
}

/// Lines with no tab, one, two and more, from each place on.
fn fields(file: &mut CaseFile) {
    let lines: [&[u8]; 24] = [
        b"", b"\t", b"\t\t", b"\t\t\t", b"a", b"a\t", b"\ta", b"a\tb", b"a\t\tb", b"\ta\tb", b"a\tb\t",
        b"ab\tcd\tef", b"ab\tcd", b"a1\tABC.JP", b"\n", b"a\nb\tc", b"a\0\tb", b"\t\xFF\xFE", b"\xFF\t\x80",
        b"\x08a\x0A", b"id\t\xE3\x81\x82.jp", b"-\tx", b"abc", b"a b\tc",
    ];
    for line in lines {
        for at in (0..=line.len() + 1).chain([299, 300]) {
            file.add('F', at, line);
        }
    }
    let long = [&[b'a'; 290][..], b"\t", &[b'b'; 20]].concat();
    for at in [0, 289, 290, 291, 292, 300] {
        file.add('F', at, &long);
    }
}

/// Ids of many lengths, and every octet in one.
fn ids(file: &mut CaseFile) {
    for length in [0, 1, 2, 31, 32, 33, 34, 64, 300] {
        for octet in b"aZ0-" {
            file.add('F', 0, &vec![*octet; length]);
        }
        for place in [0, length / 2, length.saturating_sub(1)] {
            let mut id = vec![b'a'; length];
            id.iter_mut().skip(place).take(1).for_each(|octet| *octet = b'_');
            file.add('F', place.min(300), &id);
        }
    }
    for octet in 0..=255u8 {
        file.add('F', 0, &[b'k', octet]);
    }
}

fn line(file: &mut CaseFile, octets: &[u8]) {
    file.add('W', 256, octets);
}

/// Good lines and bad ones. An LF is a byte like others here.
fn answers(file: &mut CaseFile) {
    let lines: [&[u8]; 30] = [
        b"", b"\t", b"a", b"a\t", b"\tabc.jp", b"a\tabc.jp", b"a\t\tabc.jp", b"a\tabc.jp\t", b"\ta\tabc.jp",
        b"a b\tabc.jp", b"a_b\tabc.jp", b"a\0\tabc.jp", b"a\tabc.jp\n", b"\na\tabc.jp", b"a\nb\tabc.jp",
        b"a\tabc.jp\r", b"a\t abc.jp", b"a\t\0", b"a\t\xC0\xAE.jp", b"a\t\xED\xA0\x80.jp", b"a\tabc.jp\xFF",
        b"a\t\xFFabc.jp", b"a\t\xE3\x81", b"\xE3\x81\x82\tabc.jp", b"\xFF\tabc.jp", b"a\t\xE3\x81\x82.jp",
        b"a\t\xF0\x9F\x98\x80.jp", b"A-1\tABC.TOKYO.JP", b"-\tab.jp", b"a\t\xEF\xBB\xBFabc.jp",
    ];
    for octets in lines {
        line(file, octets);
    }
    for text in tried::texts() {
        line(file, format!("x\t{text}").as_bytes());
    }
    for length in [0, 1, 31, 32, 33] {
        line(file, format!("{}\tabc.jp", "i".repeat(length)).as_bytes());
        let longest = "a".repeat(63) + ".hiroshima.jp";
        line(file, format!("{}\t{longest}", "Z".repeat(length)).as_bytes());
    }
    for sequence in utf8_sequences().iter().step_by(9) {
        line(file, &[b"u\t", &sequence[..], b".jp"].concat());
    }
}

fn answer_rooms(file: &mut CaseFile) {
    let longest = format!("{}\t{}.tokyo.jp", "i".repeat(32), "\u{9039}\u{4F0F}".repeat(7));
    for lent in [0, 1, 12, 64, 192, 254, 255, 256, 257, 300] {
        for octets in ["", "a\tabc.jp", "a\tab.jp", "no-tab", &longest] {
            file.add('W', lent, octets.as_bytes());
        }
    }
}

/// Lines of 1,024 bytes and a few less or more; names of about 256 code
/// points.
fn line_lengths(file: &mut CaseFile) {
    for length in [1022, 1023, 1024, 1025, 1026, 1300] {
        let mut octets = b"id\t".to_vec();
        octets.resize(length, b'a');
        line(file, &octets);
    }
    // A minus sign is three of the bytes: 1,024 and 1,025 of them.
    for id in ["abc", "abcd"] {
        line(file, format!("{id}\t{}", "\u{2212}".repeat(340)).as_bytes());
    }
    for (unit, times) in [("a", 255), ("a", 256), ("a", 257), ("\u{3042}", 257), ("\u{3042}", 340)] {
        line(file, format!("x\t{}", unit.repeat(times)).as_bytes());
        line(file, format!("ab\t{}\u{20}", unit.repeat(times)).as_bytes());
    }
}

/// Random lines, every other one damaged in one byte.
fn random_lines(file: &mut CaseFile) {
    let mut random = Random::seeded(SEED ^ 0x0C7E);
    let maker = NameMaker::default();
    for order in 0..80 {
        let name = in_utf8(&maker.typed_name(&mut random));
        let mut octets = format!("n{order}\t{name}").into_bytes();
        if order % 2 == 1 {
            let at = random.below(octets.len());
            octets[at] = *random.pick(b"\n\t\r .-\xE3\x81\xFF\x80a");
        }
        line(file, &octets);
    }
}
