//! Cases of the batch.

use super::random::NameMaker;
use super::{CaseFile, SEED};
use crate::random::Random;

pub fn add(file: &mut CaseFile) {
    shapes(file);
    ids(file);
    line_lengths(file);
    name_lengths(file);
    control_characters(file);
    for sequence in utf8_sequences() {
        file.batch(&[b"u\t", &sequence[..], b".jp\n"].concat());
    }
    random_lines(file);
}

/// Line ends, tabs and emptiness.
fn shapes(file: &mut CaseFile) {
    let inputs: [&[u8]; 26] = [
        b"", b"\n", b"\n\n", b"\n\n\n", b"\t", b"\t\n", b"a", b"a\n", b"a\t", b"a\t\n", b"\tabc.jp\n",
        b"a\tabc.jp", b"a\tabc.jp\n", b"a\tabc.jp\n\n", b"\na\tabc.jp", b"a\tabc.jp\nb", b"a\tabc.jp\nb\t",
        b"a\tabc.jp\r\nb\tabc.jp\r\n", b"a\tabc\tjp\n", b"a\t\tabc.jp\n", b"a\tabc.jp\t\n", b" a\tabc.jp\n",
        b"a \tabc.jp\n", b"a\t abc.jp\nb\tabc.jp \n", b"a\0\tabc.jp\nb\t\0abc.jp\n",
        b"a\tabc.jp\rb\tabc.jp\n",
    ];
    for input in inputs {
        file.batch(input);
    }
    file.batch("\u{FEFF}a\tabc.jp\nb\t\u{FEFF}abc.jp\n".as_bytes());
    file.batch("a\t\u{3042}.jp\n\u{3042}\tabc.jp\nb\tABC\u{3002}JP\n".as_bytes());
    file.batch("a\tABC.TOKYO.JP\nb\tabc.tokio.jp\nc\tabc.com\nd\tabc.jp.\ne\tjp\nf\tab.jp\n".as_bytes());
    file.batch("a\t\u{30FB}.jp\nb\t-a.jp\nc\t\u{3046}\u{309B}.jp\nd\t\ne\t.jp\n".as_bytes());
    // Names that pretend to be encoded (K3), and others with two hyphens.
    file.batch("a\txn--l8j.jp\nb\tXN--L8J.JP\nc\tab--c.TOKYO.jp\nd\tab--c.\u{6771}\u{4EAC}.jp\n".as_bytes());
    file.batch(
        "a\t\u{FF58}\u{FF2E}\u{FF0D}\u{2212}l8j\u{3002}jp\nb\tab--c.com\nc\tab--c.tokio.jp".as_bytes(),
    );
    file.batch("a\ta--b.jp\nb\tabc--d.jp\nc\tab--\u{3042}.jp\nd\tab--.jp\ne\tab--\u{30FB}.jp\n".as_bytes());
    file.batch("xn--l8j\txn--l8j.jp\nab--c\tab--c\nd\tab--c..jp\ne\tabc.ab--c.jp\nf\tabc.ab--c\n".as_bytes());
    for length in [62, 63, 64] {
        file.batch(format!("x\tab--{}.jp\n", "c".repeat(length - 4)).as_bytes());
    }
    for (name, times) in
        [("a", 255), ("a", 256), ("a", 257), ("\u{FF76}\u{FF9E}", 128), ("\u{3042}", 257), ("\u{1F600}", 25)]
    {
        file.batch(format!("x\t{}\n", name.repeat(times)).as_bytes());
    }
}

/// Ids of every length and every octet.
fn ids(file: &mut CaseFile) {
    for length in [0, 1, 2, 31, 32, 33, 34, 64] {
        for unit in ["a", "Z", "0", "-"] {
            file.batch(format!("{}\tabc.jp\n", unit.repeat(length)).as_bytes());
        }
    }
    for octet in 0..=255u8 {
        let mut line = vec![b'k', octet];
        line.extend(b"\tab.jp\n");
        file.batch(&line);
    }
}

/// Lines of 1,024 bytes and a few less or more, last ones and others.
fn line_lengths(file: &mut CaseFile) {
    for (length, after) in [
        (1023, ""),
        (1024, ""),
        (1025, ""),
        (1024, "\nb\tabc.jp\n"),
        (1025, "\nb\tabc.jp\n"),
        (1280, "\nb\tabc.jp"),
    ] {
        let mut line = b"id\t".to_vec();
        line.resize(length, b'a');
        line.extend(after.bytes());
        file.batch(&line);
    }
    let kana = "\u{3042}".repeat(340);
    for id in ["abc", "abcd"] {
        file.batch(format!("{id}\t{kana}\nz\t\u{3042}.jp").as_bytes());
    }
    let mut tabbed = b"id\t".to_vec();
    tabbed.resize(1024, b'a');
    tabbed.extend(b"\tabc.jp\nc\tabc.jp\n");
    file.batch(&tabbed);
}

/// Names of 61 to 67 bytes, in ASCII and in kana, last lines and others.
fn name_lengths(file: &mut CaseFile) {
    for length in 61..=67 {
        for unit in ["a", "\u{3042}"] {
            let mut name = unit.repeat((length - 3) / unit.len());
            name.push_str(&"b".repeat(length - 3 - name.len()));
            file.batch(format!("x\t{name}.jp").as_bytes());
            file.batch(format!("x\t{name}.jp\ny\tabc.jp\n").as_bytes());
        }
    }
}

/// Each octet below 21 in a name, and at its end.
fn control_characters(file: &mut CaseFile) {
    for octet in 0..=0x20u8 {
        file.batch(&[b"x\t\xE3\x81\x82", &[octet][..], b".jp\ny\tabc.jp\n"].concat());
        file.batch(&[b"x\tabc.jp", &[octet][..], b"\ny\tabc.jp\n"].concat());
    }
}

/// Well-formed and ill-formed UTF-8 of every kind.
pub fn utf8_sequences() -> Vec<Vec<u8>> {
    let mut sequences = Vec::new();
    for first in 0x80..=0xFFu8 {
        for tail in [&[][..], &[0x80], &[0xA0, 0x80], &[0x90, 0x80, 0x80], &[0x8F, 0xBF, 0xBF], &[0x9F, 0xBF]]
        {
            if first < 0xC0 && !tail.is_empty() || first > 0xF5 && tail.len() > 1 && first != 0xFF {
                continue;
            }
            sequences.push([&[first], tail].concat());
        }
    }
    for second in [0x00, 0x7F, 0x80, 0x8F, 0x90, 0x9F, 0xA0, 0xBF, 0xC0, 0xFF] {
        for first in [0xC1, 0xC2, 0xDF, 0xE0, 0xE1, 0xEC, 0xED, 0xEE, 0xEF, 0xF0, 0xF1, 0xF3, 0xF4, 0xF5] {
            let length = if first < 0xE0 {
                2
            } else if first < 0xF0 {
                3
            } else {
                4
            };
            let mut sequence = vec![first, second, 0x81, 0xBF];
            sequence.truncate(length);
            sequences.push(sequence);
        }
    }
    for third in [0x2E, 0x7F, 0xC0, 0xE3] {
        sequences.push(vec![0xE3, 0x81, third]);
        sequences.push(vec![0xF0, 0x9F, 0x98, third]);
        sequences.push(vec![0xF0, 0x9F, third, 0x80]);
    }
    sequences
}

/// A text in UTF-8; code points that have none are left out.
pub fn in_utf8(text: &[u32]) -> String {
    text.iter().filter_map(|code| char::from_u32(*code)).collect()
}

/// Several random lines a batch, some of them damaged in one byte.
fn random_lines(file: &mut CaseFile) {
    let mut random = Random::seeded(SEED ^ 0xDE5C);
    let maker = NameMaker::default();
    for _ in 0..150 {
        let mut input = Vec::new();
        for order in 0..random.between(1, 5) {
            let name = maker.typed_name(&mut random);
            input.extend(format!("{}-{order}\t{}\n", random.below(1000), in_utf8(&name)).bytes());
        }
        if random.once_in(2) {
            let at = random.below(input.len());
            match random.below(3) {
                0 => input[at] = *random.pick(b"\n\t\r .-\xE3\x81\xFF\x80a"),
                1 => input.insert(at, *random.pick(b"\n\t\r .-\xE3\x81\xFF\x80a")),
                _ => input.truncate(at),
            }
        }
        file.batch(&input);
    }
}
