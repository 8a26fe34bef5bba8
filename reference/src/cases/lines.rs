//! The gate's input of `desk`: document 01's example, minus signs, names that
//! pretend to be encoded, every set of kinds, every kind of bad line, long lines
//! between good ones, many lines, and a last one without LF.

use super::random::NameMaker;
use super::{desk::in_utf8, scripts, SEED};
use crate::random::Random;

const EXAMPLE: &str = "a1\tABC.JP\na2\tab.jp\na3\t\u{3042}.tokyo.jp\n";
/// The minus sign 2212 inside a label and at either edge.
const MINUS: &str = "m1\ta\u{2212}b.jp\nm2\t\u{2212}\u{3042}.jp\nm3\t\u{3042}\u{2212}.nara.jp\n";
/// The hyphen pair in ASCII labels, in other spellings, and in a Japanese label.
const PAIRS: &str =
    "p1\txn--l8j.jp\np2\tXN--L8J.TOKYO.JP\np3\tab\u{2212}\u{FF0D}c\u{3002}jp\np4\tab--c.com\n\
    p5\tab--\u{3042}.jp\np6\ta--b.jp\n";
const MANY: usize = 10_000;

pub fn input() -> Vec<u8> {
    let mut bytes = EXAMPLE.as_bytes().to_vec();
    bytes.extend(MINUS.bytes());
    bytes.extend(PAIRS.bytes());
    bytes.extend(scripts::lines_of_sets().bytes());
    bytes.extend(bad_lines());
    for length in [1023, 1024, 1025, 70_000] {
        bytes.extend(b"before\tabc.jp\n");
        bytes.extend(long_line(length));
        bytes.extend(b"after\tabc.jp\n");
    }
    bytes.extend(many_lines());
    bytes.extend("last\t\u{FF76}\u{FF9E}.jp".bytes());
    bytes
}

/// No tab, two tabs, ids that are none, bytes that are no UTF-8; CR and NUL.
fn bad_lines() -> Vec<u8> {
    let lines: [&[u8]; 14] = [
        b"", b"no-tab.jp", b"a\tb\tabc.jp", b"\tabc.jp", b"a_b\tabc.jp", b"a b\tabc.jp",
        b"abcdefghijklmnopqrstuvwxyz0123456\tabc.jp", b"x\t\xC0\xAE.jp", b"x\t\xED\xA0\x80.jp",
        b"x\t\xF4\x90\x80\x80.jp", b"x\t\x81.jp", b"x\t\xE3\x81", b"x\0\tabc.jp", b"x\r\tabc.jp",
    ];
    let fit: [&[u8]; 4] = [b"x\tabc.jp\r", b"x\t\0abc.jp", b"x\t", b"x\t\xE3\x81\x82.jp"];
    lines.iter().chain(&fit).flat_map(|line| [line, &b"\n"[..]].concat()).collect()
}

fn long_line(length: usize) -> Vec<u8> {
    let mut line = b"long\t".to_vec();
    line.resize(length, b'a');
    line.push(b'\n');
    line
}

fn many_lines() -> Vec<u8> {
    let mut random = Random::seeded(SEED ^ 0x11E5);
    let maker = NameMaker::default();
    let line = |order| {
        let name = maker.typed_name(&mut random);
        let name = if order % 5 == 0 { maker.edit(&name, &mut random) } else { name };
        format!("n{order}\t{}\n", in_utf8(&name)).into_bytes()
    };
    (0..MANY).flat_map(line).collect()
}
