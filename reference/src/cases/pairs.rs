//! The hyphen pair of K3: hyphens in the third and fourth places of the
//! leftmost label, and near them.

use super::names::wide;
use super::CaseFile;
use crate::points;

/// A hyphen as it may be typed.
const HYPHENS: [&str; 3] = ["-", "\u{FF0D}", "\u{2212}"];

pub fn add(file: &mut CaseFile) {
    places(file);
    counts(file);
    neighbours(file);
    spellings(file);
    half_width_kana(file);
    middle_dots(file);
    lengths(file);
    other_labels(file);
    refused_before(file);
}

/// A leftmost label in a name of each class, by two of the calls in turn, and
/// by the second reader.
fn in_names(file: &mut CaseFile, label: &str) {
    file.in_turn(&points(&format!("{label}.jp")));
    file.in_turn(&points(&format!("{label}.nara.jp")));
    file.leftmost(&points(label));
}

/// Two hyphens side by side at each place of short labels. These are ASCII, or
/// Japanese by their first or by their last character.
fn places(file: &mut CaseFile) {
    for length in 4..=8 {
        for place in 0..length - 1 {
            let mut label: Vec<char> = "a0bc1def".chars().take(length).collect();
            label[place..place + 2].fill('-');
            in_names(file, &String::from_iter(&label));
            for end in [0, length - 1].into_iter().filter(|end| label[*end] != '-') {
                let mut japanese = label.clone();
                japanese[end] = '\u{3042}';
                in_names(file, &String::from_iter(japanese));
            }
        }
    }
}

/// Labels with fewer hyphens than the pair, and with more.
fn counts(file: &mut CaseFile) {
    let fewer = "ab-c abc-d a-b- a-b-c a-bc-d ab-c-d ab-c-";
    let more = "ab---c a---b a----b ab----c abc---d a-b--c ab-c--d ab--c--d ab--c- ab--- ---- ----a a----";
    for label in fewer.split(' ').chain(more.split(' ')) {
        in_names(file, label);
        in_names(file, &format!("{label}\u{3042}"));
    }
}

/// Letters and digits before and after the pair; real encodings, and labels
/// near them.
fn neighbours(file: &mut CaseFile) {
    for front in ["ab", "a0", "0a", "01", "\u{FF21}\u{FF11}", "zZ"] {
        for end in ["c", "0", "\u{FF3A}", "\u{FF10}9"] {
            in_names(file, &format!("{front}--{end}"));
        }
    }
    for label in ["xn--l8j", "xn--zckzah", "xn--1lqs71d", "xn--a", "xm--l8j", "yn--l8j", "xn-l8j", "xnl8j"] {
        let upper = label.to_uppercase();
        for spelled in [label, &upper, &wide(label), &wide(&upper)] {
            in_names(file, spelled);
        }
    }
}

/// The pair typed in every way, in its own places and beside them.
fn spellings(file: &mut CaseFile) {
    for (first, second) in HYPHENS.into_iter().flat_map(|first| HYPHENS.map(|second| (first, second))) {
        for (front, end) in [("ab", "c"), ("\u{FF38}N", "l8j"), ("0\u{3042}", "c"), ("a", "b"), ("abc", "d")]
        {
            in_names(file, &format!("{front}{first}{second}{end}"));
        }
    }
}

/// A half-width kana and its mark are one character of the normal form.
fn half_width_kana(file: &mut CaseFile) {
    for kana in ["\u{FF8A}\u{FF9E}", "\u{30CF}\u{309C}", "\u{FF76}\u{309B}", "\u{FF71}"] {
        for front in ["", "a", "\u{3042}", "ab", "\u{FF76}\u{FF9E}"] {
            in_names(file, &format!("{kana}{front}--\u{3046}"));
            in_names(file, &format!("{front}--c{kana}"));
        }
    }
}

/// The pair in labels with a middle dot, good ones and bad ones, and with the
/// signs that go with it.
fn middle_dots(file: &mut CaseFile) {
    for label in
        ["ab--\u{30FB}", "\u{30FB}b--c", "a\u{30FB}--c", "\u{30FB}\u{30FC}--\u{3006}", "ab--\u{FF65}c"]
    {
        in_names(file, label);
        in_names(file, &format!("{label}\u{3005}"));
    }
    for label in ["ab--\u{30FC}", "ab--\u{3006}", "\u{30FC}b--c", "ab--\u{4EDD}", "ab--\u{30FB}-"] {
        in_names(file, label);
    }
}

/// Labels about as long as may be.
fn lengths(file: &mut CaseFile) {
    for length in [62, 63, 64, 65] {
        in_names(file, &format!("ab--{}", "c".repeat(length - 4)));
        in_names(file, &format!("ab--{}-", "c".repeat(length - 5)));
        in_names(file, &format!("abc--{}", "d".repeat(length - 5)));
    }
    for length in [14, 15, 16, 17] {
        let more = length - 4;
        in_names(file, &format!("ab--{}", "c".repeat(more)));
        in_names(file, &format!("ab--{}\u{3042}", "c".repeat(more - 1)));
        in_names(file, &format!("\u{3042}b--{}", "c".repeat(more)));
        for unit in ["\u{3042}", "\u{30FB}", "\u{FF76}\u{FF9E}"] {
            in_names(file, &format!("ab--{}", unit.repeat(more)));
        }
    }
}

/// The pair in the other labels, where nobody asks for it.
fn other_labels(file: &mut CaseFile) {
    for text in [
        "abc.to--kyo.jp", "abc.to--.jp", "abc.xn--1lqs71d.jp", "\u{3042}.ab--c.jp", "abc.xn--jp",
        "abc.jp--a", "\u{3042}.xn--wgv71a", "abc.tokyo.ab--c", "abc.tokyo.jp--", "abc.ab--c.ab--c",
        "abc.ab--c.com", "ab.ab--c.jp", "-.ab--c.jp", "\u{30FB}.ab--c.jp", "\u{3042}.ab--\u{3042}.jp",
        "abc.ab--\u{3042}", "ab--c.ab--c.jp", "ab--c.ab--c",
    ] {
        file.name(&points(text));
    }
}

/// Unfit characters, empty labels and four labels beside the pair, and a label
/// that is too long.
fn refused_before(file: &mut CaseFile) {
    for text in [
        "_ab--c.jp", "ab_--c.jp", "ab-_-c.jp", "ab--_c.jp", "ab--\u{309B}c.jp", "ab\u{2010}-c.jp",
        "ab-\u{2013}c.jp", ".ab--c.jp", "abc..ab--c", "a.b.ab--c.jp", "ab--c\u{3002}\u{FF61}jp",
    ] {
        file.name(&points(text));
    }
    for tail in [".com", ".tokio.jp"] {
        file.name(&points(&format!("ab--{}{tail}", "c".repeat(60))));
    }
}
