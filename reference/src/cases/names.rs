//! Each boundary of each rule, each prefecture label, each length of buffer.

use super::characters::with_jp;
use super::CaseFile;
use crate::name::{japanese_prefectures, latin_prefectures};
use crate::points;

pub fn add(file: &mut CaseFile) {
    text_lengths(file);
    label_counts(file);
    leftmost_lengths(file);
    hyphens(file);
    minus_signs(file);
    dashes(file);
    middle_dots(file);
    last_labels(file);
    prefectures(file);
    order_of_checks(file);
    long_forms(file);
    buffers(file);
    second_reader(file);
}

/// The full-width form of ASCII characters; the others stay.
pub fn wide(text: &str) -> String {
    let widen = |c: char| match c {
        '!'..='~' => char::from_u32(u32::from(c) + 0xFEE0).unwrap_or(c),
        _ => c,
    };
    text.chars().map(widen).collect()
}

/// Every other letter in upper case.
fn mixed_case(word: &str) -> String {
    let mut upper = true;
    let mut turn = |c: char| {
        upper = !upper;
        if upper {
            c
        } else {
            c.to_ascii_uppercase()
        }
    };
    word.chars().map(&mut turn).collect()
}

fn text_lengths(file: &mut CaseFile) {
    let units = ["a", ".", "\u{3042}", "\u{FF76}\u{FF9E}", "\u{30CF}\u{309B}\u{309C}", "\0", "-"];
    for length in [0, 1, 2, 3, 15, 16, 62, 63, 64, 254, 255, 256, 257, 258, 300] {
        let some = if length > 64 { &units[..3] } else { &units[..] };
        for unit in some {
            let text: Vec<u32> = points(unit).into_iter().cycle().take(length).collect();
            match length < 20 || *unit == "a" {
                true => file.text(&text),
                false => file.in_turn(&text),
            }
        }
    }
    // The text is counted before composition, not after.
    let marks = "\u{FF76}\u{FF9E}";
    for pairs in [127, 128, 129] {
        file.add('N', 256, &points(&marks.repeat(pairs)));
        file.add('L', 0, &points(&("a".to_string() + &marks.repeat(pairs))));
    }
    file.name(&points(&(marks.repeat(127) + "jp")));
    // The last code point is a mark, an unfit one, a period or a base.
    for last in ["\u{FF9E}", "\u{309C}", "\u{20}", ".", "\u{FF76}"] {
        for before in [254, 255, 256] {
            let text = points(&("a".repeat(before - 1) + "\u{FF8A}" + last));
            let (call, lent) = if before == 255 { ('N', 256) } else { ('L', 0) };
            file.add(call, lent, &text);
        }
    }
    // Too long, whatever the code points are.
    for length in (257..=300).step_by(2) {
        file.text(&vec![length as u32 % 3; length]);
    }
}

fn label_counts(file: &mut CaseFile) {
    for count in 1..=5 {
        for label in ["", "a", "abc", "jp", "\u{3042}", "tokyo"] {
            let front = vec![label; count - 1].join(".");
            for text in [vec![label; count].join("."), format!("{front}.jp"), format!("{front}.tokyo.jp")] {
                file.name(&points(&text));
                file.in_turn(&points(&text.replace('.', "\u{3002}")));
            }
        }
    }
    // Every pattern of empty labels, by each of the four separators.
    for separator in [".", "\u{FF0E}", "\u{3002}", "\u{FF61}"] {
        for pattern in 0..8 {
            let pick = |bit: usize, word: &'static str| if pattern >> bit & 1 == 1 { word } else { "" };
            let three = [pick(0, "abc"), pick(1, "tokyo"), pick(2, "jp")];
            file.text(&points(&three.join(separator)));
            file.name(&points(&three[..2].join(separator)));
            file.name(&points(&format!("{}{separator}{separator}", three.join(separator))));
        }
    }
}

fn leftmost_lengths(file: &mut CaseFile) {
    for length in [1, 2, 3, 4, 14, 15, 16, 17, 61, 62, 63, 64, 65] {
        for (unit, seed) in
            [("a", ""), ("7", ""), ("\u{3042}", ""), ("b", "\u{4E9C}"), ("\u{FF71}", ""), ("\u{30FC}", "")]
        {
            let body = unit.repeat(length - seed.chars().count());
            for label in [format!("{seed}{body}"), format!("{body}{seed}")] {
                let text = points(&(label.clone() + ".jp"));
                file.leftmost(&text);
                file.in_turn(&text);
                file.in_turn(&points(&(label + ".osaka.jp")));
            }
        }
    }
    for pairs in 13..=17 {
        for (base, mark) in [("\u{FF76}", "\u{FF9E}"), ("\u{30CF}", "\u{309C}"), ("\u{304B}", "\u{FF9E}")] {
            for tail in ["", "a", "\u{3042}", "\u{FF71}\u{FF72}"] {
                let label = format!("{base}{mark}").repeat(pairs);
                file.in_turn(&points(&format!("{label}{tail}.jp")));
            }
        }
    }
}

fn hyphens(file: &mut CaseFile) {
    let labels = [
        "-", "--", "---", "-a", "a-", "-ab", "ab-", "a-b", "a--b", "ab--c", "xn--l8j", "xn--", "-abc-",
        "-\u{3042}", "\u{3042}-", "\u{3042}-\u{3042}", "\u{3042}--\u{3042}", "a-\u{3042}", "-\u{30FB}",
        "\u{30FB}-", "-\u{30FB}-\u{3042}", "\u{3042}-a", "a\u{3042}-", "-1\u{3042}1-", "1-\u{3042}-1",
    ];
    for label in labels {
        let hyphened = ["\u{FF0D}", "\u{2212}"].map(|hyphen| label.replace('-', hyphen));
        for spelled in [label.to_string(), wide(label), label.to_uppercase()].into_iter().chain(hyphened) {
            for tail in [".jp", ".chiba.jp", ".com"] {
                file.in_turn(&points(&(spelled.clone() + tail)));
            }
            file.leftmost(&points(&spelled));
        }
        // 2010 is no hyphen.
        file.in_turn(&points(&(label.replace('-', "\u{2010}") + ".jp")));
    }
}

/// 2212 at each place of a name, and beside marks.
fn minus_signs(file: &mut CaseFile) {
    let names = ["ab.jp", "\u{3042}\u{4E9C}.\u{5948}\u{826F}.jp", "\u{FF76}\u{FF9E}\u{3002}mie\u{FF61}JP"];
    for name in names.map(points) {
        for place in 0..=name.len() {
            let mut text = name.clone();
            text.insert(place, 0x2212);
            file.text(&text);
        }
    }
    for base in ["", "\u{30AB}", "\u{306F}", "\u{FF8A}", "\u{309D}", "a"] {
        for mark in ["\u{309B}", "\u{309C}", "\u{FF9E}", "\u{FF9F}"] {
            for label in [format!("{base}\u{2212}{mark}b"), format!("{base}{mark}\u{2212}b")] {
                file.in_turn(&points(&(label + ".jp")));
            }
        }
    }
    file.add('S', 0, &[0x61, 0x2212, 0x62]);
}

/// 2212 beside the other hyphens, in labels and texts about as long as may
/// be; and what looks like it.
fn dashes(file: &mut CaseFile) {
    let hyphens = ["-", "\u{FF0D}", "\u{2212}"];
    for (a, b) in hyphens.into_iter().flat_map(|a| hyphens.map(|b| (a, b))) {
        for label in [format!("a{a}{b}b"), format!("\u{3042}{a}a{b}"), format!("{a}b{b}c")] {
            file.in_turn(&points(&(label + ".jp")));
        }
    }
    let units = [("a", 61), ("a", 62), ("\u{3042}", 13), ("\u{3042}", 14), ("\u{FF76}\u{FF9E}", 13)];
    for (unit, times) in units {
        file.name(&points(&format!("{}\u{2212}{unit}.jp", unit.repeat(times))));
    }
    for length in [255, 256, 257] {
        file.text(&vec![0x2212; length]);
    }
    for stranger in [0x2010, 0x2011, 0x2012, 0x2013, 0x2014, 0x2015, 0x207B, 0x2211, 0x2213, 0x2500, 0xFE63] {
        file.name(&with_jp(&[0x61, stranger, 0x62]));
    }
}

fn middle_dots(file: &mut CaseFile) {
    let kinds = ["", "a", "-", "\u{30FB}", "\u{FF65}", "\u{3006}", "\u{30FC}", "\u{FF70}"];
    for before in kinds {
        for after in kinds {
            let text = points(&format!("{before}\u{30FB}{after}.jp"));
            file.name(&text);
            file.leftmost(&text);
        }
    }
    let neighbours = [
        "\u{3005}", "\u{3007}", "\u{309D}", "\u{309E}", "\u{30FD}", "\u{30FE}", "\u{4EDD}", "\u{3042}",
        "\u{30A2}", "\u{4E9C}", "\u{FF71}", "\u{3006}", "\u{30FC}", "x", "0",
    ];
    for neighbour in neighbours {
        for label in [
            format!("\u{30FB}{neighbour}"),
            format!("{neighbour}\u{30FB}"),
            format!("a\u{30FB}\u{30FC}{neighbour}\u{3006}b"),
            format!("\u{FF65}-{neighbour}-\u{30FB}"),
            neighbour.repeat(2),
        ] {
            let text = points(&(label + ".jp"));
            file.in_turn(&text);
            file.leftmost(&text);
        }
    }
    for length in [14, 15, 16] {
        file.everything(&points(&("\u{30FB}".repeat(length) + ".jp")));
        file.everything(&points(&("\u{30FB}".repeat(length - 1) + "\u{30A2}.jp")));
    }
}

fn last_labels(file: &mut CaseFile) {
    let lasts = [
        "jp", "JP", "Jp", "jP", "\u{FF4A}\u{FF50}", "\u{FF2A}p", "j", "p", "pj", "jpp", "jjp", "jp1", "1jp",
        "j-p", "-jp", "jp-", "com", "xn--jp", "\u{65E5}\u{672C}", "j\u{3042}", "\u{3042}", "j\u{30FB}p",
        "tokyo", "kp", "iq", "jq",
    ];
    for last in lasts {
        for front in ["abc", "\u{3042}", "abc.tokyo", "\u{3042}.\u{6771}\u{4EAC}", "abc.tokio"] {
            file.name(&points(&format!("{front}.{last}")));
        }
    }
}

fn prefectures(file: &mut CaseFile) {
    for word in latin_prefectures() {
        latin_prefecture(file, &word);
    }
    for word in japanese_prefectures() {
        japanese_prefecture(file, &word);
    }
    let wrong = "osakafu tokyo-to -tokyo tokyo- jp a - \u{30FB} gumma \u{6771}\u{4EAC}\u{90FD}";
    for word in wrong.split(' ') {
        file.text(&points(&format!("abc.{word}.jp")));
    }
}

fn middle_label(file: &mut CaseFile, word: &str) {
    file.add('C', 256, &points(&format!("abc.{word}.jp")));
}

/// A Latin prefecture label in each case and width, and words near it.
fn latin_prefecture(file: &mut CaseFile, word: &str) {
    for spelled in [word.to_string(), word.to_uppercase(), mixed_case(word)] {
        middle_label(file, &spelled);
        middle_label(file, &wide(&spelled));
    }
    file.name(&points(&format!("\u{3042}.{word}.jp")));
    file.add('A', 192, &points(&format!("{word}.{word}.JP")));
    file.add('C', 256, &points(&format!("abc.{word}")));
    middle_label(file, &word[1..]);
    middle_label(file, &word[..word.len() - 1]);
    middle_label(file, &word.chars().rev().collect::<String>());
    for near in ["{}a", "{}-", "{}-ken", "\u{3042}{}"] {
        middle_label(file, &near.replace("{}", word));
    }
}

/// A Japanese prefecture label, and words near it.
fn japanese_prefecture(file: &mut CaseFile, word: &str) {
    file.name(&points(&format!("abc.{word}.jp")));
    file.text(&points(&format!("\u{3042}\u{FF61}{word}\u{FF0E}JP")));
    file.add('A', 192, &points(&format!("{word}.jp")));
    middle_label(file, &word.chars().take(1).collect::<String>());
    middle_label(file, &word.chars().rev().collect::<String>());
    for near in ["{}{}", "{}a", "{}\u{770C}", "\u{4EAC}{}"] {
        middle_label(file, &near.replace("{}", word));
    }
}

/// Texts to which several checks apply: the first is to be given.
fn order_of_checks(file: &mut CaseFile) {
    let lefts = ["", "-", "a", "a-", "ab--c", "ab--", "-aaaaaaaaaaaaaaaa\u{3042}", "\u{30FB}", "-\u{30FB}", "\u{30FB}\u{30FB}\u{30FB}\u{30FB}\u{30FB}\u{30FB}\u{30FB}\u{30FB}\u{30FB}\u{30FB}\u{30FB}\u{30FB}\u{30FB}\u{30FB}\u{30FB}\u{30FB}", "a b", "abc"];
    let tails = [
        "", ".", "..", ".jp", ".com", ".tokyo", ".tokyo.jp", ".tokio.jp", ".tokio.com", "..jp",
        ".\u{309B}.jp", ".jp.", ".a.b.c", ".tokyo.jp.", ".\u{20}",
    ];
    for left in lefts {
        for tail in tails {
            file.text(&points(&format!("{left}{tail}")));
        }
    }
    // Places of unfit characters count code points of the application text.
    for before in 0..12 {
        let pairs = "\u{FF76}\u{FF9E}".repeat(before);
        for unfit in ["\u{FF9E}", "\u{309C}", "!", "\u{3000}", "\u{FFFF}"] {
            file.in_turn(&points(&format!("{pairs}{unfit}{pairs}{unfit}.jp")));
            file.in_turn(&points(&format!("a{pairs}.{unfit}")));
        }
    }
}

/// Japanese labels with about the longest encoded form there is: 58 and 59
/// octets. No accepted name comes to 64 (see tests/bound.rs).
pub const LONG_FORMS: [&str; 2] = [
    "\u{798E}\u{864E}\u{4ED6}\u{798A}\u{643A}\u{6413}\u{9B25}\u{5BF3}\u{6CAB}\u{690B}\u{4E38}\u{68E7}\u{5C20}\u{9262}\u{3089}",
    "\u{9039}\u{4F0F}\u{61C8}\u{69C7}\u{71ED}\u{5B75}\u{708E}\u{30CE}\u{7949}\u{6249}\u{82FA}\u{6919}\u{5BB4}\u{4F5B}\u{9F3E}",
];

fn long_forms(file: &mut CaseFile) {
    for label in LONG_FORMS {
        file.label(&points(label));
        for tail in [".jp", ".kagoshima.jp", ".\u{9E7F}\u{5150}\u{5CF6}.jp"] {
            file.text(&points(&format!("{label}{tail}")));
        }
    }
}

fn buffers(file: &mut CaseFile) {
    for lent in (0..=4).chain(60..=66).chain(186..=198).chain(250..=300) {
        for call in ['N', 'C', 'A'] {
            file.add::<u32>(call, lent, &[]);
        }
    }
    let long = "a".repeat(63) + ".kagoshima.jp";
    let texts =
        ["abc.jp", "ab.jp", "\u{FF76}\u{FF9E}.\u{6771}\u{4EAC}.jp", "\u{20}", &long, &"a".repeat(257)];
    let lengths =
        [0, 1, 2, 5, 6, 7, 61, 62, 63, 64, 65, 190, 191, 192, 193, 194, 254, 255, 256, 257, 258, 299, 300];
    for text in texts.map(points) {
        for lent in lengths.into_iter().filter(|lent| text.len() < 100 || [191, 192, 255, 256].contains(lent))
        {
            file.add('N', lent, &text);
            file.add('C', lent, &text);
            file.add('A', lent, &text);
        }
    }
}

/// Labels for the second reader that no normal form would give.
fn second_reader(file: &mut CaseFile) {
    for text in [
        "", "A", "ABC", "aBc", "abc", "a.c", "a c", "\u{FF41}\u{FF42}\u{FF43}", "\u{FF71}", "\u{3042}A",
        "\u{30AB}\u{309B}", "a_b", "abc\0", "\u{3042}.",
    ] {
        file.add('S', 0, &points(text));
    }
    let units = [0x61, 0x3042, 0x30FB, 0x30FC, 0x2D, 0x4EDD];
    for length in [1, 2, 3, 15, 16, 63, 64, 100, 257] {
        let some = if length > 64 { &units[..1] } else { &units[..] };
        for unit in some {
            let mut label = vec![*unit; length];
            file.add('S', 0, &label);
            label[length / 2] = 0x3042;
            file.add('S', 0, &label);
            label[length - 1] = 0x2D;
            file.add('S', 0, &label);
        }
    }
}
