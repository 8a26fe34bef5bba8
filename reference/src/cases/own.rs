//! The calls that name their table of kanji themselves, the judge, and the
//! places of a normal form.

use super::characters::with_jp;
use super::random::NameMaker;
use super::{numbers_of, tried, CaseFile, SEED};
use crate::chars::kanji_in_rows;
use crate::edition::Edition;
use crate::name;
use crate::normal::normal_form;
use crate::points;
use crate::random::Random;
use std::collections::BTreeMap;

pub fn add(file: &mut CaseFile) {
    for text in spread(file) {
        judged(file, &text);
    }
    for text in tried::texts() {
        judged(file, &points(&text));
        places(file, &points(&text));
    }
    some_kanji(file);
    buffers(file);
    readers(file);
    marked_places(file);
    long_places(file);
    random(file);
}

/// The five calls on a text.
fn judged(file: &mut CaseFile, text: &[u32]) {
    file.add('c', 256, text);
    file.add('a', 192, text);
    for call in ['l', 'J', 'j'] {
        file.add(call, 0, text);
    }
}

/// Texts of the case file so far, some for each number, the first, the last
/// and others in even steps between.
fn spread(file: &CaseFile) -> Vec<Vec<u32>> {
    let mut texts = BTreeMap::<u8, Vec<Vec<u32>>>::new();
    for line in file.lines.iter().filter(|line| line.starts_with("C 256")) {
        let text = numbers_of(line);
        let number = name::check(&text, Edition::Today).err().map_or(0, |refusal| refusal.number);
        texts.entry(number).or_default().push(text);
    }
    let some = |(number, of_number): (&u8, &Vec<Vec<u32>>)| {
        let wanted = match number {
            0 => 24,
            2 => 1,
            3 => 3,
            _ => 10,
        };
        let last = of_number.len() - 1;
        let picks = (0..wanted).map(|order| order * last / (wanted - 1).max(1));
        picks.map(|pick| of_number[pick].clone()).collect::<Vec<_>>()
    };
    texts.iter().flat_map(some).collect()
}

/// Some kanji in labels of fifteen, by every call in turn.
fn some_kanji(file: &mut CaseFile) {
    let calls = [('c', 256), ('a', 192), ('l', 0), ('J', 0), ('j', 0)];
    for (order, fifteen) in kanji_in_rows().chunks(15).enumerate().step_by(4) {
        let (call, lent) = calls[order / 4 % calls.len()];
        file.add(call, lent, &with_jp(fifteen));
        file.add('s', 0, fifteen);
    }
    for code in (0x4DFE..=0x9FA2).step_by(199) {
        file.add('s', 0, &[code]);
        file.add('j', 0, &with_jp(&[code]));
    }
    for code in [0x4DFF, 0x4E00, 0x4E01, 0x4EDC, 0x4EDD, 0x4EDE, 0x9F9F, 0x9FA0, 0x9FA1] {
        file.add('s', 0, &[code]);
        judged(file, &with_jp(&[code]));
    }
}

/// Lent buffers of many lengths.
fn buffers(file: &mut CaseFile) {
    for lent in [0, 1, 6, 62, 63, 64, 190, 191, 192, 193, 254, 255, 256, 257, 300] {
        for text in ["", "abc.jp", "ab.jp", "\u{FF76}\u{FF9E}.\u{6771}\u{4EAC}.JP", " "] {
            file.add('c', lent, &points(text));
            file.add('a', lent, &points(text));
        }
    }
    for text in ["a".repeat(257), "a".repeat(63) + ".kagoshima.jp"] {
        for lent in [255, 256] {
            file.add('c', lent, &points(&text));
        }
        for lent in [191, 192] {
            file.add('a', lent, &points(&text));
        }
    }
}

/// Labels for the second reader, good and bad, at each edge.
fn readers(file: &mut CaseFile) {
    let labels = [
        "", "a", "ab", "abc", "ABC", "a.c", "a c", "-", "-ab", "ab-", "a-b", "a--b", "\u{3042}", "\u{3042}-",
        "-\u{3042}", "\u{30FB}", "\u{30FC}", "\u{3006}\u{30FB}", "\u{30FB}\u{3005}", "a\u{30FB}b",
        "\u{FF71}", "\u{30AB}\u{309B}", "\u{4EDD}", "\u{3094}", "\u{30F7}", "abc\0", "ab--c", "xn--l8j",
        "ab--", "a---b", "ab--\u{3042}", "ab--\u{30FB}",
    ];
    for label in labels {
        file.add('s', 0, &points(label));
    }
    for length in [14, 15, 16, 62, 63, 64, 100, 300] {
        for unit in [0x61, 0x3042, 0x30FB, 0x4E9C] {
            let mut label = vec![unit; length];
            file.add('s', 0, &label);
            label[length / 2] = 0x3042;
            file.add('s', 0, &label);
        }
    }
}

/// The places of every entry of the normal form and of one past it.
fn places(file: &mut CaseFile, text: &[u32]) {
    file.add('P', normal_form(text).len().min(300), text);
}

/// Compositions at the start, in the midst, at the end, none and all.
fn marked_places(file: &mut CaseFile) {
    let units = [
        "\u{FF76}\u{FF9E}", "\u{30CF}\u{309C}", "\u{304B}\u{FF9E}", "\u{30A6}\u{309B}", "\u{3046}\u{309B}",
        "\u{30CF}\u{309B}\u{309C}", "\u{309D}\u{309B}", "\u{309B}", "\u{FF9F}", "\u{FF71}", "A", "\u{3002}",
        "\u{FF61}", "\0",
    ];
    for unit in units {
        for (before, after) in [("", ""), ("a", ""), ("", "a"), ("ab", "cd"), (unit, ""), (unit, unit)] {
            places(file, &points(&format!("{before}{unit}{after}")));
        }
        places(file, &points(&format!("{unit}a{unit}.{unit}jp")));
    }
    for entry in [0, 1, 2, 3, 4, 5, 6, 300] {
        file.add('P', entry, &points("\u{FF76}\u{FF9E}a\u{FF8A}\u{FF9F}.jp"));
        file.add('P', entry, &points("\u{FF9E}\u{FF76}\u{FF9E}"));
        file.add::<u32>('P', entry, &[]);
    }
    file.add('P', 3, &[0xFFFF_FFFFu32, 0x309B, 0x30AB, 0x309B]);
    file.add('P', 3, &[0x30ABu32, 0x1_309B, 0x1_30AB, 0x309B]);
}

/// Texts near the longest length and beyond: a place is told of any text.
fn long_places(file: &mut CaseFile) {
    for length in [255, 256, 257, 300] {
        for unit in ["a", "\u{FF76}\u{FF9E}", "\u{30AB}\u{309B}\u{309B}"] {
            let text: Vec<u32> = points(unit).into_iter().cycle().take(length).collect();
            places(file, &text);
        }
    }
}

/// Random names as typed and their damaged copies.
fn random(file: &mut CaseFile) {
    let mut random = Random::seeded(SEED ^ 0x0817);
    let maker = NameMaker::default();
    for round in 0..45 {
        let typed = maker.typed_name(&mut random);
        let damaged = maker.edit(&typed, &mut random);
        for text in [typed, damaged] {
            places(file, &text);
            file.add(['c', 'j', 'J', 'l'][round % 4], if round % 4 == 0 { 256 } else { 0 }, &text);
            file.add('a', 192, &text);
        }
    }
}
