//! Which scripts a name uses (K6): names with every set of kinds, by the calls
//! whose answers tell kinds, and labels by themselves.

use super::labels::numbers;
use super::CaseFile;
use crate::chars::SIGNS;
use crate::points;

/// A hiragana, a katakana, a kanji and a sign: first ones of their stretches,
/// last ones, and others.
const FIRST: &str = "\u{3041}\u{30A1}\u{4E00}\u{3005}";
const LAST: &str = "\u{3093}\u{30F6}\u{9FA0}\u{30FC}";
const OTHERS: &str = "\u{3042}\u{30F4}\u{4E9C}\u{4EDD}";

/// Half-width kana, which are katakana once normal, and what becomes a sign.
const HALF_WIDTH: [&str; 20] = [
    "\u{FF71}", "\u{FF66}", "\u{FF67}", "\u{FF6F}", "\u{FF9D}", "\u{FF76}\u{FF9E}", "\u{FF8A}\u{FF9F}",
    "\u{FF73}\u{FF9E}", "\u{FF76}\u{309B}", "\u{FF70}", "\u{FF71}\u{FF70}", "\u{FF70}\u{FF71}",
    "\u{FF65}\u{FF71}", "\u{FF71}\u{FF65}\u{FF72}", "\u{3042}\u{FF65}", "\u{FF71}\u{3042}",
    "\u{FF71}\u{4E9C}\u{FF70}", "\u{FF70}\u{4E9C}\u{FF76}\u{FF9E}\u{3042}", "\u{FF65}\u{4E9C}", "A\u{FF8E}B",
];

/// Bases and marks, full-width: a base and what it becomes are of one kind.
const COMPOSED: [&str; 12] = [
    "\u{304B}\u{309B}", "\u{306F}\u{309C}", "\u{304B}\u{FF9E}", "\u{30AB}\u{309B}", "\u{30CF}\u{FF9F}",
    "\u{30A6}\u{309B}", "\u{309D}\u{309B}", "\u{309D}\u{FF9E}", "\u{30FD}\u{309B}",
    "\u{30FD}\u{309B}\u{30A6}\u{309B}", "\u{309D}\u{309B}\u{304B}\u{309B}",
    "\u{30CF}\u{309C}\u{4E9C}\u{306F}\u{309C}",
];

/// Letters, digits and hyphens have no kind, however they are typed.
const NO_KIND: [&str; 8] = [
    "ABC", "a-0", "\u{FF21}\u{FF22}\u{FF23}", "\u{FF41}\u{2212}\u{FF11}", "012", "HKJS", "hkjs",
    "a\u{FF0D}\u{FF0D}b",
];

/// Refused names that hold kinds, in the order of their numbers from 4 on. Those
/// with 8 and 17 hold them in the middle label alone.
const REFUSED: [&str; 15] = [
    "\u{3042}\u{30A2}\u{4E9C}\u{3005} .jp", "\u{3046}\u{309B}\u{30A2}.jp", "\u{4E9C}\u{3003}.jp",
    "\u{3042}\u{30A2}\u{4E9C}\u{3005}", "\u{4E9C}..jp", "\u{30FC}.jp.", "-\u{3042}.jp",
    "\u{30A2}\u{4E9C}\u{2212}.nara.jp", "ab.\u{6771}\u{4EAC}.jp", "ab--c.\u{6771}\u{4EAC}.jp",
    "\u{30FB}\u{30FC}\u{3006}.jp", "\u{3042}\u{30A2}.com", "\u{4E9C}\u{3005}.\u{6771}\u{4EAC}",
    "\u{3042}\u{3005}.\u{6771}.jp", "\u{30A2}.tokio.jp",
];

pub fn add(file: &mut CaseFile) {
    sets_by_every_call(file);
    orders_of_sets(file);
    beside_ascii(file);
    repeated(file);
    at_each_place(file);
    signs(file);
    middle_labels(file);
    stretches(file);
    as_typed(file);
    refused(file);
    buffers(file);
    bad_lines(file);
    batches(file);
    labels_of_any_kind(file);
}

/// The sixteen choices among four characters, in their order.
fn sets(characters: &str) -> Vec<String> {
    let chosen = |set: usize| characters.chars().enumerate().filter(move |(at, _)| set >> at & 1 == 1);
    (0..16).map(|set| chosen(set).map(|(_, character)| character).collect()).collect()
}

/// All orders of some characters.
fn orders(characters: &[char]) -> Vec<String> {
    let mut all = Vec::new();
    for (at, first) in characters.iter().enumerate() {
        let rest = [&characters[..at], &characters[at + 1..]].concat();
        all.extend(orders(&rest).into_iter().map(|tail| format!("{first}{tail}")));
    }
    if characters.is_empty() {
        all.push(String::new());
    }
    all
}

/// Every set of kinds once, as lines of a batch.
pub fn lines_of_sets() -> String {
    let line = |(order, set): (usize, &String)| format!("k{order}\tx{set}yz.jp\n");
    sets(OTHERS).iter().enumerate().map(line).collect()
}

/// One of the four calls whose answers tell kinds.
fn ask(file: &mut CaseFile, which: usize, name: &str) {
    match which % 4 {
        0 => file.add('A', 192, &points(name)),
        1 => file.add('W', 256, format!("k\t{name}").as_bytes()),
        2 => file.add('a', 192, &points(name)),
        _ => file.batch(format!("k\t{name}\n").as_bytes()),
    }
}

fn by_all(file: &mut CaseFile, name: &str) {
    (0..4).for_each(|which| ask(file, which, name));
}

/// One of the four, each in its turn.
fn in_turn(file: &mut CaseFile, name: &str) {
    file.turn += 1;
    let which = file.turn;
    ask(file, which, name);
}

/// A label by itself.
fn alone(file: &mut CaseFile, label: &[u32]) {
    file.add('Q', 0, &numbers(0, 3, 0, label));
}

/// Each set in names of both classes. The middle label of kanji is no part of it.
fn sets_by_every_call(file: &mut CaseFile) {
    for (characters, ending) in [(FIRST, ".jp"), (LAST, ".\u{6771}\u{4EAC}.jp")] {
        for set in sets(characters) {
            let label = if set.is_empty() { "abc" } else { &set[..] };
            by_all(file, &format!("{label}{ending}"));
            alone(file, &points(label));
        }
    }
}

/// The characters of a set in every order. The letters keep theirs.
fn orders_of_sets(file: &mut CaseFile) {
    for set in sets(OTHERS).iter().filter(|set| set.chars().count() > 1) {
        let characters: Vec<char> = set.chars().collect();
        for (label, ending) in orders(&characters).iter().zip([".jp", ".nara.jp"].into_iter().cycle()) {
            in_turn(file, &format!("{label}{ending}"));
            alone(file, &points(label));
        }
    }
}

/// Each set after letters, before digits, and among letters and hyphens.
fn beside_ascii(file: &mut CaseFile) {
    for set in sets(OTHERS).into_iter().skip(1) {
        let parted = |by: &str| set.chars().map(String::from).collect::<Vec<_>>().join(by);
        let labels = [format!("ab{set}"), format!("{set}09"), parted("-"), format!("0{}z", parted("a--b"))];
        for label in labels {
            in_turn(file, &format!("{label}.jp"));
        }
        alone(file, &points(&format!("a{}0", parted("-"))));
    }
}

/// Kinds that come again, in labels of fifteen; a sixteenth is too much.
fn repeated(file: &mut CaseFile) {
    for set in sets(OTHERS).into_iter().skip(1) {
        let twice: String = set.chars().chain(set.chars().rev()).collect();
        in_turn(file, &format!("{twice}.osaka.jp"));
        for length in [15, 16] {
            let label: String = set.chars().cycle().take(length).collect();
            in_turn(file, &format!("{label}.jp"));
        }
    }
    let halves = "\u{FF76}\u{FF9E}".repeat(12);
    for tail in ["\u{3042}\u{4E9C}\u{FF70}", "\u{3042}\u{4E9C}\u{FF70}a"] {
        by_all(file, &format!("{halves}{tail}.jp"));
    }
}

/// One character of a kind, at the front, in the midst and at the end of fifteen.
fn at_each_place(file: &mut CaseFile) {
    for unit in ['a', '\u{3042}', '\u{4E9C}'] {
        for one in OTHERS.chars().filter(|one| *one != unit) {
            for place in [0, 7, 14] {
                let mut label = [unit; 15];
                label[place] = one;
                in_turn(file, &format!("{}.jp", String::from_iter(label)));
            }
        }
    }
}

/// Each sign alone, before and after each other kind, and beside another sign.
/// The middle dot alone is refused.
fn signs(file: &mut CaseFile) {
    let signs: Vec<char> = SIGNS.iter().filter_map(|code| char::from_u32(*code)).collect();
    for (sign, next) in signs.iter().zip(signs.iter().cycle().skip(1)) {
        by_all(file, &format!("{sign}.jp"));
        in_turn(file, &format!("{sign}{next}.jp"));
        in_turn(file, &format!("a{sign}-0.jp"));
        for other in ['\u{3042}', '\u{30A2}', '\u{4E9C}'] {
            in_turn(file, &format!("{sign}{other}.jp"));
            in_turn(file, &format!("{other}{sign}.mie.jp"));
        }
    }
}

/// Kinds that stand in the middle label only, or there too.
fn middle_labels(file: &mut CaseFile) {
    for middle in ["\u{6771}\u{4EAC}", "\u{5317}\u{6D77}\u{9053}", "OITA"] {
        for label in ["abc", "\u{3042}", "\u{30A2}\u{3042}", "\u{FF71}", "\u{4E9C}", "\u{3005}", "a\u{30FC}b"]
        {
            in_turn(file, &format!("{label}.{middle}.jp"));
        }
    }
    for middle in ["\u{5927}\u{962A}", "\u{795E}\u{5948}\u{5DDD}"] {
        by_all(file, &format!("abc.{middle}.jp"));
        by_all(file, &format!("\u{30FC}\u{3042}\u{3002}{middle}\u{FF61}JP"));
    }
}

/// What stands at the ends of the stretches and just past them, and the signs.
fn stretches(file: &mut CaseFile) {
    let near = [
        0x3040, 0x3041, 0x3092, 0x3093, 0x3094, 0x3095, 0x3096, 0x309F, 0x30A0, 0x30A1, 0x30F4, 0x30F5,
        0x30F6, 0x30F7, 0x30FA, 0x30FF, 0x3003, 0x3004, 0x3008, 0x4DFF, 0x4E00, 0x4EDC, 0x4EDE, 0x9FA0,
        0x9FA1, 0x31F0,
    ];
    file.add('K', 0, &near);
    file.add('K', 0, &SIGNS);
    for characters in [FIRST, LAST, OTHERS] {
        file.add('K', 0, &points(characters));
    }
    for one in near.into_iter().filter_map(char::from_u32) {
        in_turn(file, &format!("{one}.jp"));
        in_turn(file, &format!("\u{3005}{one}.nara.jp"));
    }
}

/// What is counted is the normal form.
fn as_typed(file: &mut CaseFile) {
    for label in HALF_WIDTH.iter().chain(&COMPOSED).chain(&NO_KIND) {
        in_turn(file, &format!("{label}.jp"));
    }
    for label in HALF_WIDTH {
        in_turn(file, &format!("{label}\u{3002}\u{FF2E}ara\u{FF61}jp"));
    }
}

fn refused(file: &mut CaseFile) {
    for name in REFUSED {
        by_all(file, name);
    }
    // 9 and 3.
    for length in [16, 253, 254] {
        let label: String = OTHERS.chars().cycle().take(length).collect();
        by_all(file, &format!("{label}.jp"));
    }
}

/// A lent buffer that is too short: no kinds are told.
fn buffers(file: &mut CaseFile) {
    for lent in [0, 1, 4, 191, 192, 193, 300] {
        for name in ["\u{4E9C}\u{30A2}\u{3042}\u{30FC}.jp", "\u{30A2}\u{4E9C}.\u{6771}.jp"] {
            file.add('A', lent, &points(name));
            file.add('a', lent, &points(name));
        }
    }
    for lent in [0, 255, 256, 257, 300] {
        file.add('W', lent, "k\t\u{4E9C}\u{30A2}\u{3042}\u{30FC}.jp".as_bytes());
    }
}

/// Bad lines that hold kinds.
fn bad_lines(file: &mut CaseFile) {
    let name = "\u{3042}\u{30A2}\u{4E9C}\u{3005}.jp";
    let long = "\u{3042}".repeat(342);
    let lines = [
        name.to_string(),
        format!("\t{name}"),
        format!("k\t{name}\t"),
        format!("k\tabc.jp\t{name}"),
        format!("{name}\tabc.jp"),
        format!("\u{3042}\t{name}"),
        format!("k_\t{name}"),
        format!("k\t{long}"),
    ];
    let broken = [name.as_bytes(), b"\xE3"].concat();
    for line in lines.iter().map(|line| line.as_bytes()).chain([&[b"k\t", &broken[..]].concat()[..]]) {
        file.add('W', 256, line);
        file.batch(&[line, b"\nm\t\xE3\x83\xBC.jp\n"].concat());
    }
}

/// Every set in one batch, from few kinds to many and back, good lines beside
/// refused and bad ones.
fn batches(file: &mut CaseFile) {
    let forward = lines_of_sets();
    let backward: String = forward.lines().rev().map(|line| format!("{line}\n")).collect();
    file.batch(forward.as_bytes());
    file.batch(backward.as_bytes());
    let between = |after: &str| forward.lines().map(|line| format!("{line}\n{after}\n")).collect::<String>();
    for after in ["m\t\u{3042}\u{30A2}.com", "\u{4E9C}\u{3005}", "m\tabc.\u{6771}\u{4EAC}.jp"] {
        file.batch(between(after).as_bytes());
    }
}

/// Labels by themselves: kinds are told where a label may hold all of its
/// characters, refused or not. Nothing is replaced here, so half-width kana have
/// no kind.
fn labels_of_any_kind(file: &mut CaseFile) {
    for label in [
        "", " ", "\u{FF71}", "\u{FF70}", "\u{FF76}\u{FF9E}", "\u{309B}", "\u{304B}\u{309B}",
        "\u{309D}\u{309B}", "\u{3042}.\u{30A2}", ".\u{4E9C}", "\u{3005}.", "\u{6771}\u{4EAC}.jp",
        "abc.\u{6771}\u{4EAC}.jp", "\u{3042} \u{4E9C}", "A\u{30A2}", "\u{3094}\u{30F7}\u{3003}",
        "\u{3094}\u{3042}", "-\u{30A2}", "\u{4E9C}-", "\u{30FB}", "\u{30FB}\u{30FC}", "\u{FF41}\u{4E9C}",
        "\u{3002}\u{30FD}",
    ] {
        alone(file, &points(label));
        file.add('Q', 1, &numbers(1, 3, 2, &points(label)));
    }
    for length in [16, 64, 300] {
        for one in points(OTHERS) {
            let mut label = vec![0x61; length];
            label[length - 1] = one;
            alone(file, &label);
        }
    }
    // Alike in their lower halves.
    for high in [0x1_0000, 0x8000_0000, 0xFFFF_0000] {
        alone(file, &points(OTHERS).iter().map(|code| high | code).collect::<Vec<_>>());
        alone(file, &[high | 0x3042, 0x30A2]);
    }
}
