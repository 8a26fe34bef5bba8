//! Texts on their way to a name, for the question whether they may yet become
//! one. A case asks it of every beginning of its text, so a text that begins
//! another one is left out, but for the empty one.

use super::names::wide;
use super::random::NameMaker;
use super::{tried, CaseFile, SEED};
use crate::name::{japanese_prefectures, latin_prefectures};
use crate::points;
use crate::random::Random;
use std::collections::BTreeSet;

/// The four separators.
const PERIODS: [&str; 4] = [".", "\u{FF0E}", "\u{3002}", "\u{FF61}"];

pub fn add(file: &mut CaseFile) {
    let labels = [growing(), at_the_edge(), before_periods(), marks(), pairs(), long_pairs()].concat();
    let picked = [tried::texts(), labels, second_labels(), astray(), last_labels()].concat();
    let mut texts: BTreeSet<Vec<u32>> = picked.iter().map(|text| points(text)).collect();
    texts.extend(unfit().into_iter().chain(long()).chain(random()));
    file.add::<u32>('M', 0, &[]);
    // In order, a text that begins others stands right before one of them.
    let next = texts.iter().skip(1).map(Some).chain([None]);
    for (text, next) in texts.iter().zip(next) {
        if !next.is_some_and(|next| next.starts_with(text)) {
            file.add('M', 0, text);
        }
    }
}

/// Labels near the edges of what may still grow, and what may follow there.
fn growing() -> Vec<String> {
    let ends = ["", "-\u{3042}", "\u{30FB}", "\u{3006}", "\u{30FC}\u{3005}", "\u{304B}\u{309B}"];
    let kinds: [(&str, &str, &[usize], &[&str]); 8] = [
        ("a", "", &[1, 2, 3], &ends),
        ("a", "", &[13, 14, 15, 16, 17], &["\u{3042}", "-\u{3042}"]),
        ("a", "", &[61, 62, 63, 65], &["", "-a"]),
        ("\u{3042}", "", &[1, 2, 3, 13, 14, 15], &ends),
        ("\u{30FB}", "", &[1, 2, 3, 13, 14], &ends),
        ("b", "\u{3042}", &[1, 2, 12, 13, 14], &ends),
        ("\u{3042}", "", &[16, 17], &[""]),
        ("\u{30FB}", "", &[15, 17], &["", "\u{3042}"]),
    ];
    let mut texts = Vec::new();
    for (unit, last, lengths, ends) in kinds {
        for length in lengths {
            for end in ends {
                let period = PERIODS[texts.len() % 4];
                texts.push(format!("{}{last}{end}{period}", unit.repeat(*length)));
            }
        }
    }
    texts.extend(["-", "--a", "-\u{3042}"].map(|end| "c".repeat(61) + end + "aaa"));
    texts.extend([("j", "\u{2212}"), ("k", "\u{2212}\u{3042}.")].map(|(unit, end)| unit.repeat(61) + end));
    texts.extend([12, 13, 14].map(|length| "\u{304A}".repeat(length) + "\u{2212}"));
    texts.extend(["\u{2212}a", "l\u{2212}.", "l\u{2212}\u{309B}", "abc.n\u{2212}"].map(String::from));
    texts
}

/// Labels that end right at an edge. Each has its own letters: none begins
/// another text.
fn at_the_edge() -> Vec<String> {
    let labels = [
        ("d", 63, ""),
        ("e", 64, ""),
        ("f", 61, "-"),
        ("g", 62, "-"),
        ("h", 14, "\u{3044}"),
        ("i", 15, "\u{3044}"),
        ("\u{3046}", 15, ""),
        ("\u{3048}", 16, ""),
        ("\u{304A}", 13, "-"),
        ("\u{304D}", 14, "-"),
        ("\u{304F}", 14, "\u{FF76}"),
        ("\u{3051}", 14, "\u{FF76}\u{FF9E}"),
        ("\u{3053}", 15, "\u{FF76}"),
        ("\u{FF65}", 14, ""),
        ("\u{30FC}\u{30FB}", 7, ""),
        ("\u{3006}\u{30FB}\u{30FB}", 5, ""),
    ];
    labels.iter().map(|(unit, times, end)| unit.repeat(*times) + end).collect()
}

/// Short labels before each form of the period.
fn before_periods() -> Vec<String> {
    let labels =
        ["", "a", "ab", "abc", "a-", "\u{3042}", "\u{304B}", "\u{30FB}", "\u{30FB}\u{3005}", "\u{30FC}"];
    labels.iter().flat_map(|label| PERIODS.map(|period| format!("{label}{period}j"))).collect()
}

/// Bases that a mark joins, or does not, in short labels and full ones.
fn marks() -> Vec<String> {
    let pairs = [
        "\u{304B}\u{309B}", "\u{306F}\u{309C}", "\u{FF76}\u{FF9E}", "\u{FF8A}\u{FF9F}", "\u{30A6}\u{FF9E}",
        "\u{309D}\u{309B}", "\u{304B}\u{309B}\u{309B}", "\u{FF8A}\u{309C}\u{FF9E}", "\u{304B}\u{309C}",
        "\u{3046}\u{309B}", "\u{304B}-\u{309B}", "\u{304B}.\u{309B}", "\u{304B}\u{3099}", "\u{30FB}\u{309B}",
        "\u{30FC}\u{FF9E}", "a\u{309B}", "\u{309B}", "\u{FF9F}",
    ];
    let mut texts = pairs.map(String::from).to_vec();
    for length in [12, 13] {
        texts.extend(pairs[..10].iter().map(|pair| format!("\u{3042}{}{pair}a", "a".repeat(length))));
    }
    for end in ["-", "a", ".jp", "\u{FF76}\u{FF9E}", "\u{FF9E}"] {
        texts.push("\u{FF76}\u{FF9E}".repeat(15) + end);
    }
    texts.extend([13, 14].map(|length| "\u{FF76}\u{FF9E}".repeat(length) + "-\u{30FB}."));
    texts
}

/// Hyphens in the third and fourth places, and beside them, in labels that are
/// Japanese, may still become so, or end without.
fn pairs() -> Vec<String> {
    let fronts = [
        "ab--", "0a\u{FF0D}\u{2212}", "\u{FF38}N\u{2212}-", "b---", "\u{3042}b--", "b\u{3042}--",
        "\u{30FB}b--", "\u{FF8A}\u{FF9E}\u{3042}--", "abc--", "b--c", "bc-d",
    ];
    let ends = ["c", "-c", "\u{3044}", "-\u{3044}", "\u{30FB}", "c\u{30FC}", "\u{309B}"];
    let mut texts = Vec::new();
    for front in fronts {
        for end in ends {
            let period = PERIODS[texts.len() % 4];
            texts.push(format!("{front}{end}{period}j"));
        }
    }
    texts.extend(
        ["cd--.", "cd-.", "cd-e.", "cd--_", "cd--e.jp", "cd--e.nara.jp", "cd--e\u{3042}.nara.jp"]
            .map(String::from),
    );
    texts
}

/// A Japanese character must come among the first fifteen, an ordinary one
/// where there is a middle dot. Without the pair the letters go on to 63.
fn long_pairs() -> Vec<String> {
    let mut texts = vec![format!("de--{}", "f".repeat(60)), format!("def--{}", "g".repeat(59))];
    for length in [13, 14, 15, 16] {
        let more = length - 4;
        texts.extend(
            ["\u{3042}.", "-\u{3042}.", "\u{30FB}.", "-"].map(|end| format!("ef--{}{end}", "g".repeat(more))),
        );
        texts.push(format!("\u{3042}h--{}.", "i".repeat(more)));
        texts.push(format!("hi--{}.", "\u{FF76}\u{FF9E}".repeat(more)));
        texts.push(format!("ij--{}\u{3005}.", "\u{30FB}".repeat(more)));
    }
    texts
}

/// "jp" and the prefecture labels, as they may be typed.
fn second_label_words() -> Vec<String> {
    let latin = latin_prefectures().into_iter().chain(["jp".to_string()]).enumerate();
    let spelled = latin.map(|(order, word)| match order % 3 {
        0 => word,
        1 => word.to_uppercase(),
        _ => wide(&word),
    });
    spelled.chain(japanese_prefectures()).collect()
}

fn second_labels() -> Vec<String> {
    second_label_words().iter().map(|word| format!("\u{3042}.{word}.jp")).collect()
}

/// Second labels that go astray: each at some place, a few at every place. A
/// period is astray everywhere but at the end.
fn astray() -> Vec<String> {
    let mut texts = Vec::new();
    let mut stray = |left: &str, word: &[char], place: usize| {
        let begun: String = word[..place].iter().collect();
        let wrong = ["x", "-", "\u{3042}", ".", "\u{99C5}"][texts.len() % 5];
        texts.push(format!("{left}.{begun}{wrong}"));
    };
    for (order, word) in second_label_words().iter().enumerate() {
        let word: Vec<char> = word.chars().collect();
        stray("\u{3042}", &word, order % (word.len() + 1));
    }
    for word in ["jp", "tokyo", "KAGOSHIMA", "\u{5317}\u{6D77}\u{9053}"] {
        let word: Vec<char> = word.chars().collect();
        for place in 0..=word.len() {
            stray("abc", &word, place);
            stray("\u{30FC}", &word, place);
        }
    }
    let near = "toki tokyu toyo jpn jjp pj com osakafu \u{6771}\u{90FD} \u{4EAC}\u{6771} \u{798F}\u{5CA9}";
    texts.extend(near.split(' ').map(|word| format!("abc.{word}")));
    texts
}

/// Third labels, four labels, empty ones; names after a label that is none.
fn last_labels() -> Vec<String> {
    let mut texts: Vec<String> = [
        "", "x", "j.", "J\u{FF30}", "\u{FF4A}p", "jq", "pj", "jp.", "jp\u{3002}jp", "jpx", "jp-",
        "jp\u{309B}", "jp\u{3042}", "tokyo", "-", ".", "\u{6771}\u{4EAC}", " ",
    ]
    .iter()
    .flat_map(|last| [format!("abc.tokyo.{last}"), format!("\u{30FC}\u{3002}\u{5343}\u{8449}\u{FF61}{last}")])
    .collect();
    for text in
        ["abc.jp.jp", "abc.jp.tokyo", "abc.jp..", "a.b.c.d", "abc.b.c.d", "....", ".abc.jp", "abc..jp"]
    {
        texts.push(text.to_string());
    }
    for label in ["-ab", "ab-", "ab", "\u{30FB}", "a\u{30FB}\u{3006}", "\u{3042}-", "-\u{3042}", "a b"] {
        texts.extend([".jp", ".osaka.jp"].map(|end| format!("{label}{end}")));
    }
    texts
}

/// A character that is unfit, at each place of some names.
fn unfit() -> Vec<Vec<u32>> {
    let strangers = [0x20, 0x309B, 0x5F, 0x3000, 0x2213, 0x3094, 0x30F7, 0, 0xD800, 0x8000_0061, 0xFFFF_FFFF];
    let names = ["abc.jp", "\u{3042}\u{304B}.\u{6771}\u{4EAC}.JP", "\u{FF76}\u{FF9E}-a\u{3002}nara.jp"];
    let mut texts = Vec::new();
    for name in names.map(points) {
        for place in 0..=name.len() {
            let mut text = name.clone();
            text.insert(place, strangers[texts.len() % strangers.len()]);
            texts.push(text);
        }
    }
    texts
}

/// Texts that end near a limit of length, with a name at their beginning.
fn long() -> Vec<Vec<u32>> {
    let ending = |(filler, length): (u32, usize)| {
        let mut text = points("abc.jp");
        text.resize(length, filler);
        text
    };
    let lengths = [127, 128, 129, 254, 255, 256, 257, 258];
    let longest = points(&("a".repeat(63) + ".HIROSHIMA.jp"));
    (0..).zip(lengths).map(ending).chain([longest]).collect()
}

/// Beginnings of random names as typed, and damaged names.
fn random() -> Vec<Vec<u32>> {
    let mut random = Random::seeded(SEED ^ 0x40BE);
    let maker = NameMaker::default();
    let mut texts = Vec::new();
    while texts.len() < 140 {
        let typed = maker.typed_name(&mut random);
        // Long labels have had their turn.
        if typed.len() < 30 {
            texts.push(maker.edit(&typed, &mut random));
            texts.push(typed[..random.between(1, typed.len())].to_vec());
        }
    }
    texts
}
