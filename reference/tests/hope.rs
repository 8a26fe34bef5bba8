//! Whether a text may yet become a name, held against the check: what is said
//! is searched for with the numbered rules, by typing on.

use reference::cases::random::NameMaker;
use reference::chars::is_japanese;
use reference::edition::{Edition, EDITIONS};
use reference::hope;
use reference::name::{check, japanese_prefectures, latin_prefectures};
use reference::normal::{compositions, normal_form};
use reference::points;
use reference::random::Random;
use std::collections::BTreeSet;

/// One code point of every kind that may be typed.
const KINDS: &str = "aZ7-.\u{3042}\u{304B}\u{30CF}\u{4E9C}\u{3005}\u{3006}\u{30FC}\u{30FB}\u{309B}\u{309C}\
    \u{FF41}\u{FF0D}\u{2212}\u{FF0E}\u{3002}\u{FF61}\u{FF76}\u{FF65}\u{FF70}\u{FF9E}\u{FF9F}\
    \u{3003}\u{3099} ";

/// The kinds that labels are made of.
const LABEL_KINDS: &str = "a-\u{304B}\u{30FC}\u{30FB}\u{309B}\u{FF8A}\u{FF9F}";

/// Whether a text may become a name by today's rules.
fn may_become(text: &[u32]) -> bool {
    hope::may_become(text, Edition::Today)
}

fn accepted(text: &[u32]) -> bool {
    check(text, Edition::Today).is_ok()
}

fn with(text: &[u32], more: &[u32]) -> Vec<u32> {
    [text, more].concat()
}

/// All that may follow a leftmost label.
fn endings() -> Vec<Vec<u32>> {
    let prefectures = latin_prefectures().into_iter().chain(japanese_prefectures());
    let with_prefecture = prefectures.map(|label| format!(".{label}.jp"));
    with_prefecture.chain([".jp".to_string()]).map(|ending| points(&ending)).collect()
}

/// Every text of at most so many of the characters.
fn all_texts(characters: &[u32], longest: usize) -> Vec<Vec<u32>> {
    let mut texts = vec![vec![]];
    let mut from = 0;
    for _ in 0..longest {
        let last = texts[from..].to_vec();
        from = texts.len();
        texts.extend(last.iter().flat_map(|text| characters.iter().map(|code| with(text, &[*code]))));
    }
    texts
}

/// Whether a name is found by typing at most so many of the characters and
/// then an ending of a name.
fn found(text: &[u32], characters: &[u32], most: usize) -> bool {
    let ended = [".jp", ".nara.jp"].iter().any(|ending| accepted(&with(text, &points(ending))));
    let go_on = |code: &u32| found(&with(text, &[*code]), characters, most - 1);
    ended || most > 0 && characters.iter().any(go_on)
}

/// Names as typed, damaged ones, and texts of any kinds.
fn random_texts(count: usize, seed: u64) -> Vec<Vec<u32>> {
    let mut random = Random::seeded(seed);
    let maker = NameMaker::default();
    let kinds = points(KINDS);
    let mut texts = Vec::new();
    for _ in 0..count {
        let typed = maker.typed_name(&mut random);
        texts.push(maker.edit(&typed, &mut random));
        texts.push(typed);
        texts.push((0..random.between(0, 9)).map(|_| *random.pick(&kinds)).collect());
    }
    texts
}

#[test]
fn every_beginning_of_a_name_may_become_one() {
    let texts = random_texts(5_000, 11);
    for edition in EDITIONS {
        let mut many = 0;
        for name in texts.iter().filter(|text| check(text, edition).is_ok()) {
            let may = |end: usize| hope::may_become(&name[..end], edition);
            (0..=name.len()).for_each(|end| assert!(may(end), "{edition:?} {name:x?} {end}"));
            many += 1;
        }
        assert!(many > 2_000, "{edition:?}: {many}");
    }
}

#[test]
fn what_may_not_never_will() {
    let kinds = points(KINDS);
    let mut lost = 0;
    let texts = random_texts(2_000, 12);
    for (text, edition) in texts.iter().flat_map(|text| EDITIONS.map(|edition| (text, edition))) {
        let hopes: Vec<bool> = (0..=text.len()).map(|end| hope::may_become(&text[..end], edition)).collect();
        assert!(hopes.windows(2).all(|pair| pair[0] || !pair[1]), "{text:x?}");
        if !hopes[text.len()] {
            let goes_on = |code: &u32| hope::may_become(&with(text, &[*code]), edition);
            assert!(!kinds.iter().any(goes_on), "{text:x?}");
            lost += 1;
        }
    }
    assert!(lost > 8_000);
}

/// Held with the one before of every text, this would settle the answer: no name
/// has more than 76 code points, so one that is always promised has to come. It
/// is tried on samples.
#[test]
fn what_may_is_a_name_or_may_go_on() {
    let mut next: BTreeSet<u32> = points(KINDS).into_iter().collect();
    next.extend(endings().concat());
    let mut kept = 0;
    for text in random_texts(500, 13) {
        for end in 0..=text.len() {
            let begun = &text[..end];
            let goes_on = || next.iter().any(|code| may_become(&with(begun, &[*code])));
            assert_eq!(may_become(begun), accepted(begun) || goes_on(), "{begun:x?}");
            kept += usize::from(may_become(begun));
        }
    }
    assert!(kept > 5_000);
    let longest = points(&("a".repeat(63) + ".hiroshima.jp"));
    assert!(longest.len() == 76 && accepted(&longest));
    assert!(!next.iter().any(|code| may_become(&with(&longest, &[*code]))));
}

#[test]
fn short_labels_may_where_two_characters_and_an_ending_make_a_name() {
    let kinds = points(LABEL_KINDS);
    for text in all_texts(&kinds, 5) {
        assert_eq!(may_become(&text), found(&text, &kinds, 2), "{text:x?}");
    }
    let all: Vec<u32> = points(KINDS).into_iter().filter(|code| normal_form(&[*code]) != [0x2E]).collect();
    for text in all_texts(&all, 2) {
        assert_eq!(may_become(&text), found(&text, &all, 2), "{text:x?}");
    }
}

#[test]
fn long_labels_may_where_two_characters_and_an_ending_make_a_name() {
    let kinds = points(LABEL_KINDS);
    let ends = all_texts(&kinds, 2);
    let labels = [
        ("", "a"),
        ("", "\u{3042}"),
        ("", "\u{30FB}"),
        ("", "\u{30FC}"),
        ("\u{4E9C}", "a"),
        ("ab--", "a"),
        ("ab--", "\u{30FB}"),
        ("\u{3042}b--", "a"),
        ("abc--", "a"),
    ];
    for (front, unit) in labels {
        for length in (11..=16).chain(59..=64) {
            let more = length - front.chars().count();
            let label = points(&format!("{front}{}", unit.repeat(more)));
            for end in &ends {
                let text = with(&label, end);
                assert_eq!(may_become(&text), found(&text, &kinds, 2), "{text:x?}");
            }
        }
    }
}

/// A label with the hyphen pair, of every length: as long as it is ASCII it may
/// become a name only while a Japanese character finds room among fifteen, and
/// it is never whole.
#[test]
fn labels_that_pretend_may_only_become_japanese() {
    for length in 4..=70 {
        let label = points(&format!("ab--{}", "c".repeat(length - 4)));
        assert_eq!(may_become(&label), length <= 14, "{length}");
        assert_eq!(found(&label, &points("a\u{3042}"), 1), length <= 14, "{length}");
        let hyphened = with(&label, &[0xFF0D]);
        assert_eq!(may_become(&hyphened), length <= 13, "{length}");
        for next in [".", ".j", "\u{3002}jp", "\u{FF61}nara.jp"] {
            assert!(!may_become(&with(&label, &points(next))), "{length}");
        }
        let japanese = with(&label, &[0x3042]);
        assert_eq!(may_become(&japanese), length <= 14, "{length}");
        assert_eq!(may_become(&with(&japanese, &[0x2E])), length <= 14, "{length}");
    }
}

/// After a period, the check is tried with every end of every ending.
#[test]
fn second_and_third_labels_may_where_the_end_of_an_ending_makes_a_name() {
    let endings = endings();
    let ends: BTreeSet<&[u32]> =
        endings.iter().flat_map(|ending| (0..=ending.len()).map(|from| &ending[from..])).collect();
    let agree = |text: &[u32]| {
        let by_check = ends.iter().any(|end| accepted(&with(text, end)));
        assert_eq!(may_become(text), by_check, "{text:x?}");
    };
    for rest in all_texts(&points("jptoky.-\u{6771}\u{4EAC}"), 3) {
        agree(&with(&points("abc."), &rest));
        agree(&with(&points("ab--\u{3042}."), &rest));
        agree(&with(&points("ab--c."), &rest));
    }
    for ending in &endings {
        for end in 1..=ending.len() {
            let begun = with(&[0x3042], &ending[..end]);
            assert!(may_become(&begun));
            "aj.".chars().for_each(|next| agree(&with(&begun, &[next.into()])));
        }
    }
}

/// Why marks need not be looked at: they change no kind, and no ending has a
/// base.
#[test]
fn a_base_and_what_a_mark_makes_of_it_are_of_one_kind() {
    let plain = |code: &u32| is_japanese(*code, Edition::Today) && ![0x3006, 0x30FC, 0x30FB].contains(code);
    let in_endings: BTreeSet<u32> = endings().concat().into_iter().collect();
    for ((base, mark), whole) in compositions() {
        assert!(plain(base) && plain(whole) && !is_japanese(*mark, Edition::Today));
        assert!(!in_endings.contains(base) && !in_endings.contains(whole));
    }
}

fn long(unit: &str, times: usize, end: &str) -> String {
    unit.repeat(times) + end
}

#[test]
fn texts_that_may_become_a_name() {
    let mut texts: Vec<String> =
        "a ab abc abc. abc.j abc.jp ABC.J abc.tok abc.tokyo abc.tokyo. abc.tokyo.j abc.tokyo.jp a- a-- \
         ab-- ab--c ab--- a---b ab--c- ab-c. a--b. abc--d."
            .split(' ')
            .map(String::from)
            .collect();
    texts.extend([
        String::new(),
        "ab--\u{3042}.".to_string(),
        "\u{3042}b--c.".to_string(),
        "ab--\u{30FB}".to_string(),
        "xn\u{2212}\u{FF0D}l8j".to_string(),
        "ab--cdefghijkl".to_string(),
        "ab--cdefghijkl\u{3042}.".to_string(),
        "\u{30FB}".to_string(),
        "\u{30FB}\u{3006}-".to_string(),
        "\u{FF76}".to_string(),
        "\u{FF76}\u{FF9E}\u{FF61}\u{FF4A}".to_string(),
        "\u{30FC}.\u{5317}\u{6D77}".to_string(),
        long("\u{30FB}", 14, ""),
        long("\u{3042}", 15, ""),
        long("\u{3042}", 13, "-"),
        long("\u{3042}", 14, "\u{FF76}"),
        long("\u{3042}", 14, "\u{FF76}\u{FF9E}"),
        long("\u{FF76}\u{FF9E}", 15, "."),
        long("a", 14, "\u{3042}"),
        long("a", 63, ""),
        long("a", 61, "-"),
        long("a", 62, "a.kagoshima.jp"),
    ]);
    texts.iter().for_each(|text| assert!(may_become(&points(text)), "{text}"));
}

#[test]
fn texts_that_are_refused_for_good() {
    let mut texts: Vec<String> =
        "- -a . ab. a-. abc.c- abc.jpx abc.jp. abc.jp-a abc.toki abc.tok. abc.tokyo.p abc.tokyo.jp. abc.x.jp \
         ab--. ab--c. ab--c.jp xn--l8j.tokyo.jp a---b. ab---c. AB--C. ab--cdefghijklm ab--cdefghijklmn"
            .split(' ')
            .map(String::from)
            .collect();
    texts.extend([
        "a ".to_string(),
        "ab\u{2212}\u{FF0D}c\u{3002}".to_string(),
        "ab--\u{30FB}.".to_string(),
        "ab--cdefghijklm\u{3042}".to_string(),
        "ab--".to_string() + &long("c", 59, ""),
        "\u{3046}\u{309B}".to_string(),
        "\u{309B}".to_string(),
        "\u{304B}\u{309B}\u{309B}".to_string(),
        "\u{30FB}.".to_string(),
        "\u{30FB}\u{30FC}\u{3002}".to_string(),
        "\u{3042}.\u{6771}\u{90FD}".to_string(),
        long("\u{3042}", 16, ""),
        long("\u{3042}", 14, "-"),
        long("\u{3042}", 15, "\u{FF76}"),
        long("\u{30FB}", 15, ""),
        long("\u{FF76}\u{FF9E}", 15, "-"),
        long("a", 64, ""),
        long("a", 62, "-"),
        long("a", 15, "\u{3042}"),
        long("a", 257, ""),
        "abc.jp".to_string() + &long("a", 251, ""),
    ]);
    texts.iter().for_each(|text| assert!(!may_become(&points(text)), "{text}"));
}
