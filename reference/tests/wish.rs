//! First and second wish (K1), held against the check of each text alone, the
//! normal form's labels and the grammar.

use reference::cases::random::NameMaker;
use reference::cases::wish::{CALLS, LABELS, SEPARATORS};
use reference::cases::{all_lines, numbers_of, well_formed_lines};
use reference::chars::PERIOD;
use reference::edition::Edition;
use reference::live::Live;
use reference::normal::{labels, normal_form, placed_normal_form};
use reference::random::Random;
use reference::wish::{part, wished, Wished};
use reference::{calls, grammar, points, probe};
use std::collections::BTreeSet;

/// The two texts of a case.
fn pair(line: &str) -> (Vec<u32>, Vec<u32>) {
    let at: usize = line.split(' ').nth(1).and_then(|word| word.parse().ok()).expect("a length");
    let mut first = numbers_of(line);
    let second = first.split_off(at.min(first.len()));
    (first, second)
}

/// The pairs of the case file, random names, and each text of the case file
/// beside the one after it.
fn pairs() -> Vec<(Vec<u32>, Vec<u32>)> {
    let lines = well_formed_lines();
    let asked = lines.iter().filter(|line| line.starts_with(CALLS)).map(|line| pair(line));
    let texts: Vec<Vec<u32>> =
        lines.iter().filter(|line| line.starts_with("C 256")).map(|line| numbers_of(line)).collect();
    let neighbours = texts.windows(2).map(|two| (two[0].clone(), two[1].clone()));
    let (maker, mut random) = (NameMaker::default(), Random::seeded(1));
    let typed: Vec<(Vec<u32>, Vec<u32>)> = (0..5_000)
        .map(|_| {
            let name = maker.typed_name(&mut random);
            let other = maker.edit(&name, &mut random);
            (other, name)
        })
        .collect();
    asked.chain(neighbours).chain(typed).collect()
}

/// Number and place of a check, by the live check.
fn typed(text: &[u32]) -> (u8, usize) {
    let mut live = Live::fresh(4);
    text.iter().for_each(|code| live.step(*code));
    let shown = live.look();
    (shown.number, shown.place)
}

#[test]
fn what_document_02_says_of_it() {
    let said = |first: &str, second: &str| {
        let (first, second) = (points(first), points(second));
        let Wished { won, checks, part } = wished(&first, &second);
        let part: String = part.iter().filter_map(|code| char::from_u32(*code)).collect();
        (won, checks, part)
    };
    let is = |won: u8, checks: [(u8, usize); 2], part: &str| (won, checks, part.to_string());
    assert_eq!(said("ABC.JP", "\u{3042}.jp"), is(1, [(0, 0), (0, 0)], "ABC"));
    assert_eq!(said("ABC.JP", "ab.jp"), is(1, [(0, 0), (8, 0)], "ABC"));
    assert_eq!(said("\u{FF21}BC\u{FF0E}JP", ""), is(1, [(0, 0), (2, 0)], "\u{FF21}BC"));
    assert_eq!(said("ab.jp", "\u{FF76}\u{FF9E}\u{FF61}jp"), is(2, [(8, 0), (0, 0)], "\u{FF76}\u{FF9E}"));
    assert_eq!(said("\u{3046}\u{309B}.jp", "abc.jp."), is(0, [(4, 1), (6, 2)], ""));
    assert_eq!(said("ab.jp", ""), is(0, [(8, 0), (2, 0)], ""));
    assert_eq!(said("", "\u{3042}\u{3002}tokyo.jp"), is(2, [(2, 0), (0, 0)], "\u{3042}"));
    assert_eq!(said("", "abc"), is(0, [(2, 0), (5, 0)], ""));
    assert_eq!(said("", ""), is(0, [(2, 0), (2, 0)], ""));
    assert_eq!(said(&"a".repeat(257), "abc.jp"), is(2, [(3, 256), (0, 0)], "abc"));
    assert_eq!(said("\u{3003}.jp", "xn--l8j.jp"), is(0, [(4, 0), (17, 0)], ""));
}

/// Both checks are told as of each text alone, whatever stands beside it.
#[test]
fn each_check_is_that_of_its_text_alone() {
    for (first, second) in pairs() {
        let Wished { won, checks, .. } = wished(&first, &second);
        assert_eq!(checks, [typed(&first), typed(&second)]);
        let mut form = [7; 256];
        let answer = calls::check(&second, 4, &mut form);
        assert_eq!(checks[1], (answer.number, answer.place));
        let derives = |text: &[u32]| {
            let pretends = typed(text).0 == 17;
            (1..=256).contains(&text.len())
                && grammar::class_of(&normal_form(text), Edition::Today).is_some()
                && !pretends
        };
        let should = match (derives(&first), derives(&second)) {
            (true, _) => 1,
            (false, true) => 2,
            (false, false) => 0,
        };
        assert_eq!(won, should, "{first:x?} {second:x?}");
        let turned = wished(&second, &first);
        assert_eq!(turned.checks, [checks[1], checks[0]]);
        assert_eq!([won, turned.won].contains(&0), [won, turned.won] == [0, 0]);
    }
}

/// The part, normalised, is the leftmost label of the winner's normal form, and it
/// ends where the first period of the normal form began.
#[test]
fn the_part_is_the_leftmost_label_as_it_was_typed() {
    for (first, second) in pairs() {
        let Wished { won, part, .. } = wished(&first, &second);
        let text = if won == 2 { &second } else { &first };
        assert!(part.as_ptr() == text.as_ptr(), "it begins where its text begins");
        if won == 0 {
            assert!(part.is_empty());
            continue;
        }
        assert!(!part.is_empty());
        assert_eq!(normal_form(part), labels(&normal_form(text))[0], "{text:x?}");
        let placed = placed_normal_form(text);
        let end = placed.iter().find(|c| c.code == PERIOD).expect("an accepted name has a period").place;
        assert_eq!(part, &text[..end]);
    }
}

/// Every code point to 2FFFF, and some past it: four of them end a part.
#[test]
fn four_code_points_are_separators() {
    let ends = |code: u32| part(&[0x61, code, 0x62]).len() == 1;
    let found: Vec<u32> =
        (0..0x30000).chain([0x11_002E, 0x8000_3002, u32::MAX]).filter(|code| ends(*code)).collect();
    assert_eq!(found, [0x2E, 0x3002, 0xFF0E, 0xFF61]);
}

/// The case file has accepted, refused and empty texts beside each other in all
/// nine ways, every number beside every other, and every separator after every
/// label that wins as the first wish and as the second; by each call.
#[test]
fn the_cases_have_every_pair_and_every_separator() {
    let lines = all_lines();
    for call in CALLS {
        let of_call: Vec<(Vec<u32>, Vec<u32>)> = lines
            .iter()
            .filter(|line| line.starts_with(call) && probe::answer(line.as_bytes()) != "?")
            .map(|line| pair(line))
            .collect();
        let kind = |(number, _): (u8, usize)| match number {
            0 => 'a',
            2 => 'e',
            _ => 'r',
        };
        let (mut kinds, mut numbers, mut ends) = (BTreeSet::new(), BTreeSet::new(), BTreeSet::new());
        for (first, second) in &of_call {
            let Wished { won, checks, part } = wished(first, second);
            kinds.insert(checks.map(kind));
            numbers.insert(checks.map(|(number, _)| number));
            let text = if won == 2 { second } else { first };
            if won != 0 {
                ends.insert((won, part.to_vec(), text[part.len()]));
            }
        }
        assert_eq!(kinds.len(), 9, "{call}");
        let all = [0, 2, 3, 4, 5, 6, 7, 8, 9, 10, 11, 12, 17];
        let every = all.iter().flat_map(|one| all.map(|other| [*one, other]));
        assert_eq!(numbers, every.collect(), "{call}");
        for label in LABELS {
            for separator in SEPARATORS {
                for won in [1, 2] {
                    let end = (won, points(label), points(separator)[0]);
                    assert!(ends.contains(&end), "{call}: {end:x?}");
                }
            }
        }
    }
}
