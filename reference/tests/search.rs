//! Yes or no for the search box (K9), held against what it is to do: look at the
//! length, then read from the left and stop at the first code point that would
//! bring refusal 4.

use reference::cases::random::NameMaker;
use reference::cases::{all_lines, numbers_of, well_formed_lines};
use reference::chars::is_japanese;
use reference::edition::Edition;
use reference::live::Live;
use reference::name::{check, unfit_place, LONGEST_TEXT};
use reference::normal::{compositions, joined, normal_form, replaced};
use reference::random::Random;
use reference::search::{acceptable, Searched};
use reference::{grammar, points, probe};
use std::collections::BTreeSet;

/// The texts of the case file, as names and as the search box asks them.
fn texts() -> Vec<Vec<u32>> {
    let lines = well_formed_lines();
    let by = |line: &&String| ["Z 0", "z 0", "O 12", "C 256"].iter().any(|call| line.starts_with(call));
    lines.iter().filter(by).map(|line| numbers_of(line)).collect()
}

/// The same, and random names, whole and damaged.
fn many_texts() -> Vec<Vec<u32>> {
    let (maker, mut random) = (NameMaker::default(), Random::seeded(9));
    let typed: Vec<Vec<u32>> = (0..10_000).map(|_| maker.typed_name(&mut random)).collect();
    let damaged: Vec<Vec<u32>> = typed.iter().map(|text| maker.edit(text, &mut random)).collect();
    [texts(), typed, damaged].concat()
}

fn is_read(text: &[u32]) -> bool {
    (1..=LONGEST_TEXT).contains(&text.len())
}

fn fit(code: u32) -> bool {
    matches!(code, 0x2D | 0x2E | 0x30..=0x39 | 0x61..=0x7A) || is_japanese(code, Edition::Today)
}

#[test]
fn what_document_02_says_of_it() {
    let said = |text: &str| {
        let Searched { yes, read } = acceptable(&points(text));
        (yes, read)
    };
    assert_eq!(said(""), (false, 0));
    assert_eq!(said(&"a".repeat(257)), (false, 0));
    assert_eq!(said(&format!("!{}", "a".repeat(256))), (false, 0));
    assert_eq!(said(&format!("!{}", "a".repeat(255))), (false, 1));
    assert_eq!(said(&"a".repeat(256)), (false, 256));
    assert_eq!(said("\u{3046}\u{309B}.jp"), (false, 2));
    assert_eq!(said("\u{FF76}\u{FF9E}.jp"), (true, 5));
    assert_eq!(said("\u{FF76}\u{FF9E}\u{FF9E}.jp"), (false, 3));
    assert_eq!(said("ABC.JP"), (true, 6));
    assert_eq!(said("a\u{2212}b.jp"), (true, 6));
    assert_eq!(said("xn--l8j.jp"), (false, 10));
    assert_eq!(said("\u{3003}.jp"), (false, 1));
    assert_eq!(said("abc.\u{6771}\u{4EAC}.jp"), (true, 9));
}

/// Yes is the grammar's, less the names that pretend, and the live check's 0.
#[test]
fn yes_by_the_grammar_and_by_the_live_check() {
    for text in many_texts() {
        let mut live = Live::fresh(4);
        text.iter().for_each(|code| live.step(*code));
        assert_eq!(acceptable(&text).yes, live.look().number == 0, "{text:x?}");
        let pretends = check(&text, Edition::Today).is_err_and(|refusal| refusal.number == 17);
        let derived = is_read(&text) && grammar::class_of(&normal_form(&text), Edition::Today).is_some();
        assert_eq!(acceptable(&text).yes, derived && !pretends, "{text:x?}");
    }
}

/// The stop is the end of the shortest beginning that brings 4.
#[test]
fn the_stop_by_beginnings() {
    for text in many_texts().into_iter().filter(|text| is_read(text) && text.len() <= 60) {
        let brings_4 = |read: &usize| unfit_place(&text[..*read], Edition::Today).is_some();
        let stop = (1..=text.len()).find(brings_4);
        assert_eq!(acceptable(&text).read, stop.unwrap_or(text.len()), "{text:x?}");
    }
}

/// A code point stops the reading where it is unfit and joins nothing, so the
/// one before it is enough: what a mark joins, and what comes of it, is fit.
#[test]
fn the_stop_by_one_code_point_and_the_one_before() {
    for ((base, _mark), whole) in compositions() {
        assert!(fit(*base) && fit(*whole));
    }
    for text in many_texts().into_iter().filter(|text| is_read(text)) {
        let mut last = None;
        let goes_on = |code: &u32| {
            let code = replaced(*code);
            let whole = last.and_then(|last| joined(last, code));
            last = Some(whole.unwrap_or(code));
            whole.is_some() || fit(code)
        };
        let fit_ones = text.iter().copied().take_while(goes_on).count();
        assert_eq!(acceptable(&text).read, (fit_ones + 1).min(text.len()), "{text:x?}");
    }
}

/// What follows a stop plays no part, and past 256 nothing but the length does.
#[test]
fn what_is_not_read_plays_no_part() {
    for text in texts() {
        let answer = acceptable(&text);
        for other in [0x61, 0x21, 0x309B, 0x2E, 0xFFFF_FFFF] {
            let mut changed = text.clone();
            changed[answer.read..].fill(other);
            assert_eq!(acceptable(&changed), answer, "{text:x?}");
        }
        if is_read(&text) && !answer.yes {
            assert_eq!(acceptable(&text[..answer.read]).read, answer.read, "{text:x?}");
        }
    }
}

/// The case file has a stop at every place, yes and no by every call, and every
/// number that the check gives.
#[test]
fn the_cases_stop_at_every_place() {
    let lines = all_lines();
    for call in ["Z 0", "z 0", "O 12"] {
        let asked = |line: &&String| *line == call || line.starts_with(&format!("{call} "));
        let of_call: Vec<&String> =
            lines.iter().filter(asked).filter(|line| probe::answer(line.as_bytes()) != "?").collect();
        let yes = |line: &&&String| probe::answer(line.as_bytes()).starts_with("1 ");
        let accepted = of_call.iter().filter(yes).count();
        assert!(accepted > 80 && of_call.len() - accepted > 300, "{call}: {accepted} of {}", of_call.len());
        let numbers: BTreeSet<u8> = of_call
            .iter()
            .map(|line| check(&numbers_of(line), Edition::Today).map_or_else(|refusal| refusal.number, |_| 0))
            .collect();
        assert_eq!(numbers, [0, 2, 3, 4, 5, 6, 7, 8, 9, 10, 11, 12, 17].into(), "{call}");
        let stop = |line: &&String| {
            let read = acceptable(&numbers_of(line)).read;
            check(&numbers_of(line), Edition::Today).is_err_and(|refusal| refusal.number == 4).then_some(read)
        };
        let stops: BTreeSet<usize> = of_call.iter().filter_map(stop).collect();
        assert_eq!(stops, (1..=LONGEST_TEXT).collect(), "{call}");
    }
}
