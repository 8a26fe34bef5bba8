//! Where each label stands (document 02, K7). The places are told here by another
//! route: the positions of the periods in the normal form.

use reference::answer::{Answer, Class, LabelPlaces};
use reference::cases::numbers_of;
use reference::cases::places::CALLS;
use reference::cases::random::NameMaker;
use reference::coder::encode_by_insertion;
use reference::edition::{Edition, EDITIONS};
use reference::live::Live;
use reference::normal::{labels, normal_form, replaced};
use reference::random::Random;
use reference::{calls, cases, name, points, probe};
use std::collections::BTreeSet;

const PERIOD: u32 = 0x2E;

/// The calls of the cases whose numbers are a text.
const ON_TEXTS: &str = "NCcAaLlJjMRPHhGgVv";

/// The texts of the cases, and random names as typed, each with a damaged copy.
fn texts() -> Vec<Vec<u32>> {
    let lines = cases::well_formed_lines();
    let chosen = lines.iter().filter(|line| ON_TEXTS.contains(&line[..1]));
    let mut texts: Vec<Vec<u32>> = chosen.map(|line| numbers_of(line)).collect();
    let mut random = Random::seeded(7);
    let maker = NameMaker::default();
    for _ in 0..20_000 {
        let typed = maker.typed_name(&mut random);
        texts.push(maker.edit(&typed, &mut random));
        texts.push(typed);
    }
    texts
}

/// What the check answers by the rules of an edition, given room.
fn checked_in(text: &[u32], edition: Edition) -> Answer {
    calls::check(text, edition.number(), &mut [0; 256])
}

/// The same by today's.
fn checked(text: &[u32]) -> Answer {
    checked_in(text, Edition::Today)
}

/// The texts that are accepted in some edition, that edition, and what the check
/// answers.
fn accepted() -> Vec<(Vec<u32>, Edition, Answer)> {
    let texts = texts();
    let asked = texts.iter().flat_map(|text| EDITIONS.map(|edition| (text, edition)));
    let answered = asked.map(|(text, edition)| (text.clone(), edition, checked_in(text, edition)));
    let accepted: Vec<_> = answered.filter(|(_, _, answer)| answer.number == 0).collect();
    let early = accepted.iter().filter(|(text, ..)| text.contains(&0x3003)).count();
    assert!(accepted.len() > 80_000 && early > 300, "{} accepted, {early} with 3003", accepted.len());
    accepted
}

/// Start and length of the stretches between the periods of a text: each begins at
/// the front or after a period, and ends before the next period or at the end.
fn between_periods(text: &[u32]) -> Vec<(usize, usize)> {
    let periods: Vec<usize> = (0..text.len()).filter(|at| text[*at] == PERIOD).collect();
    let starts = [0].into_iter().chain(periods.iter().map(|at| at + 1));
    let ends = periods.iter().copied().chain([text.len()]);
    starts.zip(ends).map(|(start, end)| (start, end - start)).collect()
}

/// Start and length of the labels that are counted.
fn counted(places: &LabelPlaces) -> Vec<(usize, usize)> {
    places.starts.into_iter().zip(places.lengths).take(places.count).collect()
}

/// The pieces that the starts and lengths cut out of a text.
fn pieces(text: &[u32], places: &LabelPlaces) -> Vec<Vec<u32>> {
    counted(places).into_iter().map(|(start, length)| text[start..start + length].to_vec()).collect()
}

/// The same places with what comes after the count set to 0.
fn without_the_rest(places: &LabelPlaces) -> LabelPlaces {
    let mut kept = *places;
    kept.starts[places.count..].fill(0);
    kept.lengths[places.count..].fill(0);
    kept
}

#[test]
fn labels_stand_between_the_periods_of_the_normal_form() {
    for (text, _, answer) in accepted() {
        let found = between_periods(&normal_form(&text));
        assert_eq!(answer.labels.count, found.len(), "{text:x?}");
        assert_eq!(counted(&answer.labels), found, "{text:x?}");
        assert_eq!(without_the_rest(&answer.labels), answer.labels, "{text:x?}");
        let (start, length) = found[found.len() - 1];
        assert_eq!(start + length, answer.length, "{text:x?}");
    }
}

/// The pieces are the labels. Joined by periods they give back the normal form.
#[test]
fn labels_that_are_cut_out_and_joined_give_back_the_normal_form() {
    for (text, edition, answer) in accepted() {
        let normal = normal_form(&text);
        let pieces = pieces(&normal, &answer.labels);
        assert_eq!(pieces.join(&PERIOD), normal, "{text:x?}");
        assert_eq!(pieces, labels(&normal), "{text:x?}");
        assert_eq!(pieces.last(), Some(&points("jp")), "{text:x?}");
        if pieces.len() == 3 {
            assert!(name::is_prefecture_label(&pieces[1], edition), "{text:x?}");
        }
    }
}

#[test]
fn general_use_names_have_two_labels_and_prefecture_names_three() {
    for (text, _, answer) in accepted() {
        let count = match answer.class {
            Some(Class::GeneralUse) => 2,
            Some(Class::Prefecture) => 3,
            None => 0,
        };
        assert_eq!(answer.labels.count, count, "{text:x?}");
    }
}

/// The pieces, each encoded where it is Japanese, are the labels of the whole
/// ASCII form.
#[test]
fn labels_that_are_cut_out_are_those_of_the_ascii_form() {
    let form = |piece: &Vec<u32>| match piece.iter().any(|code| *code >= 0x80) {
        true => format!("xn--{}", encode_by_insertion(piece)),
        false => piece.iter().filter_map(|code| char::from_u32(*code)).collect(),
    };
    for (text, edition, answer) in accepted() {
        let pieces = pieces(&normal_form(&text), &answer.labels);
        let formed = name::ascii_form(&text, edition).unwrap().form;
        let labels: Vec<&str> = formed.split('.').collect();
        assert_eq!(pieces.iter().map(form).collect::<Vec<_>>(), labels, "{text:x?}");
    }
}

/// The places of a text as typed are those of its normal form.
#[test]
fn normalising_first_changes_no_place() {
    let mut shorter = 0;
    for (text, edition, answer) in accepted() {
        let normal = normal_form(&text);
        assert_eq!(checked_in(&normal, edition).labels, answer.labels, "{text:x?}");
        shorter += usize::from(normal.len() < text.len());
    }
    assert!(shorter > 3_000, "{shorter} texts are shorter in normal form");
}

/// Whatever refuses a text, and with a short buffer whatever the text is.
#[test]
fn refused_texts_have_no_places() {
    let none = LabelPlaces::default();
    let mut seen = BTreeSet::new();
    for text in texts() {
        let short = calls::check(&text, Edition::Today.number(), &mut [0; 255]);
        assert_eq!((short.number, short.labels), (1, none), "{text:x?}");
        let answer = checked(&text);
        if answer.number != 0 {
            assert_eq!(answer.labels, none, "{text:x?}");
            seen.insert((answer.number, labels(&normal_form(&text)).len()));
        }
    }
    for number in [3, 4, 6, 7, 8, 9, 17, 10, 11] {
        assert!(seen.contains(&(number, 2)) && seen.contains(&(number, 3)), "{number}");
    }
    for one in [(2, 1), (5, 1), (5, 4), (12, 3)] {
        assert!(seen.contains(&one), "{one:?}");
    }
}

/// After every code point the live check shows the places that the check answers,
/// given room. Past 256 it shows none, and at a host none at any time.
#[test]
fn live_check_shows_the_places_of_every_beginning() {
    let none = LabelPlaces::default();
    let mut random = Random::seeded(77);
    let maker = NameMaker::default();
    let mut names = 0;
    for round in 0..600 {
        let mut text = maker.typed_name(&mut random);
        while round % 60 == 0 && text.len() < 270 {
            text.extend(maker.typed_name(&mut random));
        }
        text.extend(points([".", ".jp", "x", "\u{309B}", "-a"][round % 5]));
        let mut live = Live::fresh(Edition::Today.number());
        for end in 0..=text.len() {
            let (shown, answer) = (live.look(), checked(&text[..end]));
            assert_eq!((shown.number, shown.class), (answer.number, answer.class), "{text:x?}");
            assert_eq!(shown.labels, answer.labels, "{text:x?} {end}");
            assert!(end <= 256 || shown.labels == none, "{text:x?}");
            assert_eq!(live.look_at_host().labels, none, "{text:x?}");
            names += usize::from(shown.labels != none);
            text.get(end).into_iter().for_each(|code| live.step(*code));
        }
    }
    assert!(names > 400, "{names} names");
}

/// The other calls tell no places.
#[test]
fn the_check_alone_has_places_in_its_answer() {
    for text in ["abc.jp", "\u{3042}.tokyo.jp"].map(points) {
        let form = calls::ascii_form(&text, 4, &mut [0; 192]).labels;
        let host = calls::host_form(&text, &mut [0; 255]).labels;
        let normal = calls::normal_form(&text, &mut [0; 256]).labels;
        assert!([form, host, normal].into_iter().all(|labels| labels == LabelPlaces::default()));
        assert_ne!(checked(&text).labels, LabelPlaces::default());
    }
}

/// Names and the word that tells their places.
#[test]
fn names_that_k7_decides() {
    for (text, word) in [
        ("ABC.JP", "2,0,3,4,2,0,0"),
        ("\u{3042}\u{3002}tokyo.jp", "3,0,1,2,5,8,2"),
        ("\u{FF76}\u{FF9E}.jp", "2,0,1,2,2,0,0"),
        ("\u{FF76}\u{FF9E}\u{FF61}\u{6771}\u{4EAC}\u{FF0E}JP", "3,0,1,2,2,5,2"),
        ("a\u{FF8A}\u{FF9F}b-\u{304B}\u{309B}.kagoshima.jp", "3,0,5,6,9,16,2"),
        ("\u{FF21}\u{FF22}\u{FF23}\u{FF0E}\u{FF2D}\u{FF29}\u{FF25}\u{3002}\u{FF2A}\u{FF30}", "3,0,3,4,3,8,2"),
        ("ab.jp", "-"),
        ("abc.tokio.jp", "-"),
        ("abc.jp.", "-"),
        ("abc", "-"),
        ("", "-"),
    ] {
        assert_eq!(checked(&points(text)).labels.word(), word, "{text}");
    }
    let longest = [("a".repeat(63), 63), ("\u{FF76}\u{FF9E}".repeat(15), 15)];
    for (label, length) in longest {
        let (second, third) = (length + 1, length + 11);
        let general = checked(&points(&format!("{label}.jp"))).labels;
        assert_eq!(general.word(), format!("2,0,{length},{second},2,0,0"));
        let prefecture = checked(&points(&format!("{label}.hiroshima.jp"))).labels;
        assert_eq!(prefecture.word(), format!("3,0,{length},{second},9,{third},2"));
    }
}

/// Every number by itself is told, at its own place in the word.
#[test]
fn the_word_has_each_number_in_its_place() {
    assert_eq!(LabelPlaces::default().word(), "-");
    let all = LabelPlaces { count: 1, starts: [2, 4, 6], lengths: [3, 5, 77] };
    assert_eq!(all.word(), "1,2,3,4,5,6,77");
    let one = LabelPlaces { lengths: [0, 0, 9], ..LabelPlaces::default() };
    assert_eq!(one.word(), "0,0,0,0,0,0,9");
}

/// The numbers of a word.
fn read_word(word: &str) -> Option<Vec<usize>> {
    (word != "-").then(|| word.split(',').map(|number| number.parse().unwrap()).collect())
}

/// Where a text, as typed, goes on after each of its separators.
fn typed_starts(text: &[u32]) -> Vec<usize> {
    (0..text.len()).filter(|at| replaced(text[*at]) == PERIOD).map(|at| at + 1).collect()
}

/// Of every answer in the case file that tells places, the written entries are cut
/// by the word alone. What is refused has the word `-`, and what is accepted has
/// not.
#[test]
fn the_answers_of_the_cases_are_cut_by_their_words() {
    let lines = cases::well_formed_lines();
    for line in lines.iter().filter(|line| CALLS.iter().any(|(call, _)| line.starts_with(*call))) {
        let answer = probe::answer(line.as_bytes());
        let words: Vec<&str> = answer.split(' ').collect();
        let numbers = read_word(words[3]);
        assert_eq!(numbers.is_some(), words[0] == "0", "{line}");
        let Some(numbers) = numbers else { continue };
        assert_eq!(numbers.len(), 7, "{line}");
        let (count, rest) = (numbers[0], &numbers[1..]);
        assert_eq!(words[4].parse(), Ok(words.len() - 5), "{line}");
        let cut = |at: usize| words[5 + rest[2 * at]..][..rest[2 * at + 1]].join(" ");
        assert_eq!((0..count).map(cut).collect::<Vec<_>>().join(" 2e "), words[5..].join(" "), "{line}");
        assert!(rest[2 * count..].iter().all(|number| *number == 0), "{line}");
    }
}

/// The case file pins the places: with each call that tells them, names with two
/// labels and with three, refused texts with two and with three, and names whose
/// labels start elsewhere in the text than in the normal form.
#[test]
fn the_cases_pin_the_places() {
    let lines = cases::well_formed_lines();
    for (call, _lent) in CALLS {
        let mut counts = [0; 4];
        let mut refused = BTreeSet::new();
        let (mut moved, mut moved_twice) = (0, 0);
        for line in lines.iter().filter(|line| line.starts_with(call)) {
            let (answer, text) = (probe::answer(line.as_bytes()), numbers_of(line));
            let words: Vec<&str> = answer.split(' ').collect();
            let numbers = read_word(words[3]);
            counts[numbers.as_ref().map_or(0, |numbers| numbers[0])] += 1;
            match numbers {
                None => drop(refused.insert((words[0].to_string(), labels(&normal_form(&text)).len()))),
                Some(numbers) => {
                    let typed = typed_starts(&text);
                    moved += usize::from(typed[0] != numbers[3]);
                    moved_twice += usize::from(numbers[0] == 3 && typed[1] != numbers[5]);
                }
            }
        }
        assert_eq!(counts[1], 0);
        assert!(counts[0] > 200 && counts[2] >= 100 && counts[3] > 60, "{call}: {counts:?}");
        assert!(moved > 50 && moved_twice > 25, "{call}: {moved} moved, {moved_twice} twice");
        for number in ["3", "4", "6", "7", "8", "9", "17", "10", "11"] {
            for count in [2, 3] {
                assert!(refused.contains(&(number.to_string(), count)), "{call}: {number} with {count}");
            }
        }
        for (number, count) in [("2", 1), ("5", 1), ("5", 4), ("12", 3)] {
            assert!(refused.contains(&(number.to_string(), count)), "{call}: {number} with {count}");
        }
        let short = |count: usize| refused.contains(&("1".to_string(), count));
        assert_eq!(short(2) && short(3), "Cc".contains(call), "{call}");
    }
}

/// Leftmost labels of every length come up, and every prefecture label after one
/// that shrinks.
#[test]
fn labels_of_every_length_and_every_prefecture_label_come_up() {
    let lines = cases::well_formed_lines();
    let mut lengths = BTreeSet::new();
    let mut middle = BTreeSet::new();
    for line in lines.iter().filter(|line| CALLS.iter().any(|(call, _)| line.starts_with(*call))) {
        let text = numbers_of(line);
        let Ok(accepted) = name::check(&text, Edition::Today) else { continue };
        let leftmost = &accepted.labels[0];
        lengths.insert((
            leftmost.len(),
            name::is_japanese_label(leftmost, Edition::Today),
            accepted.labels.len(),
        ));
        if accepted.labels.len() == 3 && typed_starts(&text)[0] > leftmost.len() + 1 {
            middle.insert(accepted.labels[1].clone());
        }
    }
    for count in [2, 3] {
        (1..=15).for_each(|length| assert!(lengths.contains(&(length, true, count)), "{length}"));
        (3..=63).for_each(|length| assert!(lengths.contains(&(length, false, count)), "{length}"));
    }
    assert_eq!(lengths.len(), 2 * (15 + 61));
    assert_eq!(middle.len(), 94);
}

/// Texts that were a name before more was typed come up with each call, past 256
/// too. None of them is a name again, so none has places.
#[test]
fn names_that_are_typed_on_come_up() {
    let lines = cases::well_formed_lines();
    for (call, _lent) in CALLS {
        let texts = lines.iter().filter(|line| line.starts_with(call)).map(|line| numbers_of(line));
        let was_name =
            |text: &Vec<u32>| (0..text.len()).any(|end| name::check(&text[..end], Edition::Today).is_ok());
        let typed_on: Vec<Vec<u32>> = texts.filter(was_name).collect();
        assert!(typed_on.iter().all(|text| name::check(text, Edition::Today).is_err()), "{call}");
        let long = typed_on.iter().filter(|text| text.len() > 256).count();
        assert!(typed_on.len() > 15 && long > 1, "{call}: {} typed on, {long} long", typed_on.len());
    }
}
