//! Old editions for old names (document 02, K12): what differs between the editions,
//! and that nothing else does.

use reference::answer::{Answer, Class, LabelPlaces, Refusal};
use reference::cases::editions::{requested, sprinkled, STRANGERS};
use reference::cases::hosts::HostMaker;
use reference::cases::random::NameMaker;
use reference::cases::{edition_of, numbers_of, probe_line, probe_line_in};
use reference::edition::{Edition, EDITIONS};
use reference::live::Live;
use reference::name::{self, Accepted, Formed};
use reference::normal::{labels, normal_form};
use reference::random::Random;
use reference::{batch, calls, cases, chars, grammar, hope, host, points, probe};
use std::collections::BTreeSet;

const EARLY_SIGN: u32 = 0x3003;

/// The calls that take an edition, and those of them that judge a name.
const WITH_EDITION: &str = "CcAaJjLlMVvKQRI";
const JUDGING: &str = "CcAaJjLl";

/// What each edition says of a text.
struct Said {
    checked: [Result<Accepted, Refusal>; 4],
    formed: [Result<Formed, Refusal>; 4],
    hopes: [bool; 4],
}

impl Said {
    fn of(text: &[u32]) -> Said {
        Said {
            checked: EDITIONS.map(|edition| name::check(text, edition)),
            formed: EDITIONS.map(|edition| name::ascii_form(text, edition)),
            hopes: EDITIONS.map(|edition| hope::may_become(text, edition)),
        }
    }

    /// Whether two editions, by their numbers, answer a text alike in all.
    fn alike(&self, one: usize, other: usize) -> bool {
        self.judged_alike(one, other) && self.hopes[one - 1] == self.hopes[other - 1]
    }

    fn judged_alike(&self, one: usize, other: usize) -> bool {
        self.checked[one - 1] == self.checked[other - 1] && self.formed[one - 1] == self.formed[other - 1]
    }

    fn number(&self, edition: usize) -> u8 {
        self.checked[edition - 1].as_ref().err().map_or(0, |no| no.number)
    }
}

/// The texts of the cases, random names as typed and damaged, and both with 3003.
fn texts() -> Vec<Vec<u32>> {
    let lines = cases::well_formed_lines();
    let chosen = lines.iter().filter(|line| "NCcAaLlJjMR".contains(&line[..1]));
    let distinct: BTreeSet<Vec<u32>> = chosen.map(|line| numbers_of(line)).collect();
    distinct.into_iter().chain(random_texts(4_000, 12)).collect()
}

fn random_texts(count: usize, seed: u64) -> Vec<Vec<u32>> {
    let mut random = Random::seeded(seed);
    let maker = NameMaker::default();
    let mut texts = Vec::new();
    for _ in 0..count {
        let typed = maker.typed_name(&mut random);
        let damaged = maker.edit(&typed, &mut random);
        texts.push(sprinkled(&typed, &mut random));
        texts.push(sprinkled(&damaged, &mut random));
        texts.extend([typed, damaged]);
    }
    texts
}

fn is_japanese_prefecture(label: &[u32]) -> bool {
    name::japanese_prefectures().iter().any(|one| points(one) == label)
}

/// What the check answers, given room, to any number as an edition.
fn checked(text: &[u32], edition: u32) -> Answer {
    calls::check(text, edition, &mut [0; 256])
}

#[test]
fn editions_have_the_numbers_1_to_4() {
    for number in (0..=70_000).chain(STRANGERS).chain((8..32).map(|bit| (1 << bit) + 1)) {
        let edition = Edition::numbered(number);
        assert_eq!(edition.is_some(), (1..=4).contains(&number), "{number}");
        assert_eq!(edition.map_or(number, Edition::number), number);
        assert_eq!(Edition::numbered_or_today(number), edition.unwrap_or(Edition::Today));
    }
    assert_eq!(EDITIONS.map(Edition::number), [1, 2, 3, 4]);
    assert_eq!(EDITIONS.map(|edition| edition.signs().len()), [11, 10, 10, 10]);
    assert_eq!(EDITIONS.map(|edition| edition.prefectures().len()), [0, 0, 47, 94]);
}

#[test]
fn names_that_k12_decides() {
    for (edition, (text, number, place, class, normal)) in requested() {
        let (text, normal) = (points(&text), points(&normal));
        let mut buffer = [0; 256];
        let answer = calls::check(&text, edition, &mut buffer);
        assert_eq!((answer.number, answer.place), (number, place), "{edition} {text:x?}");
        assert_eq!(
            (Class::letter(answer.class), answer.length),
            (class, normal.len()),
            "{edition} {text:x?}"
        );
        assert_eq!(buffer[..answer.length], normal, "{edition} {text:x?}");
        let formed = calls::ascii_form(&text, edition, &mut [0; 192]);
        assert_eq!((formed.number, formed.place), (number, place), "{edition} {text:x?}");
    }
}

/// The answers that were agreed on for the probe.
#[test]
fn probe_lines_with_an_edition() {
    for (line, answer) in [
        ("C1 256 3003 2e 6a 70", "0 0 G 2,0,1,2,2,0,0 4 3003 2e 6a 70"),
        ("C2 256 3003 2e 6a 70", "4 0 - - 0"),
        ("C0 256 61 62 63 2e 6a 70", "25 0 - - 0"),
        ("C0 255", "1 0 - - 0"),
        ("C5 256", "25 0 - - 0"),
        ("C4294967295 256", "25 0 - - 0"),
        ("C257 256 3003 2e 6a 70", "25 0 - - 0"),
        ("C2 256 61 62 63 2e 74 6f 6b 79 6f 2e 6a 70", "5 0 - - 0"),
        ("A1 192 3003 2e 6a 70", "0 0 G S 10 78 6e 2d 2d 73 36 6a 2e 6a 70"),
        ("A0 191", "1 0 - - 0"),
        ("L7 0 61", "25 0 - - 1 61"),
        ("L0 0", "25 0 - - 0"),
        ("J0 0 ff76 ff9e", "25 0 - - 1 30ac"),
        ("J1 0 3003", "5 0 - - 1 3003"),
        ("M0 0 61", "00 000"),
        ("M1 0 3003 2e 6a", "1111 111"),
        ("M2 0 61 62 63 2e 6e", "111110 000"),
        ("M3 0 61 62 63 2e 6e", "111111 111"),
        ("M3 0 61 62 63 2e 6771", "111110 000"),
        ("M4 0 61 62 63 2e 6771", "111111 111"),
        ("V1 0 3003 2e 61 2e 62", "4 0 5 3003 2e 61 2e 62"),
        ("V9 0 61 2e 61 2e 62", "0 0 5 61 2e 61 2e 62"),
        ("K1 0 3003", "001SSO 3003 0"),
        ("K2 0 3003", "000--O 3003 0"),
        ("K257 0 3003", "000--O 3003 0"),
        ("Q1 0 0 0 0 3 0 5 30fb 3003", "0 0 2 2 1 1S 0 0 8 5 0000 10 11"),
        ("Q2 0 0 0 0 3 0 5 30fb 3003", "10 5 2 1 1 0- 10 5 8 5 0000 10 00"),
        ("Q2 0 0 0 0 3 0 1 6d 69 65", "0 0 3 3 0 1- 0 0 0 0 0000 10 10 10"),
        ("Q3 0 0 0 0 3 0 1 6d 69 65", "0 0 3 3 0 1- 0 0 0 0 0011 10 10 10"),
        ("Q3 0 0 0 0 3 0 1 6771", "0 0 1 1 1 1J 0 0 8 1 0000 11"),
        ("Q0 0 0 0 0 3 0 1 6771", "0 0 1 1 1 1J 0 0 8 1 0001 11"),
        ("R1 256 3003 20", "0 0 2 1 1 3003 20"),
        ("R3 256 3003 20", "0 0 2 1 0 3003 20"),
        ("R0 256", "2 0 0 0 0"),
    ] {
        assert_eq!(probe::answer(line.as_bytes()), answer, "{line}");
    }
}

/// Whether a code point is Japanese, its kind and whether it is ordinary: 3003 alone
/// is otherwise in edition 1, and nothing in 2 and 3.
#[test]
fn editions_differ_in_one_character() {
    for code in (0..0x30000).chain([0x1_3003, 0x8000_3003, u32::MAX]) {
        let kinds = EDITIONS.map(|edition| chars::kind(code, edition));
        let ordinary = EDITIONS.map(|edition| name::is_ordinary(code, edition));
        let held = EDITIONS.map(|edition| name::may_be_in_label(code, edition));
        let japanese = EDITIONS.map(|edition| chars::is_japanese(code, edition));
        let first = usize::from(code == EARLY_SIGN);
        assert!(kinds[first..].iter().all(|kind| *kind == kinds[3]), "{code:x}");
        assert!(ordinary[first..].iter().all(|flag| *flag == ordinary[3]), "{code:x}");
        assert!(held[first..].iter().all(|flag| *flag == held[3]), "{code:x}");
        assert!(japanese[first..].iter().all(|flag| *flag == japanese[3]), "{code:x}");
        if code == EARLY_SIGN {
            assert_eq!((kinds[0], kinds[1]), (Some(chars::Kind::Sign), None));
            assert_eq!((ordinary, held, japanese), ([true, false, false, false], ordinary, ordinary));
        }
    }
}

/// Editions 1 and 2 answer alike where the normal form has no 3003. Where it has,
/// edition 2 says 4, or what comes before it.
#[test]
fn editions_1_and_2_differ_by_3003_alone() {
    let (mut with, mut accepted) = (0, 0);
    for text in texts() {
        let said = Said::of(&text);
        if !normal_form(&text).contains(&EARLY_SIGN) {
            assert!(said.alike(1, 2), "{text:x?}");
            continue;
        }
        assert_eq!(said.number(2), if text.len() > 256 { 3 } else { 4 }, "{text:x?}");
        assert!(!said.hopes[1], "{text:x?}");
        with += 1;
        accepted += usize::from(said.number(1) == 0);
    }
    assert!(with > 5_000 && accepted > 800, "{with} with 3003, {accepted} accepted");
}

/// In edition 1 a text with 3003 is judged as it is with 3005 in its place: both are
/// signs of row 1, beside which a middle dot may stand, and no bases.
#[test]
fn edition_1_judges_3003_as_3005() {
    let first = Edition::Of2003;
    let swapped = |text: &[u32]| -> Vec<u32> {
        text.iter().map(|code| if *code == EARLY_SIGN { 0x3005 } else { *code }).collect()
    };
    for text in texts().into_iter().filter(|text| text.contains(&EARLY_SIGN)) {
        let other = swapped(&text);
        assert_eq!(hope::may_become(&text, first), hope::may_become(&other, first), "{text:x?}");
        match (name::check(&text, first), name::check(&other, first)) {
            (Ok(one), Ok(two)) => {
                assert_eq!((one.class, one.places), (two.class, two.places), "{text:x?}");
                assert_eq!(swapped(&one.normal), two.normal, "{text:x?}");
                let kinds = [&text, &other].map(|text| name::ascii_form(text, first).unwrap().kinds);
                assert_eq!(kinds[0], kinds[1], "{text:x?}");
            }
            (one, two) => assert_eq!(one.err(), two.err(), "{text:x?}"),
        }
    }
}

/// Editions 2 and 3 answer alike where there are not three labels. Where there are,
/// edition 2 says 5, or what comes before it.
#[test]
fn editions_2_and_3_differ_by_three_labels_alone() {
    let (mut three, mut accepted) = (0, 0);
    for text in texts() {
        let said = Said::of(&text);
        let count = labels(&normal_form(&text)).len();
        if count != 3 || (2..=4).contains(&said.number(3)) {
            assert!(said.judged_alike(2, 3), "{text:x?}");
        } else {
            assert_eq!(said.checked[1], Err(Refusal::plain(5)), "{text:x?}");
            three += 1;
            accepted += usize::from(said.number(3) == 0);
        }
        // One label may go on to three.
        assert!(said.hopes[1] <= said.hopes[2] && (count > 1 || said.hopes[1] == said.hopes[2]), "{text:x?}");
    }
    assert!(three > 3_000 && accepted > 1_000, "{three} with three labels, {accepted} accepted");
}

/// Editions 3 and 4 answer alike but for names with a Japanese prefecture label: where
/// 4 accepts one, 3 says 12.
#[test]
fn editions_3_and_4_differ_by_japanese_prefecture_labels_alone() {
    let mut names = 0;
    for text in texts() {
        let said = Said::of(&text);
        let labels = labels(&normal_form(&text));
        let japanese = labels.len() == 3 && is_japanese_prefecture(&labels[1]);
        if japanese && said.number(4) == 0 {
            assert_eq!(said.checked[2], Err(Refusal::plain(12)), "{text:x?}");
            assert_eq!(said.checked[3].as_ref().map(|name| name.class), Ok(Class::Prefecture));
            names += 1;
        } else {
            assert!(said.judged_alike(3, 4), "{text:x?}");
        }
        assert!(said.hopes[2] <= said.hopes[3], "{text:x?}");
        let begins = |label: &Vec<u32>| {
            name::japanese_prefectures().iter().any(|one| points(one).starts_with(label)) && !label.is_empty()
        };
        if said.hopes[2] != said.hopes[3] {
            assert!(labels.get(1).is_some_and(begins), "{text:x?}");
        }
    }
    assert!(names > 1_000, "{names} names");
}

/// What an edition accepts the next one accepts, with the same answers, from edition 2
/// on; and from edition 1 on where there is no 3003.
#[test]
fn later_editions_accept_what_earlier_ones_do() {
    let mut accepted = [0; 4];
    for text in texts() {
        let said = Said::of(&text);
        for edition in 1..=3 {
            let kept = edition > 1 || !text.contains(&EARLY_SIGN);
            if kept && said.checked[edition - 1].is_ok() {
                assert!(said.judged_alike(edition, edition + 1), "{text:x?}");
            }
            assert!(!kept || said.hopes[edition - 1] <= said.hopes[edition], "{text:x?}");
        }
        (0..4).for_each(|at| accepted[at] += usize::from(said.checked[at].is_ok()));
    }
    assert!(
        accepted[1] < accepted[2] && accepted[2] < accepted[3] && accepted[1] < accepted[0],
        "{accepted:?}"
    );
}

/// Numbers that are no edition, and the texts of the cases that have one.
fn refused_editions() -> Vec<u32> {
    let mut random = Random::seeded(25);
    let drawn = (0..20).map(|_| random.draw() as u32).filter(|number| Edition::numbered(*number).is_none());
    STRANGERS.into_iter().chain(drawn).collect()
}

/// Where the number is no edition, 25 at 0 is all that is said, whatever the text is.
/// 1 comes before it.
#[test]
fn what_is_no_edition_gets_25_after_1_and_before_2() {
    let numbers = refused_editions();
    let refusal = |number: u8| Answer::from(Refusal::plain(number));
    for (order, text) in texts().iter().enumerate().step_by(7) {
        let edition = numbers[order % numbers.len()];
        let (mut wide, mut narrow) = ([7; 256], [7; 255]);
        assert_eq!(calls::check(text, edition, &mut wide), refusal(25), "{edition} {text:x?}");
        assert_eq!(calls::check(text, edition, &mut narrow), refusal(1), "{edition} {text:x?}");
        assert!(wide == [7; 256] && narrow == [7; 255]);
        let (mut wide, mut narrow) = ([7; 192], [7; 191]);
        assert_eq!(calls::ascii_form(text, edition, &mut wide), refusal(25), "{edition} {text:x?}");
        assert_eq!(calls::ascii_form(text, edition, &mut narrow), refusal(1), "{edition} {text:x?}");
        assert!(wide == [7; 192] && narrow == [7; 191]);
        for edition in 1..=4 {
            assert_ne!(checked(text, edition).number, 25);
            assert_eq!(calls::check(text, edition, &mut [0; 255]), refusal(1));
        }
    }
}

/// After every code point the live check shows what the check answers in its edition,
/// with the normal form of what was read, and no text past 256. For a number that is no
/// edition it shows 25 in every state.
#[test]
fn live_check_keeps_its_edition() {
    for (round, mut text) in random_texts(120, 3003).into_iter().enumerate() {
        while round % 40 == 0 && text.len() < 262 {
            text.extend([EARLY_SIGN, 0x61, 0x2E, 0xFF76, 0xFF9E]);
        }
        let editions = [0, 1, 2, 3, 4, 5, 257];
        let mut states = editions.map(Live::fresh);
        for end in 0..=text.len() {
            let read = &text[..end];
            let normal = if end > 256 { Vec::new() } else { normal_form(read) };
            for (state, edition) in states.iter_mut().zip(editions) {
                let (shown, answer) = (state.look(), checked(read, edition));
                assert_eq!((shown.number, shown.place), (answer.number, answer.place), "{edition} {read:x?}");
                assert_eq!((shown.class, shown.labels), (answer.class, answer.labels), "{edition} {read:x?}");
                assert_eq!((shown.number == 25), !(1..=4).contains(&edition), "{edition} {read:x?}");
                assert_eq!(shown.text[..shown.length], normal, "{edition} {read:x?}");
                assert!(shown.text[shown.length..].iter().all(|code| *code == 0), "{edition} {read:x?}");
                let may = Edition::numbered(edition).is_some_and(|edition| hope::may_become(read, edition));
                assert_eq!(state.may_become(), may, "{edition} {read:x?}");
                text.get(end).into_iter().for_each(|code| state.step(*code));
            }
        }
    }
}

/// What a state shows of a host does not depend on its edition, and is what the rules
/// of hosts say, to which 3003 is unfit.
#[test]
fn hosts_know_no_edition() {
    let mut random = Random::seeded(10);
    let maker = HostMaker::default();
    let mut unfit = 0;
    for round in 0..1_000 {
        let typed = maker.typed_host(&mut random);
        let text = if round % 2 == 0 { sprinkled(&typed, &mut random) } else { typed };
        let judged = host::ascii_form(&text).err().map_or((0, 0), |no| (no.number, no.place));
        for edition in [0, 1, 2, 3, 4, 5, 4_294_967_295] {
            let mut state = Live::fresh(edition);
            text.iter().for_each(|code| state.step(*code));
            let shown = state.look_at_host();
            assert_eq!((shown.number, shown.place), judged, "{edition} {text:x?}");
            assert_eq!((shown.class, shown.labels), (None, LabelPlaces::default()), "{edition} {text:x?}");
            assert_eq!(shown.text, state.look().text, "{edition} {text:x?}");
        }
        unfit += usize::from(judged.0 == 4);
    }
    assert!(unfit > 400, "{unfit} unfit");
}

/// The second reader and the batch are today's.
#[test]
fn second_reader_and_batch_stay_with_edition_4() {
    for text in random_texts(2_000, 4) {
        for label in labels(&normal_form(&text)) {
            assert_eq!(grammar::second_reader(&label), grammar::reads(&label, Edition::Today), "{label:x?}");
        }
        let typed: Option<String> = text.iter().map(|code| char::from_u32(*code)).collect();
        let Some(typed) = typed.filter(|typed| !typed.contains(['\t', '\n'])) else { continue };
        let line = batch::answer_line(format!("k\t{typed}").as_bytes());
        let fields: Vec<&str> = line.split('\t').collect();
        let expected = match name::ascii_form(&text, Edition::Today) {
            Ok(formed) => vec!["0".into(), "0".into(), formed.form, chars::letters(&formed.kinds)],
            Err(no) => vec![no.number.to_string(), no.place.to_string(), "-".into(), "-".into()],
        };
        assert_eq!([fields[1], fields[2], fields[4], fields[5]].to_vec(), expected, "{typed}");
    }
    assert!(!grammar::second_reader(&[EARLY_SIGN]) && grammar::reads(&[EARLY_SIGN], Edition::Of2003));
    assert_eq!(batch::answer_line("k\t\u{3003}.jp".as_bytes()), "k\t4\t0\t-\t-\t-");
}

/// Hope by grammar against hope by search, in each edition: all short labels from a
/// few kinds, with two characters and an ending typed after them.
#[test]
fn short_labels_may_where_two_characters_and_an_ending_make_a_name() {
    let kinds = points("a-\u{304B}\u{30FB}\u{309B}\u{3003}");
    let mut texts = vec![vec![]];
    for _ in 0..4 {
        texts = texts
            .iter()
            .flat_map(|text: &Vec<u32>| kinds.iter().map(move |code| [&text[..], &[*code]].concat()))
            .collect();
        for text in &texts {
            for edition in EDITIONS {
                assert_eq!(hope::may_become(text, edition), found(text, &kinds, 2, edition), "{text:x?}");
            }
        }
    }
    for unit in [0x61, EARLY_SIGN, 0x30FB] {
        for length in 11..=16 {
            for end in kinds.iter().flat_map(|one| kinds.iter().map(|two| [*one, *two])) {
                let text = [&vec![unit; length][..], &end].concat();
                for edition in EDITIONS {
                    let by_search = found(&text, &kinds, 1, edition) || found(&text, &[0x3042], 2, edition);
                    assert_eq!(hope::may_become(&text, edition), by_search, "{text:x?}");
                }
            }
        }
    }
}

/// Whether a name is found by typing at most so many of the characters and ".jp".
fn found(text: &[u32], characters: &[u32], most: usize, edition: Edition) -> bool {
    let ended = name::check(&[text, &points(".jp")].concat(), edition).is_ok();
    let go_on = |code: &u32| found(&[text, &[*code]].concat(), characters, most - 1, edition);
    ended || most > 0 && characters.iter().any(go_on)
}

/// Second labels, in each edition: begun ones may go on where the end of some ending
/// makes a name of them.
#[test]
fn second_labels_may_where_the_end_of_an_ending_makes_a_name() {
    let words = [name::latin_prefectures(), name::japanese_prefectures()].concat();
    let endings: Vec<Vec<u32>> =
        words.iter().map(|word| points(&format!(".{word}.jp"))).chain([points(".jp")]).collect();
    let ends: BTreeSet<&[u32]> =
        endings.iter().flat_map(|ending| (0..=ending.len()).map(|from| &ending[from..])).collect();
    let mut may = [0; 4];
    for ending in &endings {
        for end in 1..=ending.len() {
            let text = [&points("abc")[..], &ending[..end]].concat();
            for (at, edition) in EDITIONS.into_iter().enumerate() {
                let by_check =
                    ends.iter().any(|end| name::check(&[&text[..], end].concat(), edition).is_ok());
                assert_eq!(hope::may_become(&text, edition), by_check, "{text:x?}");
                may[at] += usize::from(by_check);
            }
        }
    }
    assert!(may[0] == may[1] && may[1] < may[2] && may[2] < may[3], "{may:?}");
}

/// The case with today's edition, or with none.
fn without_edition(line: &str) -> String {
    let (word, rest) = line.split_once(' ').unwrap();
    format!("{} {rest}", &word[..1])
}

/// A number means the same written out as left out; the calls below the name and the
/// look at a host take any other number for 4.
#[test]
fn cases_with_today_or_no_edition_are_answered_as_without() {
    let mut seen = BTreeSet::new();
    // those of the outside are asked in outside.rs
    for line in cases::well_formed_lines().into_iter().filter(|line| !line.starts_with(['O', 'Y'])) {
        let Some(edition) = edition_of(&line) else { continue };
        let (answer, plain) =
            (probe::answer(line.as_bytes()), probe::answer(without_edition(&line).as_bytes()));
        let call = &line[..1];
        let by_today = match Edition::numbered(edition) {
            Some(known) => known == Edition::Today || "Vv".contains(call),
            None => "VvKQR".contains(call),
        };
        if by_today {
            assert_eq!(answer, plain, "{line}");
        } else if edition > 4 || edition == 0 {
            let refused =
                if "MI".contains(call) { !answer.contains('1') } else { answer.starts_with("25 0 - - ") };
            assert!(refused || answer == "1 0 - - 0", "{line}");
        }
        seen.insert((call.to_string(), edition.min(6)));
    }
    for call in WITH_EDITION.split("").filter(|call| !call.is_empty()) {
        (0..=6).for_each(|edition| assert!(seen.contains(&(call.to_string(), edition)), "{call}{edition}"));
    }
}

/// By each call that judges, in each edition, the case file has every number that may
/// come: no 12 without prefecture names. 25 comes a hundred times with each call that is
/// lent the table, and 1 beside it.
#[test]
fn each_number_comes_up_in_each_edition() {
    let mut seen = BTreeSet::new();
    let mut refused = [0; 128];
    for line in cases::well_formed_lines().iter().filter(|line| JUDGING.contains(&line[..1])) {
        let Some(edition) = edition_of(line) else { continue };
        let answer = probe::answer(line.as_bytes());
        let number: u8 = answer.split(' ').next().unwrap().parse().unwrap();
        seen.insert((line.chars().next().unwrap().to_ascii_uppercase(), edition.min(5), number));
        refused[usize::from(line.as_bytes()[0])] += usize::from(number == 25);
    }
    for call in "CAJL".chars() {
        for edition in 1..=4 {
            for number in [0, 2, 3, 4, 5, 6, 7, 8, 9, 17, 10, 11] {
                assert!(seen.contains(&(call, edition, number)), "{call}{edition}: {number}");
            }
            assert_eq!(seen.contains(&(call, edition, 12)), edition > 2, "{call}{edition}");
            assert!(!seen.contains(&(call, edition, 25)), "{call}{edition}");
        }
        for edition in [0, 5] {
            let numbers = seen.iter().filter(|one| (one.0, one.1) == (call, edition)).map(|one| one.2);
            let expected: &[u8] = if "CA".contains(call) { &[1, 25] } else { &[25] };
            assert_eq!(numbers.collect::<Vec<_>>(), expected, "{call}{edition}");
        }
        assert!(refused[call as usize] >= 100, "{call}: {} times", refused[call as usize]);
    }
}

/// Each prefecture label comes up in each edition, by the check and the ASCII form, and
/// both begun and whole by the calls that ask of a beginning.
#[test]
fn each_prefecture_label_comes_up_in_each_edition() {
    let lines = cases::well_formed_lines();
    let middle = |line: &String| labels(&normal_form(&numbers_of(line))).get(1).cloned();
    for call in ["C", "A", "M"] {
        for edition in if call == "M" { 3..=3 } else { 0..=5 } {
            let begun = format!("{call}{edition} ");
            let chosen = lines.iter().filter(|line| line.starts_with(&begun)).filter_map(middle);
            let found: BTreeSet<Vec<u32>> = chosen.collect();
            let all = [name::latin_prefectures(), name::japanese_prefectures()].concat();
            assert!(all.iter().all(|word| found.contains(&points(word))), "{begun}");
        }
    }
    // What tells the editions apart comes up by each call that judges, in each edition.
    for begun in JUDGING.chars().flat_map(|call| [1, 2, 3, 4].map(|edition| format!("{call}{edition} "))) {
        let texts: Vec<Vec<u32>> = lines
            .iter()
            .filter(|line| line.starts_with(&begun))
            .map(|line| normal_form(&numbers_of(line)))
            .collect();
        let three = texts.iter().map(|text| labels(text)).filter(|labels| labels.len() == 3);
        let middle: Vec<Vec<u32>> = three.map(|mut labels| labels.swap_remove(1)).collect();
        assert!(texts.iter().any(|text| text.contains(&EARLY_SIGN)), "{begun}");
        assert!(middle.iter().any(|label| is_japanese_prefecture(label)), "{begun}");
        assert!(middle.iter().any(|label| name::is_prefecture_label(label, Edition::Of2012)), "{begun}");
    }
    for edition in 0..=5 {
        let begun = format!("Q{edition} ");
        let answers =
            lines.iter().filter(|line| line.starts_with(&begun)).map(|line| probe::answer(line.as_bytes()));
        let endings: BTreeSet<String> =
            answers.map(|answer| answer.split(' ').nth(10).unwrap().into()).collect();
        let known = ["0001", "0011"].map(|ending| endings.contains(ending));
        assert_eq!(known, [![1, 2].contains(&edition); 2], "{begun}");
    }
}

/// A line with an edition has the same answer whether it is made here or written.
#[test]
fn lines_with_an_edition_are_made_and_read() {
    assert_eq!(probe_line_in('C', 0, 256, &[0x61]), "C0 256 61");
    assert_eq!(probe_line_in::<u32>('L', u32::MAX, 0, &[]), "L4294967295 0");
    assert_eq!(edition_of("C0 256 61"), Some(0));
    assert_eq!(edition_of(&probe_line('C', 256, &[0x61])), None);
    for call in "NHhSsGgXEDPTUFWB".chars() {
        for edition in [0, 1, 4] {
            let line = probe_line_in(call, edition, 0, &[0x61]);
            assert_eq!(probe::answer(line.as_bytes()), "?", "{line}");
        }
    }
    for word in ["C01", "C-1", "C+1", "C4294967296", "Cx", "C1 1", "C1.", "C 1", "1C", "\u{3003}1", ""] {
        let line = format!("{word} 0 61 x");
        assert_eq!(probe::answer(line.as_bytes()), "?", "{line}");
    }
}
