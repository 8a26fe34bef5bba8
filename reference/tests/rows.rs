//! Document 01's table with K3's row and K12's, each row by itself, in each edition.
//! The check gives the first that applies. With a row left out one sees what the row
//! changed. The rows of hosts (K10) stand beside them.

use reference::cases::editions::sprinkled;
use reference::cases::hosts::HostMaker;
use reference::cases::random::NameMaker;
use reference::chars;
use reference::coder::encode_by_insertion;
use reference::edition::{Edition, EDITIONS};
use reference::grammar::class_of;
use reference::name::{japanese_prefectures, latin_prefectures};
use reference::normal::{normal_form, placed_normal_form};
use reference::random::Random;
use reference::{calls, cases, host, points};
use std::collections::BTreeSet;

/// A row that applies: number and place.
type Row = (u8, usize);

/// The row of K3.
const PAIR: Row = (17, 0);

/// The edition of hosts.
const TODAY: u32 = 4;

/// Whether a code point is Japanese in an edition, by its number: today's characters,
/// and 3003 besides in the first.
fn is_japanese(code: u32, edition: u32) -> bool {
    chars::is_japanese(code, Edition::Today) || edition == 1 && code == 0x3003
}

fn is_ascii(label: &str, edition: u32) -> bool {
    !label.chars().any(|c| is_japanese(c.into(), edition))
}

/// Rows 7 to 10 with 17 after 9: number, and whether it applies to a label that
/// has at least so many characters if it is ASCII, and in which the hyphen pair
/// is refused if it is ASCII or in any case.
fn of_label(label: &str, edition: u32, least: usize, pair_in_any: bool) -> [(u8, bool); 5] {
    let count = label.chars().count();
    let ascii = is_ascii(label, edition);
    let pair = label.chars().skip(2).take(2).collect::<String>() == "--";
    let excepted = |c: char| !is_japanese(c.into(), edition) || "\u{3006}\u{30FC}\u{30FB}".contains(c);
    [
        (7, label.starts_with('-') || label.ends_with('-')),
        (8, ascii && count < least),
        (9, count > if ascii { 63 } else { 15 }),
        (17, (ascii || pair_in_any) && pair),
        (10, label.contains('\u{30FB}') && label.chars().all(excepted)),
    ]
}

/// The Latin labels came with edition 3, the Japanese ones with edition 4.
fn is_prefecture(label: &str, edition: u32) -> bool {
    let held = |labels: Vec<String>| labels.iter().any(|one| one == label);
    edition >= 3 && held(latin_prefectures()) || edition >= 4 && held(japanese_prefectures())
}

/// The place of the first unfit character.
fn unfit(text: &[u32], edition: u32) -> Option<usize> {
    let ascii = |c: char| c == '-' || c == '.' || c.is_ascii_digit() || c.is_ascii_lowercase();
    let fits = |code: u32| is_japanese(code, edition) || char::from_u32(code).is_some_and(ascii);
    placed_normal_form(text).iter().find(|placed| !fits(placed.code)).map(|placed| placed.place)
}

fn row(number: u8, place: usize, applies: bool) -> Option<Row> {
    applies.then_some((number, place))
}

/// The normal form as a string. What is no character is unfit, and so is what
/// stands in for it.
fn spelled(text: &[u32]) -> String {
    let spelled = |code: u32| char::from_u32(code).unwrap_or('\u{FFFF}');
    normal_form(text).into_iter().map(spelled).collect()
}

/// Rows 2 to 6 that apply to a text whose labels are as many as may be, or not.
fn front(text: &[u32], edition: u32, labels: &[&str], counted: bool) -> [Option<Row>; 5] {
    let empty = labels.iter().position(|label| label.is_empty());
    [
        row(2, 0, text.is_empty()),
        row(3, 256, text.len() > 256),
        unfit(text, edition).map(|place| (4, place)),
        row(5, 0, !counted),
        empty.map(|place| (6, place)),
    ]
}

/// All rows of the check that apply to a text in an edition, or in what is none, in the
/// table's order.
fn applying(text: &[u32], edition: u32) -> Vec<Row> {
    let normal = spelled(text);
    let labels: Vec<&str> = normal.split('.').collect();
    let front = front(text, edition, &labels, labels.len() == 2 || labels.len() == 3 && edition >= 3);
    let leftmost = of_label(labels[0], edition, 3, false).map(|(number, applies)| row(number, 0, applies));
    let others = [
        row(11, 0, !labels.ends_with(&["jp"])),
        row(12, 0, labels.len() == 3 && !is_prefecture(labels[1], edition)),
    ];
    let no_edition = row(25, 0, !(1..=4).contains(&edition));
    [no_edition].into_iter().chain(front).chain(leftmost).chain(others).flatten().collect()
}

/// How many octets a label has in the ASCII form.
fn octets(label: &str) -> usize {
    match is_ascii(label, TODAY) {
        true => label.chars().count(),
        false => 4 + encode_by_insertion(&points(label)).len(),
    }
}

/// All rows of hosts that apply to a text, in K10's order: label by label those
/// of labels, then 14 and 19. An empty label has 6, so the row 8 asks nothing.
fn applying_to_host(text: &[u32]) -> Vec<Row> {
    let normal = spelled(text);
    let labels: Vec<&str> = normal.split('.').collect();
    let mut rows: Vec<Option<Row>> = front(text, TODAY, &labels, labels.len() >= 3).into();
    for (index, label) in labels.iter().enumerate() {
        rows.extend(of_label(label, TODAY, 1, true).map(|(number, applies)| row(number, index, applies)));
    }
    let octets: Vec<usize> = labels.iter().map(|label| octets(label)).collect();
    rows.extend(octets.iter().enumerate().map(|(index, octets)| row(14, index, *octets > 63)));
    rows.push(row(19, 0, octets.iter().sum::<usize>() + octets.len() - 1 > 253));
    rows.into_iter().flatten().collect()
}

/// What the check answers; 0 at 0 where it accepts.
fn answered(text: &[u32], edition: u32) -> Row {
    let answer = calls::check(text, edition, &mut [0; 256]);
    (answer.number, answer.place)
}

fn answered_of_host(text: &[u32]) -> Row {
    host::ascii_form(text).err().map_or((0, 0), |no| (no.number, no.place))
}

fn first(mut rows: impl Iterator<Item = Row>) -> Row {
    rows.next().unwrap_or((0, 0))
}

/// The texts of the cases of these calls; of one call with a blank after it, where no
/// edition is asked for.
fn texts_of_cases(calls: &str) -> Vec<Vec<u32>> {
    let lines = cases::well_formed_lines();
    let asks = |line: &&String| match calls.strip_suffix(' ') {
        Some(call) => line.starts_with(call) && cases::edition_of(line).is_none(),
        None => calls.contains(&line[..1]),
    };
    lines.iter().filter(asks).map(|line| cases::numbers_of(line)).collect()
}

/// The texts of the cases, random names and damaged ones, and all labels of up
/// to six characters from four before some endings.
fn texts() -> Vec<Vec<u32>> {
    let mut texts = texts_of_cases("NCALM");
    let mut random = Random::seeded(17);
    let maker = NameMaker::default();
    for _ in 0..5_000 {
        let typed = maker.typed_name(&mut random);
        texts.push(maker.edit(&typed, &mut random));
        texts.push(sprinkled(&typed, &mut random));
        texts.push(typed);
    }
    let mut labels = vec![String::new()];
    for _ in 0..6 {
        labels = labels
            .iter()
            .flat_map(|label| ["a", "-", "\u{3042}", "\u{30FB}"].map(|c| format!("{label}{c}")))
            .collect();
        for label in &labels {
            texts.extend([".jp", ".nara.jp", ".com", ".a.jp"].map(|end| points(&format!("{label}{end}"))));
        }
    }
    texts
}

#[test]
fn the_check_gives_the_first_row_that_applies() {
    for text in texts() {
        for edition in 0..=5 {
            let wanted = first(applying(&text, edition).into_iter());
            assert_eq!(answered(&text, edition), wanted, "{edition} {text:x?}");
        }
    }
}

/// Without K3's row the same texts are accepted and besides them those to which
/// this row alone applies. The grammar, which does not know the row, derives
/// both. Every other answer is what it was. So it is in each edition.
#[test]
fn the_row_of_k3_takes_away_the_names_that_pretend_and_changes_nothing_else() {
    let mut before_17 = BTreeSet::new();
    let mut taken_away = 0;
    let texts = texts();
    for (text, edition) in texts.iter().flat_map(|text| EDITIONS.map(|edition| (text, edition))) {
        let rows = applying(text, edition.number());
        let before = first(rows.iter().copied().filter(|row| *row != PAIR));
        let now = answered(text, edition.number());
        if now == PAIR {
            before_17.insert(before.0);
            taken_away += usize::from(before.0 == 0);
        } else {
            assert_eq!(now, before, "{text:x?}");
        }
        assert_eq!(now == PAIR && before.0 == 0, rows == [PAIR], "{text:x?}");
        let derived = text.len() <= 256 && class_of(&normal_form(text), edition).is_some();
        assert_eq!(before.0 == 0, derived, "{text:x?}");
    }
    // Nothing else is taken away: what gets 17 now was accepted, or gets it before 11 or 12.
    assert_eq!(before_17, [0, 11, 12].into());
    assert!(taken_away > 200, "{taken_away} names");
}

/// Two rows that may be the first ones to apply to a text, and between which
/// none can stand: such a text is among the cases of each call that judges.
#[test]
fn cases_have_a_text_for_each_two_rows_that_follow_each_other() {
    let wanted: BTreeSet<(u8, u8)> = [
        (2, 5),
        (3, 4),
        (4, 5),
        (5, 6),
        (6, 7),
        (7, 8),
        (7, 9),
        (8, 11),
        (9, 17),
        (9, 10),
        (17, 11),
        (10, 11),
        (11, 12),
    ]
    .into();
    for call in ["C ", "A ", "L "] {
        let texts = texts_of_cases(call);
        let rows = texts.iter().map(|text| applying(text, TODAY)).filter(|rows| rows.len() > 1);
        let found: BTreeSet<(u8, u8)> = rows.map(|rows| (rows[0].0, rows[1].0)).collect();
        let missing: Vec<_> = wanted.difference(&found).collect();
        assert!(missing.is_empty(), "{call}: {missing:?}");
    }
}

/// Texts for the rules of hosts: all of the above, the hosts of the cases, random
/// ones and damaged ones, and all texts of up to nine characters from four.
fn host_texts() -> Vec<Vec<u32>> {
    let mut texts = texts();
    texts.extend(texts_of_cases("HhGgVvR"));
    let mut random = Random::seeded(10);
    let maker = HostMaker::default();
    for _ in 0..10_000 {
        let typed = maker.typed_host(&mut random);
        texts.push(maker.damaged(&typed, &mut random));
        texts.push(typed);
    }
    let mut short = vec![String::new()];
    for _ in 0..9 {
        short =
            short.iter().flat_map(|text| ["a", "-", "\u{30FB}", "."].map(|c| format!("{text}{c}"))).collect();
        texts.extend(short.iter().filter(|text| text.contains('.')).map(|text| points(text)));
    }
    texts
}

/// The rules of hosts give the first row that applies. 8 never comes, since an
/// empty label has 6, and 14 never comes, since no label is so long.
#[test]
fn the_rules_of_hosts_give_the_first_row_that_applies() {
    let mut seen = BTreeSet::new();
    for text in host_texts() {
        let answer = answered_of_host(&text);
        assert_eq!(answer, first(applying_to_host(&text).into_iter()), "{text:x?}");
        seen.insert(answer.0);
    }
    assert_eq!(seen, [0, 2, 3, 4, 5, 6, 7, 9, 10, 17, 19].into());
}

/// Two rows of hosts that may be the first ones to apply and between which none
/// can stand: of one label, of a label and of one after it whatever its number,
/// and of any label and the total. Each call on a host has such a text.
#[test]
fn cases_have_a_host_for_each_two_rows_that_follow_each_other() {
    let in_one = [(7, 9), (7, 17), (7, 10), (9, 17), (9, 10), (17, 10)];
    let front = [(2, 5), (3, 4), (4, 5), (5, 6), (6, 7), (7, 19), (9, 19), (17, 19), (10, 19)];
    for call in ["H", "hG", "gVv"] {
        let texts = texts_of_cases(call);
        let rows: Vec<Vec<Row>> = texts.iter().map(|text| applying_to_host(text)).collect();
        let two = rows.iter().filter(|rows| rows.len() > 1).map(|rows| (rows[0], rows[1]));
        let found: BTreeSet<(Row, Row)> = two.collect();
        let has = |one: u8, other: u8, fits: fn(usize, usize) -> bool| {
            let is = |(a, b): &(Row, Row)| a.0 == one && b.0 == other && fits(a.1, b.1);
            assert!(found.iter().any(is), "{call}: {one} and {other}");
        };
        front.iter().for_each(|(one, other)| has(*one, *other, |_, _| true));
        in_one.iter().for_each(|(one, other)| has(*one, *other, |at, then| at == then));
        for (one, other) in
            [7, 9, 17, 10].into_iter().flat_map(|one| [7, 9, 17, 10].map(|other| (one, other)))
        {
            if one != other {
                has(one, other, |at, then| at < then);
            }
        }
        let late = |rows: &Vec<Row>| rows.len() > 1 && rows[0].1 > 2 && rows[0].0 > 6 && rows[1] == (19, 0);
        assert!(rows.iter().any(late), "{call}: 19 beside a late label");
    }
}
