//! Which scripts a name uses (document 02, K6). The kinds are told here by another
//! route: the row of JIS X 0208 in which a character stands. Rows 1, 4 and 5 are
//! spelled out; the kanji are one list either way.

use reference::cases::random::{accepted_lines, NameMaker};
use reference::chars::{self, Kind};
use reference::edition::{Edition, EDITIONS};
use reference::random::Random;
use reference::{batch, cases, coder, name, normal, points, probe};
use std::collections::{BTreeSet, HashMap};

/// The letters in the order in which they are printed.
const LETTERS: &str = "HKJS";

/// The first 28 cells of row 1, and rows 4 and 5.
const ROW_1: &str = "　、。，．・：；？！゛゜´｀¨＾￣＿ヽヾゝゞ〃仝々〆〇ー";
const ROW_4: &str = "ぁあぃいぅうぇえぉおかがきぎくぐけげこごさざしじすずせぜそぞただちぢっつづてでとど\
    なにぬねのはばぱひびぴふぶぷへべぺほぼぽまみむめもゃやゅゆょよらりるれろゎわゐゑをん";
const ROW_5: &str = "ァアィイゥウェエォオカガキギクグケゲコゴサザシジスズセゼソゾタダチヂッツヅテデトド\
    ナニヌネノハバパヒビピフブプヘベペホボポマミムメモャヤュユョヨラリルレロヮワヰヱヲンヴヵヶ";

/// The cells of row 1 that names may have: the middle dot, the marks that repeat,
/// and the rest, with 3003 in cell 23 in edition 1 alone (K12).
fn is_sign(cell: usize, edition: Edition) -> bool {
    let first = edition == Edition::Of2003;
    cell == 6 || (19..=28).contains(&cell) && (cell != 23 || first)
}

/// Each Japanese character with the letter of its kind, by row and cell.
fn by_rows(edition: Edition) -> Vec<(u32, char)> {
    let of_row = |row: &str, letter: char| row.chars().map(move |c| (u32::from(c), letter)).collect();
    let cells = ROW_1.chars().zip(1..).filter(|(_, cell)| is_sign(*cell, edition));
    let signs = cells.map(|(c, _)| (u32::from(c), 'S'));
    let mut found: Vec<(u32, char)> = signs.collect();
    found.extend::<Vec<_>>(of_row(ROW_4, 'H'));
    found.extend::<Vec<_>>(of_row(ROW_5, 'K'));
    for line in include_str!("../kanji.txt").lines() {
        let (row, kanji) = line.split_once(' ').unwrap();
        assert!((16..=84).contains(&row.parse::<u8>().unwrap()));
        found.extend::<Vec<_>>(of_row(kanji, 'J'));
    }
    found
}

/// The kinds of some characters as a word, by their rows.
fn word(characters: &[u32], letter_of: &HashMap<u32, char>) -> String {
    let found: Vec<&char> = characters.iter().filter_map(|code| letter_of.get(code)).collect();
    let word: String = LETTERS.chars().filter(|letter| found.contains(&letter)).collect();
    if word.is_empty() {
        "-".to_string()
    } else {
        word
    }
}

/// The sixteen words.
fn words() -> BTreeSet<String> {
    let of_set = |set: usize| LETTERS.chars().enumerate().filter(move |(at, _)| set >> at & 1 == 1);
    let mut words: BTreeSet<String> =
        (1..16).map(|set| of_set(set).map(|(_, letter)| letter).collect()).collect();
    words.insert("-".to_string());
    words
}

/// Every code point to 2FFFF, and others past it.
fn code_points() -> impl Iterator<Item = u32> {
    let alike = [0x1_0000, 0x10_0000, 0x8000_0000, 0xFFFF_0000].into_iter();
    let alike = alike.flat_map(|high| points("あアー亜仝").into_iter().map(move |low| high | low));
    (0..0x30000).chain((0x30000..=0x11_FFFF).step_by(37)).chain(alike).chain([u32::MAX - 1, u32::MAX])
}

#[test]
fn the_kind_of_a_character_is_that_of_its_row() {
    for edition in EDITIONS {
        let letter_of: HashMap<u32, char> = by_rows(edition).into_iter().collect();
        for code in code_points() {
            let letter = *letter_of.get(&code).unwrap_or(&'-');
            assert_eq!(Kind::letter(chars::kind(code, edition)), letter, "{code:x}");
            assert_eq!(chars::letters(&chars::kinds(&[code], edition)), letter.to_string(), "{code:x}");
        }
    }
}

/// The counts of document 01, with one sign more in edition 1. They add up to as many
/// characters as there are, so none has two kinds.
#[test]
fn each_kind_has_its_count_and_no_character_has_two() {
    for (edition, signs) in EDITIONS.into_iter().zip([11, 10, 10, 10]) {
        let listed = by_rows(edition);
        let counted = |letter: char| listed.iter().filter(|one| one.1 == letter).count();
        assert_eq!(LETTERS.chars().map(counted).collect::<Vec<_>>(), [83, 86, 6355, signs]);
        assert_eq!(listed.iter().map(|one| one.0).collect::<BTreeSet<_>>().len(), 6524 + signs);
        let own = |kind: Kind| (0..0x30000).filter(|code| chars::kind(*code, edition) == Some(kind)).count();
        assert_eq!([Kind::Hiragana, Kind::Katakana, Kind::Kanji, Kind::Sign].map(own), [83, 86, 6355, signs]);
    }
}

/// What is a sign is of no other kind, wherever it stands among the code points.
#[test]
fn signs_are_no_kana_and_no_kanji() {
    for code in [0x30FB, 0x30FD, 0x30FE, 0x309D, 0x309E, 0x4EDD, 0x3005, 0x3006, 0x3007, 0x30FC] {
        assert_eq!(chars::kind(code, Edition::Today), Some(Kind::Sign), "{code:x}");
    }
    for (code, kind) in [
        (0x3041, Kind::Hiragana),
        (0x3093, Kind::Hiragana),
        (0x30A1, Kind::Katakana),
        (0x30F4, Kind::Katakana),
        (0x30F6, Kind::Katakana),
        (0x4E00, Kind::Kanji),
        (0x9FA0, Kind::Kanji),
    ] {
        assert_eq!(chars::kind(code, Edition::Today), Some(kind), "{code:x}");
    }
    for code in
        [0x3003, 0x3040, 0x3094, 0x309B, 0x309C, 0x30A0, 0x30F7, 0x30FF, 0x4DFF, 0x9FA1, 0xFF71, 0xFF70]
    {
        assert_eq!(chars::kind(code, Edition::Today), None, "{code:x}");
    }
}

/// Yes or no is what it was: membership in the set that document 01 lists, and of 3003
/// in edition 1.
#[test]
fn japanese_is_any_kind_but_none() {
    let mut listed: BTreeSet<u32> = (0x3041..=0x3093).chain(0x30A1..=0x30F6).collect();
    listed.extend(chars::kanji());
    listed.extend(chars::SIGNS);
    assert_eq!(listed.len(), 6534);
    for edition in EDITIONS {
        let is_listed = |code: u32| listed.contains(&code) || edition == Edition::Of2003 && code == 0x3003;
        for code in code_points() {
            assert_eq!(chars::is_japanese(code, edition), is_listed(code), "{code:x}");
            assert_eq!(chars::japanese(edition).contains_key(&code), is_listed(code), "{code:x}");
        }
    }
}

/// Half-width kana become katakana, but for the two that become signs and for the
/// marks. A base and what a mark makes of it are of one kind.
#[test]
fn the_normal_form_gives_half_width_kana_their_kind() {
    for half in 0xFF65..=0xFF9F {
        let kind = match half {
            0xFF65 | 0xFF70 => Some(Kind::Sign),
            0xFF9E | 0xFF9F => None,
            _ => Some(Kind::Katakana),
        };
        assert_eq!(chars::kind(half, Edition::Today), None, "{half:x}");
        assert_eq!(chars::kind(normal::replaced(half), Edition::Today), kind, "{half:x}");
    }
    for ((base, mark), whole) in normal::compositions() {
        assert!(chars::kind(*base, Edition::Today).is_some() && chars::kind(*mark, Edition::Today).is_none());
        assert_eq!(chars::kind(*base, Edition::Today), chars::kind(*whole, Edition::Today), "{base:x}");
    }
}

/// The fields of the line that the batch answers to a name in UTF-8.
fn answered(name: &str) -> Vec<String> {
    let line = batch::answer_line(format!("k\t{name}").as_bytes());
    line.split('\t').map(String::from).collect()
}

/// The sixth field of document 02 where the name is a label and ".jp".
#[test]
fn names_that_k6_decides() {
    for (label, kinds) in [
        ("abc", "-"),
        ("HKJS", "-"),
        ("\u{3042}", "H"),
        ("\u{30A2}\u{3042}", "HK"),
        ("\u{3005}\u{4E9C}\u{30A2}\u{3042}", "HKJS"),
        ("\u{30FC}", "S"),
        ("\u{FF70}", "S"),
        ("\u{FF76}\u{FF9E}", "K"),
        ("\u{FF76}\u{FF70}", "KS"),
        ("\u{309D}\u{309B}", "S"),
        ("\u{30FD}\u{FF9E}", "S"),
        ("\u{30A6}\u{309B}", "K"),
        ("\u{30FB}\u{4E9C}", "JS"),
        ("\u{4EDD}", "S"),
        ("\u{4EDD}\u{4E00}", "JS"),
        ("\u{3007}\u{3007}a-b", "S"),
    ] {
        assert_eq!(answered(&format!("{label}.jp"))[5], kinds, "{label}");
        // The middle label is no part of it.
        assert_eq!(answered(&format!("{label}.\u{6771}\u{4EAC}.jp"))[5], kinds, "{label}");
    }
}

/// The leftmost label, back from the ASCII form that the batch prints.
fn leftmost(form: &str) -> Vec<u32> {
    let label = form.split('.').next().unwrap();
    match label.starts_with("xn--") {
        true => coder::decode(label.as_bytes()).unwrap(),
        false => points(label),
    }
}

/// Of random names, the sixth field says what the leftmost label holds, decoded
/// from the fifth. The whole ASCII form tells the same kinds, and so does the
/// label by itself.
#[test]
fn the_sixth_field_is_of_the_leftmost_label() {
    let letter_of: HashMap<u32, char> = by_rows(Edition::Today).into_iter().collect();
    let mut seen = BTreeSet::new();
    for line in accepted_lines(20_000, 6) {
        let text = cases::numbers_of(&line);
        let typed: String = text.iter().filter_map(|code| char::from_u32(*code)).collect();
        let fields = answered(&typed);
        assert_eq!((fields.len(), &fields[1][..]), (6, "0"), "{typed}");
        let label = leftmost(&fields[4]);
        assert_eq!(fields[5], word(&label, &letter_of), "{typed}");
        assert_eq!(probe::answer(line.as_bytes()).split(' ').nth(3), Some(&fields[5][..]), "{typed}");
        let of_label = cases::probe_line('Q', 0, &cases::labels::numbers(0, 3, 0, &label));
        let held = format!("1{}", fields[5]);
        assert_eq!(probe::answer(of_label.as_bytes()).split(' ').nth(5), Some(&held[..]), "{typed}");
        seen.insert(fields[5].clone());
    }
    assert_eq!(seen, words());
}

/// A refused name has none, by the batch and by the whole ASCII form, though
/// most of these hold some.
#[test]
fn refused_names_have_no_kinds() {
    let mut random = Random::seeded(66);
    let maker = NameMaker::default();
    let mut holding = 0;
    for _ in 0..20_000 {
        let typed = maker.typed_name(&mut random);
        let text = maker.edit(&typed, &mut random);
        let Err(refusal) = name::check(&text, Edition::Today) else { continue };
        let answer = probe::answer(cases::probe_line('A', 192, &text).as_bytes());
        assert_eq!(answer, format!("{} {} - - 0", refusal.number, refusal.place));
        if text.iter().all(|code| char::from_u32(*code).is_some_and(|c| !"\t".contains(c))) {
            let name: String = text.iter().filter_map(|code| char::from_u32(*code)).collect();
            assert_eq!(answered(&name)[3..], ["-", "-", "-"], "{name}");
        }
        holding += usize::from(
            !chars::kinds(&normal::labels(&normal::normal_form(&text))[0], Edition::Today).is_empty(),
        );
    }
    assert!(holding > 5_000, "{holding} names hold kinds");
}

#[test]
fn bad_lines_have_six_fields() {
    for line in ["", "\u{3042}.jp", "\t\u{3042}.jp", "k\t\u{3042}.jp\t", "\u{3042}\t\u{30A2}.jp"] {
        assert_eq!(batch::answer_line(line.as_bytes()), "-\t16\t0\t-\t-\t-");
    }
    assert_eq!(batch::answer_line(b"k\t\xE3\x81\x82\xE3.jp"), "-\t16\t0\t-\t-\t-");
}

/// Class and kinds of the accepted names in the answer to a case.
fn told(line: &str) -> Vec<(String, String)> {
    let answer = probe::answer(line.as_bytes());
    let of_octets = |hex: &str| {
        let octets: Vec<u8> = hex.split(' ').filter_map(|hex| u8::from_str_radix(hex, 16).ok()).collect();
        let output = String::from_utf8(octets).unwrap();
        let fields = output.lines().map(|line| line.split('\t').map(String::from).collect::<Vec<_>>());
        let accepted = fields.filter(|fields| fields[1] == "0");
        accepted.map(|fields| (fields[3].clone(), fields[5].clone())).collect()
    };
    let words: Vec<&str> = answer.split(' ').collect();
    match (&line[..1], words[0]) {
        ("A" | "a", "0") => vec![(words[2].to_string(), words[3].to_string())],
        // Of a label that holds what no label may, no kinds are told.
        ("Q", _) => {
            words[5].strip_prefix('1').map(|kinds| (String::new(), kinds.to_string())).into_iter().collect()
        }
        ("B", _) => of_octets(&answer),
        ("W", "1") => of_octets(&words[2..].join(" ")),
        _ => Vec::new(),
    }
}

/// Each of the sixteen sets comes up with each call that tells kinds, in names of
/// either class, and is told in one way only.
#[test]
fn every_set_comes_up_with_each_call_that_tells_kinds() {
    let lines = cases::well_formed_lines();
    for call in ["A", "a", "W", "B", "Q"] {
        let of_call = lines.iter().filter(|line| line.starts_with(call));
        let found: BTreeSet<(String, String)> = of_call.flat_map(|line| told(line)).collect();
        let classes: &[&str] = if call == "Q" { &[""] } else { &["G", "P"] };
        let wanted =
            classes.iter().flat_map(|class| words().into_iter().map(|word| (class.to_string(), word)));
        assert_eq!(found, wanted.collect(), "{call}");
    }
}

/// Every set is in the input of `desk` too.
#[test]
fn every_set_comes_up_in_the_input_of_desk() {
    let output = String::from_utf8(batch::desk(&cases::lines::input())).unwrap();
    let fields: Vec<Vec<&str>> = output.lines().map(|line| line.split('\t').collect()).collect();
    assert!(fields.iter().all(|fields| fields.len() == 6));
    let own = |word: &str| fields.iter().any(|fields| fields[0].starts_with('k') && fields[5] == word);
    assert!(words().iter().all(|word| own(word)));
    let refused = fields.iter().filter(|fields| fields[1] != "0");
    assert!(refused.into_iter().all(|fields| fields[3..] == ["-", "-", "-"]));
}

/// Each refusal of a name whose leftmost label holds kinds comes up with each call
/// that tells them. Those of 8 and 17 are ASCII labels; there the middle label does.
#[test]
fn refused_names_of_the_cases_hold_kinds() {
    let lines = cases::well_formed_lines();
    for call in ["A", "a", "W", "B"] {
        let mut seen = BTreeSet::new();
        for line in lines.iter().filter(|line| line.starts_with(call)) {
            for (text, number) in answers_to(line) {
                let labels = normal::labels(&normal::normal_form(&text));
                let asked = if [8, 17].contains(&number) { labels.get(1) } else { labels.first() };
                if asked.is_some_and(|label| !chars::kinds(label, Edition::Today).is_empty()) {
                    seen.insert(number);
                }
            }
        }
        // 1, 16 and 25 come up too, of a short buffer, of bad lines and of no edition; 0 is no refusal.
        seen.retain(|number| ![0, 1, 16, 25].contains(number));
        assert_eq!(seen, [3, 4, 5, 6, 7, 8, 9, 10, 11, 12, 17].into(), "{call}");
    }
}

/// The names that a case puts to a call, each with the number of its answer.
fn answers_to(line: &str) -> Vec<(Vec<u32>, u8)> {
    let numbers = cases::numbers_of(line);
    let answer = probe::answer(line.as_bytes());
    let words: Vec<&str> = answer.split(' ').collect();
    if line.starts_with(['A', 'a']) {
        return vec![(numbers, words[0].parse().unwrap())];
    }
    // Before the output of W stand a flag and a length.
    let skipped = if line.starts_with('W') { 2 } else { 0 };
    let output: Vec<u8> =
        words[skipped.min(words.len())..].iter().filter_map(|hex| u8::from_str_radix(hex, 16).ok()).collect();
    let input: Vec<u8> = numbers.iter().map(|number| *number as u8).collect();
    let name = |line: &[u8]| {
        let tab = line.iter().position(|byte| *byte == b'\t')?;
        Some(points(&String::from_utf8_lossy(&line[tab + 1..])))
    };
    let number = |line: &[u8]| String::from_utf8_lossy(line).split('\t').nth(1)?.parse().ok();
    let pairs = input.split(|byte| *byte == b'\n').zip(output.split(|byte| *byte == b'\n'));
    pairs.filter_map(|(line, answer)| Some((name(line)?, number(answer)?))).collect()
}
