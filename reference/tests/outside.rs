//! The calls of the outside beside those that they are thin layers of, and
//! beside each other.

use reference::cases::desk::in_utf8;
use reference::cases::{edition_of, numbers_of, well_formed_lines};
use reference::{calls, outside, probe};

const LENGTH: usize = 4;

/// The texts that the check is asked of in the case file, with their editions.
fn texts() -> Vec<(u32, Vec<u32>)> {
    let asked = |line: &String| line.starts_with("C ") || line.starts_with("C0 ") || line.starts_with("C3 ");
    let edition = |line: &str| line[1..line.find(' ').expect("a blank")].parse().unwrap_or(4);
    well_formed_lines()
        .iter()
        .filter(|line| asked(line))
        .map(|line| (edition(line), numbers_of(line)))
        .collect()
}

#[test]
fn a_look_and_the_check_tell_the_same_but_for_the_length() {
    for (edition, text) in texts() {
        let (mut form, shown) = ([7; 256], outside::typed(edition, &text).look());
        let (checked, looked) = (outside::check(edition, &text, &mut form), outside::looked(&shown));
        let but_length = |numbers: outside::Numbers| [&numbers[..LENGTH], &numbers[LENGTH + 1..]].concat();
        assert_eq!(but_length(checked), but_length(looked), "{edition} {text:x?}");
        if checked[0] == 0 {
            assert_eq!(checked, looked);
            assert_eq!(form[..checked[LENGTH] as usize], shown.text[..shown.length]);
        }
    }
}

#[test]
fn class_and_kinds_are_told_by_number() {
    for (edition, text) in texts() {
        let (mut ascii, mut form) = ([7; 192], [7; 192]);
        let told = outside::to_ascii(edition, &text, &mut ascii);
        let answer = calls::ascii_form(&text, edition, &mut form);
        let letters =
            ["", "H", "K", "HK", "J", "HJ", "KJ", "HKJ", "S", "HS", "KS", "HKS", "JS", "HJS", "KJS", "HKJS"];
        let kinds = reference::chars::letters(&answer.kinds);
        assert_eq!(letters[told[3] as usize], kinds.trim_matches('-'));
        let classes = ["-", "G", "P"].map(|letter| letter.chars().next());
        assert_eq!(classes[told[2] as usize], Some(reference::answer::Class::letter(answer.class)));
        assert_eq!((told[0], told[1], ascii), (u32::from(answer.number), answer.place as u32, form));
    }
}

#[test]
fn utf8_is_judged_as_its_code_points() {
    for (edition, text) in
        texts().into_iter().filter(|(_, text)| text.iter().all(|code| char::from_u32(*code).is_some()))
    {
        let (mut form, mut same) = ([7; 256], [7; 256]);
        let octets = in_utf8(&text);
        let told = outside::of_utf8(octets.as_bytes(), |text| outside::check(edition, text, &mut form));
        assert_eq!(told, outside::check(edition, &text, &mut same));
        assert_eq!(form, same);
        let bad = outside::of_utf8(&[octets.as_bytes(), b"\xFF"].concat(), |_| unreachable!());
        assert_eq!(bad, [16, 0, 0, 0, 0, 0, 0, 0, 0, 0, 0, 0]);
    }
}

/// A number that is no edition is 25 to the calls that judge a name, no to those
/// that say yes or no, and nothing to the others.
#[test]
fn no_edition() {
    for line in well_formed_lines().iter().filter(|line| line.starts_with(['O', 'Y'])) {
        let Some(edition) = edition_of(line).filter(|edition| *edition == 0 || *edition > 4) else {
            continue;
        };
        let (word, rest) = line.split_once(' ').expect("a blank");
        let answer = probe::answer(line.as_bytes());
        let today = probe::answer(format!("{} {rest}", &word[..1]).as_bytes());
        let call = (&word[..1], rest.split(' ').next().expect("a call"));
        match call {
            ("O", "0" | "1" | "5" | "8") | ("Y", "0" | "1") => {
                assert!(answer.starts_with("19 19 0 0 0 ") || answer.starts_with("10 10 0 "), "{line}");
            }
            ("O", "2" | "7" | "11") => assert_eq!(answer, "0", "{line}"),
            ("O", "10") => assert!(answer.ends_with(&format!(" {edition:x}")) || edition == 0, "{line}"),
            _ => assert_eq!(answer, today, "{line}"),
        }
    }
}

/// Every call is asked by the case file, and each number that one may tell comes.
#[test]
fn every_call_is_asked() {
    let lines = well_formed_lines();
    for (letter, calls) in [('O', 13), ('Y', 5)] {
        for call in 0..calls {
            let with = |line: &&String| {
                line.starts_with(letter) && line.split(' ').nth(1) == Some(&call.to_string())
            };
            let answers = lines.iter().filter(with).map(|line| probe::answer(line.as_bytes()));
            let mut firsts: Vec<String> =
                answers.filter_map(|a| a.split(' ').next().map(str::to_string)).collect();
            firsts.sort();
            firsts.dedup();
            let least = match (letter, call) {
                ('O', 0 | 1 | 5 | 8) | ('Y', 0 | 1) => 14,
                ('O', 3 | 6 | 9) | ('Y', 2) => 10,
                ('O', 4) => 3,
                ('O', 10) => 1,
                _ => 2,
            };
            assert!(firsts.len() >= least, "{letter} {call}: {firsts:?}");
        }
    }
}
