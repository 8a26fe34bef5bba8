//! What the gate's case file must hold.

use reference::cases::coder::mutants;
use reference::cases::hosts::CALLS;
use reference::cases::numbers_of;
use reference::coder::{is_encodable, RFC};
use reference::edition::Edition;
use reference::{cases, count, grammar, name, normal, probe};
use std::collections::BTreeSet;

#[test]
fn case_file_is_well_formed_and_of_bearable_size() {
    let lines = cases::all_lines();
    assert_eq!(lines, cases::all_lines());
    let answers: Vec<String> = lines.iter().map(|line| probe::answer(line.as_bytes())).collect();
    assert!(lines.iter().all(|line| line.len() <= probe::LONGEST_LINE));
    let malformed: Vec<&String> =
        lines.iter().zip(&answers).filter(|(_, answer)| *answer == "?").map(|(line, _)| line).collect();
    assert_eq!(malformed, cases::malformed_lines().iter().collect::<Vec<_>>());
    let size = |lines: &[String]| lines.iter().map(|line| line.len() + 1).sum::<usize>();
    assert!(size(&lines) < 4_400_000);
    assert!(size(&answers) < 2_400_000);
}

#[test]
fn each_number_comes_up_a_hundred_times() {
    let lines = cases::well_formed_lines();
    for (number, times) in counted(&lines).into_iter().enumerate() {
        let asked = if [18, 20, 21, 22, 23, 24].contains(&number) { times == 0 } else { times >= 100 };
        assert!(asked, "{number} comes up {times} times");
    }
}

/// How often each number comes up in the answers to some lines.
fn counted(lines: &[String]) -> [usize; count::NUMBERS] {
    let answers: Vec<String> = lines.iter().map(|line| probe::answer(line.as_bytes())).collect();
    count::count(lines.iter().map(String::as_str).zip(answers.iter().map(String::as_str)))
}

/// Every number that a call can answer comes up with each call that names its
/// table itself, and with each form of the judge. 14 comes up with none.
#[test]
fn each_number_comes_up_with_each_call_of_its_own() {
    let lines = cases::well_formed_lines();
    for call in "calJj".chars() {
        let of_call: Vec<String> = lines.iter().filter(|line| line.starts_with(call)).cloned().collect();
        let counts = counted(&of_call);
        let lent = "ca".contains(call);
        for (number, times) in counts.into_iter().enumerate() {
            let least = match number {
                1 if !lent => 0,
                0 | 1 | 4 => 20,
                2 | 3 => 1,
                5..=12 | 17 => 8,
                25 => 40,
                _ => 0,
            };
            assert!(times >= least && (times > 0) == (least > 0), "{call}: {number} comes up {times} times");
        }
    }
}

/// Every number of hosts comes up with each call on a host. 8 and 14 come up
/// with none, nor does 1 where no buffer is lent.
#[test]
fn each_number_of_hosts_comes_up_with_each_call_on_a_host() {
    let lines = cases::well_formed_lines();
    for (call, _lent) in CALLS {
        let of_call: Vec<String> = lines.iter().filter(|line| line.starts_with(call)).cloned().collect();
        for (number, times) in counted(&of_call).into_iter().enumerate() {
            let least = match number {
                1 if !"Hh".contains(call) => 0,
                0 => 50,
                2 => 1,
                3 => 3,
                1 | 4 | 5 | 6 | 7 | 9 | 10 | 17 | 19 => 8,
                _ => 0,
            };
            assert!(times >= least && (times > 0) == (least > 0), "{call}: {number} comes up {times} times");
        }
    }
}

/// Each refusal that names a label comes up in the first, a middle and the last
/// label, with each call on a host.
#[test]
fn refusals_of_hosts_come_up_in_first_middle_and_last_labels() {
    let lines = cases::well_formed_lines();
    for (call, _lent) in CALLS {
        let mut seen = BTreeSet::new();
        for line in lines.iter().filter(|line| line.starts_with(call)) {
            let answer = probe::answer(line.as_bytes());
            let words: Vec<usize> = answer.split(' ').take(2).map(|word| word.parse().unwrap()).collect();
            let last = normal::labels(&normal::normal_form(&numbers_of(line))).len() - 1;
            let which = match words[1] {
                0 => "first",
                at if at == last => "last",
                _ => "middle",
            };
            seen.insert((words[0], which));
        }
        for number in [6, 7, 9, 17, 10] {
            for which in ["first", "middle", "last"] {
                assert!(seen.contains(&(number, which)), "{call}: {number} in the {which} label");
            }
        }
    }
}

/// The ASCII forms of the cases have every length about the longest, by ASCII
/// labels, by encoded ones and by both. Those of hosts that are too long come
/// to over a thousand octets.
#[test]
fn the_forms_of_hosts_come_up_to_the_longest_and_past_it() {
    let lines = cases::well_formed_lines();
    let mut seen = BTreeSet::new();
    for line in lines.iter().filter(|line| line.starts_with('H')) {
        let labels = normal::labels(&normal::normal_form(&numbers_of(line)));
        if labels.iter().all(|label| grammar::is_host_label(label)) {
            let japanese =
                labels.iter().filter(|label| name::is_japanese_label(label, Edition::Today)).count();
            let mixed = japanese > 0 && japanese < labels.len();
            seen.insert((grammar::host_octets(&labels), japanese > 0, mixed));
        }
    }
    for octets in [252, 253, 254, 255] {
        for kind in [(false, false), (true, false), (true, true)] {
            assert!(seen.contains(&(octets, kind.0, kind.1)), "{octets} octets, {kind:?}");
        }
    }
    assert!(seen.iter().any(|(octets, ..)| *octets > 1000));
}

/// Each way to answer for one label and for what is asked of every text first.
#[test]
fn labels_and_texts_of_every_kind_come_up() {
    let lines = cases::well_formed_lines();
    let often = |call: char, wanted: &[(usize, &str)], times: usize| {
        let of_call = lines.iter().filter(|line| line.starts_with(call));
        let answers: Vec<String> = of_call.map(|line| probe::answer(line.as_bytes())).collect();
        let words = answers.iter().map(|answer| answer.split(' ').collect::<Vec<_>>());
        let fits = |words: &Vec<&str>| wanted.iter().all(|(at, word)| words[*at] == *word);
        let found = words.filter(fits).count();
        assert!(found >= times, "{call}: {wanted:?} {found} times");
    };
    for (number, times) in [("0", 50), ("1", 10), ("13", 20), ("14", 20)] {
        often('X', &[(0, number)], times);
    }
    for (number, times) in [("1", 10), ("2", 1), ("3", 5)] {
        often('R', &[(0, number), (2, "0"), (3, "0"), (4, "0")], times);
    }
    often('R', &[(0, "0"), (3, "0"), (4, "0")], 30);
    often('R', &[(0, "0"), (3, "1"), (4, "0")], 5);
    often('R', &[(0, "0"), (3, "1"), (4, "2")], 10);
}

#[test]
fn both_classes_and_every_call_come_up_often() {
    let lines = cases::well_formed_lines();
    for (calls, times) in [("NCAESDLBM", 500), ("casljJPTUFWQHhGgVvXRZzwo", 200), ("K", 50)] {
        for call in calls.chars() {
            assert!(lines.iter().filter(|line| line.starts_with(call)).count() > times, "{call}");
        }
    }
    for class in ["0 0 G", "0 0 P"] {
        let answers = lines.iter().map(|line| probe::answer(line.as_bytes()));
        assert!(answers.filter(|answer| answer.starts_with(class)).count() > 500);
    }
}

#[test]
fn many_texts_may_become_a_name_and_many_may_not() {
    let mut lines = cases::well_formed_lines();
    lines.retain(|line| line.starts_with("M "));
    let answers: Vec<String> = lines.iter().map(|line| probe::answer(line.as_bytes())).collect();
    for end in [" 111", " 000"] {
        assert!(answers.iter().filter(|answer| answer.ends_with(end)).count() > 200, "{end}");
    }
    // Some are lost at once, some only after the longest label.
    for begun in ["10", "110", "11110", "1111111110", &("1".repeat(64) + "0")] {
        assert!(answers.iter().any(|answer| answer.starts_with(begun)), "{begun}");
    }
    // A case stands for every beginning of its text. Only the empty one is there besides.
    let begins = |line: &&String| lines.iter().any(|other| other.starts_with(&format!("{line} ")));
    assert_eq!(lines.iter().filter(begins).collect::<Vec<_>>(), ["M 0"]);
    assert!(lines.iter().all(|line| line.split(' ').count() <= 302));
}

#[test]
fn each_bent_parameter_is_noticed_by_coder_and_decoder() {
    let lines = cases::well_formed_lines();
    let labels: Vec<Vec<u32>> = lines
        .iter()
        .filter(|line| line.starts_with("E 63 "))
        .map(|line| numbers_of(line))
        .filter(|label: &Vec<u32>| is_encodable(label) && RFC.encode_any(label).len() <= 59)
        .collect();
    for (name, bent) in mutants() {
        let notices = |label: &&Vec<u32>| {
            let right = RFC.encode_any(label);
            bent.encode_any(label) != right && bent.decode_any(&right).as_ref() != Some(*label)
        };
        let noticing = labels.iter().filter(notices).count();
        assert!(noticing >= 5, "{name} is noticed by {noticing} labels");
    }
}

#[test]
fn counting_knows_numbers_from_octets_and_yes_or_no() {
    let answered = [
        ("S 0", "0"),
        ("M 0", "1 111"),
        ("B 0", ""),
        ("C 256 20", "4 0 - - 0"),
        ("N 256 41 ff76 ff9e", "0 0 2 61 30ac"),
        ("A 192 20", "4 0 - - 0"),
        ("B 0 a", "2d 9 31 36 9 30 9 2d 9 2d 9 2d a"),
        ("B 0", "61 9 30 9 30 9 47 9 61 9 48 a 62 9 38 9 30 9 2d 9 2d 9 2d a"),
        ("W 256", "1 13 2d 9 31 36 9 30 9 2d 9 2d 9 2d a"),
        ("W 255", "0 0"),
        ("P 1 61", "0 0"),
        ("U 1 61", "1 1 61"),
        ("F 0", "- 0 0 0 0 0"),
        ("T 1 61", "01"),
        ("Q 0 0 0 0 3 0 1 2d", "7 1 1 1 0 1- 7 1 7 1 0000 10"),
        ("H 255 61", "5 0 0"),
        ("g 0 61", "5 0 1 61"),
        ("V 0", "2 0 0"),
        ("X 63 3042 41", "13 0 0"),
        ("R 256 20", "0 0 1 1 0 20"),
        ("C0 256", "25 0 - - 0"),
        ("L9 0 61", "25 0 - - 1 61"),
        ("C01 256", "?"),
        ("W1 256", "?"),
        ("B2 0", "?"),
    ];
    let counts = count::count(answered.into_iter());
    assert_eq!((counts[0], counts[1], counts[4], counts[8], counts[16]), (3, 0, 2, 1, 2));
    assert_eq!((counts[2], counts[5], counts[7], counts[13]), (1, 2, 1, 1));
    assert_eq!((counts[25], counts.iter().sum::<usize>()), (2, 15));
}

/// What a case of the smaller calls is to show.
#[test]
fn the_smaller_calls_say_yes_and_no() {
    let lines = cases::well_formed_lines();
    let often = |call: char, begun: &str, times: usize| {
        let of_call = lines.iter().filter(|line| line.starts_with(call));
        let answers = of_call.map(|line| probe::answer(line.as_bytes()));
        let found = answers.filter(|answer| answer.starts_with(begun)).count();
        assert!(found >= times, "{call}: {begun} {found} times");
    };
    for (call, begun, times) in [
        ('T', "1", 20),
        ('T', "0", 100),
        ('U', "1 ", 100),
        ('U', "0 0", 100),
        ('F', "- ", 100),
        ('F', "1 ", 10),
        ('W', "1 ", 100),
        ('W', "0 0", 20),
        ('s', "1", 50),
        ('s', "0", 50),
    ] {
        often(call, begun, times);
    }
    let ids = lines.iter().filter(|line| line.starts_with('F'));
    assert!(ids.filter(|line| probe::answer(line.as_bytes()).ends_with('1')).count() > 50);
}

/// Every number of a label comes up often, with a place that is not 0 too, and
/// so does either answer of every flag. 0 has the place 0 always.
#[test]
fn the_labels_of_the_cases_are_of_every_kind() {
    let lines = cases::well_formed_lines();
    let labels = lines.iter().filter(|line| line.starts_with('Q'));
    let answers: Vec<String> = labels.map(|line| probe::answer(line.as_bytes())).collect();
    let words: Vec<Vec<&str>> = answers.iter().map(|answer| answer.split(' ').collect()).collect();
    for number in ["0", "7", "8", "9", "17", "10"] {
        let of_number: Vec<&Vec<&str>> = words.iter().filter(|w| w[0] == number).collect();
        let placed = of_number.iter().filter(|w| w[1] != "0").count();
        assert!(of_number.len() > 100 && if number == "0" { placed == 0 } else { placed > 20 }, "{number}");
    }
    for japanese in ["0", "1"] {
        assert!(words.iter().filter(|w| w[4] == japanese).count() > 200);
    }
    // A label that holds only what a label may is Japanese where it has a kind; of any other no kind is told.
    let (fit, unfit): (Vec<_>, Vec<_>) = words.iter().partition(|w| w[5].starts_with('1'));
    assert!(fit.iter().all(|w| (w[4] == "1") == (w[5] != "1-")));
    assert!(unfit.len() > 200 && unfit.iter().all(|w| w[5] == "0-"));
    // A label is answered as what it is. An ASCII one that is taken for Japanese has no 8, and no middle dot for 10;
    // a Japanese one that is taken for ASCII has no 10.
    for (at, own, wrong) in [(6, "1", "0 7 9 17"), (8, "0", "0 7 8 9 17")] {
        assert!(words.iter().filter(|w| w[4] == own).all(|w| w[at..at + 2] == w[..2]));
        let others: Vec<&str> = words.iter().filter(|w| w[4] != own).map(|w| w[at]).collect();
        assert_eq!(others.iter().copied().collect::<BTreeSet<_>>(), wrong.split(' ').collect());
        for number in wrong.split(' ') {
            assert!(others.iter().filter(|other| **other == number).count() >= 10, "{number}");
        }
    }
    let endings: BTreeSet<&str> = words.iter().map(|w| w[10]).collect();
    assert_eq!(endings, ["0000", "0001", "0011", "0100", "0101", "1100"].into());
    let characters: BTreeSet<&str> = words.iter().flat_map(|w| &w[11..]).copied().collect();
    assert_eq!(characters, ["00", "10", "11"].into());
    // The largest number, as where to begin, as the least length and as a place.
    let largest = usize::MAX.to_string();
    assert!(words.iter().any(|w| w[1] == largest));
    assert!(words.iter().any(|w| w[2] == largest));
    assert!(lines.iter().any(|line| line.starts_with("Q 0 0 0 ffffffff ffffffff ")));
}

/// LEN changes what is said of a label as Japanese, and nothing else. With 0
/// such a label never gets 17; with any other number it gets it before 10.
#[test]
fn the_pair_is_asked_of_every_label_or_of_ascii_labels_alone() {
    let lines = cases::well_formed_lines();
    let mut changed = BTreeSet::new();
    for line in lines.iter().filter(|line| line.starts_with("Q ")) {
        let (lent, numbers) = line[2..].split_once(' ').unwrap();
        let [alone, every] = ["0", "1"].map(|lent| probe::answer(format!("Q {lent} {numbers}").as_bytes()));
        assert_eq!(probe::answer(line.as_bytes()), if lent == "0" { &alone[..] } else { &every[..] });
        let [alone, every] = [&alone, &every].map(|answer| answer.split(' ').collect::<Vec<_>>());
        assert!(alone[6] != "17" && (alone[4] == "0" || alone[0] != "17"), "{line}");
        assert_eq!((&alone[2..6], &alone[8..]), (&every[2..6], &every[8..]), "{line}");
        if alone[6] != every[6] {
            assert_eq!(every[6], "17", "{line}");
            changed.insert((lent == "0", alone[4] == "1", alone[6].to_string()));
        }
    }
    // Of either LEN: Japanese labels with 0 or 10 without it, and ASCII ones, which 10 is not asked of.
    let seen = |lent| [(true, "0"), (true, "10"), (false, "0")].map(|(own, no)| (lent, own, no.to_string()));
    assert_eq!(changed, seen(true).into_iter().chain(seen(false)).collect());
}

/// Every kind of character, each answer of every flag, and every composition.
#[test]
fn the_characters_of_the_cases_are_of_every_kind() {
    let lines = cases::well_formed_lines();
    let answers: Vec<String> = lines
        .iter()
        .filter(|line| line.starts_with('K'))
        .map(|line| probe::answer(line.as_bytes()))
        .collect();
    let words: Vec<&str> = answers.iter().flat_map(|answer| answer.split_whitespace()).collect();
    let kinds: BTreeSet<&str> = words.iter().step_by(3).copied().collect();
    let unfit = "000--K 000--L 000--M 000--O 000--S 000--D 000--H";
    let fit = "001HHO 001KKO 001JJO 001SSO 010--H 110--D 110--L";
    assert_eq!(kinds, unfit.split(' ').chain(fit.split(' ')).collect());
    let joined: BTreeSet<&str> = words.iter().skip(2).step_by(3).copied().collect();
    assert_eq!(joined.len(), 1 + normal::compositions().len());
}
