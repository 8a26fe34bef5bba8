//! Two routes to the same answer, held against each other.

use reference::answer::{Class, LabelPlaces, Refusal};
use reference::cases::editions::sprinkled;
use reference::cases::hosts::HostMaker;
use reference::cases::random::{accepted_lines, any_label, NameMaker};
use reference::edition::{Edition, EDITIONS};
use reference::live::Live;
use reference::name::Formed;
use reference::random::Random;
use reference::{cases, chars, coder, grammar, hope, host, name, normal, utf8};

/// The numbers of every case of the calls given.
fn cases_of(calls: &str) -> Vec<Vec<u32>> {
    let lines = cases::well_formed_lines();
    let chosen = lines.iter().filter(|line| calls.contains(&line[..1]));
    chosen.map(|line| cases::numbers_of(line)).collect()
}

/// Whether a label is spelled in ASCII with hyphens in its third and fourth
/// places (K3).
fn pretends(label: &[u32]) -> bool {
    let letters = label.iter().map(|code| char::from_u32(*code).filter(char::is_ascii));
    let spelled: Option<String> = letters.collect();
    spelled.is_some_and(|spelled| spelled.get(2..4) == Some("--"))
}

/// The second reader by the numbered rules: none of 7 to 10 applies. 17, which
/// it does not know, hides none of them: only 10 comes after it, and no label
/// has both, since the one is of ASCII labels and the other of Japanese ones.
fn read_by_rules(label: &[u32], edition: Edition) -> bool {
    let fits = |code: &u32| chars::is_ascii_set(*code) || chars::is_japanese(*code, edition);
    let numbered = |no: Refusal| (7..=10).contains(&no.number);
    !label.is_empty() && label.iter().all(fits) && !name::check_leftmost(label, edition).is_err_and(numbered)
}

/// Three readers agree on a label, in each edition. Of those that they take, the
/// rules refuse the ones that pretend, with 17. The second reader is today's.
fn assert_readers_agree(label: &[u32]) {
    for edition in EDITIONS {
        let answer = grammar::reads(label, edition);
        assert_eq!(answer, grammar::is_label(label, edition), "{edition:?} {label:x?}");
        assert_eq!(answer, read_by_rules(label, edition), "{edition:?} {label:x?}");
        let refused = name::check_leftmost(label, edition) == Err(Refusal::plain(17));
        if answer {
            assert_eq!(refused, pretends(label), "{edition:?} {label:x?}");
        }
    }
    assert_eq!(grammar::second_reader(label), grammar::reads(label, Edition::Today), "{label:x?}");
}

#[test]
fn three_readers_of_labels_agree_on_the_cases() {
    for text in cases_of("SNCAL") {
        assert_readers_agree(&text);
        for label in normal::labels(&normal::normal_form(&text)) {
            assert_readers_agree(&label);
        }
    }
}

/// All labels of up to six characters over one character of each kind, and 3003.
#[test]
fn three_readers_of_labels_agree_on_all_short_labels() {
    let kinds = [0x61, 0x2D, 0x30FB, 0x30FC, 0x3042, 0x3003, 0x20];
    let mut labels = vec![vec![]];
    for _ in 0..7 {
        labels.iter().for_each(|label: &Vec<u32>| assert_readers_agree(label));
        labels = labels.iter().flat_map(|label| kinds.map(|kind| [&label[..], &[kind]].concat())).collect();
    }
}

/// The check accepts what the grammar derives, as the same class, but for the
/// names whose leftmost label pretends to be encoded. So it is in each edition.
#[test]
fn rules_accept_what_the_grammar_derives_and_does_not_pretend() {
    let mut random = Random::seeded(3);
    let maker = NameMaker::default();
    let mut texts = cases_of("NCAL");
    for _ in 0..20_000 {
        let typed = maker.typed_name(&mut random);
        texts.push(sprinkled(&typed, &mut random));
        texts.push(typed);
    }
    texts.retain(|text| name::check_length(text).is_ok());
    for edition in EDITIONS {
        let (mut accepted, mut pretending) = (0, 0);
        for text in &texts {
            let normal = normal::normal_form(text);
            let derived = grammar::class_of(&normal, edition);
            let kept = derived.filter(|_| !pretends(&normal::labels(&normal)[0]));
            let class = name::check(text, edition).ok().map(|name| name.class);
            assert_eq!(class, kept, "{edition:?} {text:x?}");
            accepted += usize::from(kept.is_some());
            pretending += usize::from(derived != kept);
        }
        assert!(accepted > 10_000 && pretending > 300, "{accepted} accepted, {pretending} pretending");
    }
}

/// After a whole label and a period a text may become a name where the second
/// label begins "jp" or a prefecture label, and ".jp" makes it one where that
/// label is a prefecture label.
#[test]
fn labels_that_end_a_name_are_those_of_the_grammar() {
    let is_plain = |label: &&[u32]| !label.contains(&chars::PERIOD) && normal::normal_form(label) == *label;
    let cases = cases_of("Q");
    for label in cases.iter().map(|numbers| &numbers[6..]).filter(is_plain) {
        let text = [&reference::points("abc."), label].concat();
        let whole = [&text, &reference::points(".jp")[..]].concat();
        for edition in EDITIONS {
            let begins = name::begins_jp(label) || name::begins_prefecture_label(label, edition);
            assert_eq!(hope::may_become(&text, edition), begins, "{label:x?}");
            assert_eq!(grammar::class_of(&text, edition).is_some(), name::is_jp(label), "{label:x?}");
            let is_prefecture = name::is_prefecture_label(label, edition);
            assert_eq!(grammar::class_of(&whole, edition).is_some(), is_prefecture, "{label:x?}");
        }
    }
}

#[test]
fn normal_form_is_no_longer_and_stays_itself() {
    for text in cases_of("NCAL") {
        let normal = normal::normal_form(&text);
        assert!(normal.len() <= text.len());
        assert_eq!(normal::normal_form(&normal), normal);
    }
}

#[test]
fn respelled_names_have_one_normal_form() {
    let mut random = Random::seeded(4);
    let maker = NameMaker::default();
    for _ in 0..5_000 {
        let name = maker.normal_name(&mut random);
        let typed = maker.respell(&name, &mut random);
        assert_eq!(normal::normal_form(&typed), name);
    }
}

#[test]
fn two_coders_agree_and_the_decoder_goes_back() {
    let mut random = Random::seeded(5);
    let mut labels = cases_of("E");
    labels.extend((0..20_000).map(|_| any_label(&mut random)));
    for label in labels.iter().filter(|label| coder::is_encodable(label)) {
        let tail = coder::RFC.encode_any(label);
        assert_eq!(tail, coder::encode_by_insertion(label));
        assert_eq!(coder::RFC.decode_any(&tail).as_ref(), Some(label));
        if let Ok(encoded) = coder::encode(label) {
            assert_eq!(coder::decode(encoded.as_bytes()).as_ref(), Ok(label));
        }
    }
}

#[test]
fn live_check_shows_the_check_of_every_beginning() {
    let mut random = Random::seeded(6);
    let maker = NameMaker::default();
    for round in 0..300 {
        let mut live = Live::fresh(Edition::Today.number());
        let mut text = maker.typed_name(&mut random);
        while round % 50 == 0 && text.len() < 270 {
            text.extend(maker.typed_name(&mut random));
        }
        for end in 0..=text.len() {
            let (read, shown) = (&text[..end], live.look());
            let (number, place, class, labels) = match name::check(read, Edition::Today) {
                Ok(name) => (0, 0, Some(name.class), name.places),
                Err(no) => (no.number, no.place, None, LabelPlaces::default()),
            };
            assert_eq!((shown.number, shown.place), (number, place));
            assert_eq!((shown.class, shown.labels), (class, labels));
            let normal = if end > 256 { Vec::new() } else { normal::normal_form(read) };
            assert_eq!(shown.text[..shown.length], normal);
            assert!(shown.text[shown.length..].iter().all(|code| *code == 0));
            text.get(end).into_iter().for_each(|code| live.step(*code));
        }
    }
}

#[test]
fn utf8_is_read_as_the_standard_library_reads_it() {
    let agree = |bytes: &[u8]| {
        let expected = std::str::from_utf8(bytes).ok().map(reference::points);
        assert_eq!(utf8::read(bytes), expected, "{bytes:x?}");
    };
    for pair in 0..=0xFFFFu16 {
        let [first, second] = pair.to_be_bytes();
        agree(&[first]);
        agree(&[first, second]);
        for tail in [0x00, 0x7F, 0x80, 0xBF, 0xC0] {
            agree(&[first, second, tail]);
            agree(&[first, second, 0x80, tail]);
            agree(&[first, second, tail, 0xBF]);
        }
    }
}

/// Of random accepted names none pretends, and some Japanese ones have the pair.
#[test]
fn samples_do_not_pretend() {
    let samples: Vec<Vec<u32>> = accepted_lines(3_000, 17).map(|line| cases::numbers_of(&line)).collect();
    let leftmost = |text: &Vec<u32>| normal::labels(&normal::normal_form(text)).swap_remove(0);
    assert!(!samples.iter().any(|text| pretends(&leftmost(text))));
    let has_pair = |label: Vec<u32>| label.get(2..4) == Some(&[0x2D, 0x2D]);
    assert!(samples.iter().filter(|text| has_pair(leftmost(text))).count() > 50);
}

/// K2 of document 02: with 2D in place of 2212 a text gets the same answers.
#[test]
fn a_minus_sign_is_judged_as_a_hyphen() {
    let mut random = Random::seeded(2212);
    let maker = NameMaker::default();
    let mut texts = cases_of("NCALM");
    for _ in 0..20_000 {
        let typed = maker.typed_name(&mut random);
        texts.push(maker.edit(&typed, &mut random));
        texts.push(typed);
    }
    texts.retain(|text| text.contains(&0x2212));
    assert!(texts.len() > 2_000, "{} texts", texts.len());
    for text in texts {
        let hyphened: Vec<u32> = text.iter().map(|code| if *code == 0x2212 { 0x2D } else { *code }).collect();
        assert_eq!(normal::placed_normal_form(&text), normal::placed_normal_form(&hyphened), "{text:x?}");
        let judged = |text: &[u32]| {
            name::check(text, Edition::Today).map(|name| name.class).map_err(|no| (no.number, no.place))
        };
        assert_eq!(judged(&text), judged(&hyphened), "{text:x?}");
        assert_eq!(
            hope::may_become(&text, Edition::Today),
            hope::may_become(&hyphened, Edition::Today),
            "{text:x?}"
        );
        let at_4 = judged(&text).err().filter(|no| no.0 == 4).map(|no| text[no.1]);
        assert_ne!(at_4, Some(0x2212), "{text:x?}");
    }
}

/// Random hosts, damaged ones, and the hosts and names of the cases.
fn hosts(count: usize, seed: u64) -> Vec<Vec<u32>> {
    let mut random = Random::seeded(seed);
    let maker = HostMaker::default();
    let mut texts = cases_of("HhGgVvRNCAL");
    for _ in 0..count {
        let typed = maker.typed_host(&mut random);
        texts.push(maker.damaged(&typed, &mut random));
        texts.push(typed);
    }
    texts
}

/// A label is good by the rules of hosts where the grammar of hosts has it.
#[test]
fn rules_of_hosts_accept_the_labels_of_their_grammar() {
    let kinds = [0x61, 0x2D, 0x30FB, 0x30FC, 0x3042, 0x20];
    let fits = |label: &Vec<u32>| {
        !label.is_empty() && label.iter().all(|code| name::may_be_in_label(*code, Edition::Today))
    };
    let agree = |label: &Vec<u32>| {
        let good = fits(label) && name::check_label(label, host::OF_HOSTS, Edition::Today, 0).is_ok();
        assert_eq!(good, grammar::is_host_label(label), "{label:x?}");
    };
    let mut labels = vec![vec![]];
    for _ in 0..7 {
        labels.iter().for_each(agree);
        labels = labels.iter().flat_map(|label| kinds.map(|kind| [&label[..], &[kind]].concat())).collect();
    }
    for text in hosts(5_000, 8) {
        normal::labels(&normal::normal_form(&text)).iter().for_each(agree);
    }
}

/// A text is accepted as a host where it has at most 256 code points and the
/// grammar of hosts derives its normal form. The form then has the octets that
/// the grammar counts, and its labels, decoded, are those of the normal form.
#[test]
fn rules_accept_the_hosts_that_the_grammar_derives() {
    let (mut accepted, mut too_long) = (0, 0);
    for text in hosts(20_000, 9) {
        let normal = normal::normal_form(&text);
        let form = host::ascii_form(&text);
        assert_eq!(form.is_ok(), text.len() <= 256 && grammar::is_host(&normal), "{text:x?}");
        too_long += usize::from(form == Err(Refusal::plain(19)));
        let Ok(form) = form else { continue };
        let labels = normal::labels(&normal);
        assert_eq!(form.len(), grammar::host_octets(&labels));
        let back = form.split('.').map(|part| match part.strip_prefix("xn--") {
            Some(_) => coder::decode(part.as_bytes()).unwrap(),
            None => reference::points(part),
        });
        assert_eq!(back.collect::<Vec<_>>(), labels);
        accepted += 1;
    }
    assert!(accepted > 15_000 && too_long > 200, "{accepted} accepted, {too_long} too long");
}

/// The form of one label, whatever it holds, is the one that names and hosts
/// have of it, and the coder's where it has a form.
#[test]
fn the_form_of_one_label_is_that_of_names_and_of_the_coder() {
    for label in hosts(2_000, 11).iter().flat_map(|text| normal::labels(&normal::normal_form(text))) {
        if label.iter().all(|code| name::may_be_in_label(*code, Edition::Today)) && label.len() <= 63 {
            assert_eq!(coder::ascii_label(&label), name::label_form(&label, Edition::Today), "{label:x?}");
        }
    }
    for label in cases_of("EX") {
        match label.iter().any(|code| *code >= 0x80) {
            true => assert_eq!(coder::ascii_label(&label), coder::encode(&label)),
            false => assert_eq!(coder::ascii_label(&label).is_ok(), label.len() <= 63),
        }
    }
}

/// A prefecture name is a host with the same ASCII form, but for the pair in a
/// Japanese label; a general-use name has two labels and is none.
#[test]
fn prefecture_names_are_hosts() {
    let (mut same, mut paired) = (0, 0);
    for line in accepted_lines(6_000, 23) {
        let text = cases::numbers_of(&line);
        let Formed { form, class, .. } = name::ascii_form(&text, Edition::Today).unwrap();
        let leftmost = normal::labels(&normal::normal_form(&text)).swap_remove(0);
        let expected = match class {
            Class::GeneralUse => Err(Refusal::plain(5)),
            Class::Prefecture if leftmost.get(2..4) == Some(&[0x2D, 0x2D]) => Err(Refusal::plain(17)),
            Class::Prefecture => Ok(form),
        };
        same += usize::from(expected.is_ok());
        paired += usize::from(expected == Err(Refusal::plain(17)));
        assert_eq!(host::ascii_form(&text), expected, "{text:x?}");
    }
    assert!(same > 1_000 && paired > 20, "{same} the same, {paired} with the pair");
}

/// A look at a host shows the number and place of the rules of hosts, no class, no
/// places of labels, and the text that a look at a name shows.
#[test]
fn live_check_shows_the_rules_of_hosts_on_every_beginning() {
    let mut random = Random::seeded(12);
    let maker = HostMaker::default();
    for round in 0..300 {
        let mut live = Live::fresh(Edition::Today.number());
        let mut text = maker.typed_host(&mut random);
        while round % 30 == 0 && text.len() < 270 {
            text.push(chars::PERIOD);
            text.extend(maker.typed_host(&mut random));
        }
        for end in 0..=text.len() {
            let (shown, as_name) = (live.look_at_host(), live.look());
            let judged = host::ascii_form(&text[..end]).err().map_or((0, 0), |no| (no.number, no.place));
            assert_eq!((shown.number, shown.place, shown.class), (judged.0, judged.1, None));
            assert_eq!(shown.labels, LabelPlaces::default());
            assert_eq!((shown.length, shown.text), (as_name.length, as_name.text));
            text.get(end).into_iter().for_each(|code| live.step(*code));
        }
    }
}

/// What is asked first is asked alike of names and of hosts, and is what the
/// normal form's call and refusal 4 say.
#[test]
fn names_and_hosts_ask_the_same_first() {
    for text in hosts(2_000, 13) {
        let early = |no: &Refusal| no.number <= 4;
        let of_host = host::ascii_form(&text).err().filter(early);
        assert_eq!(of_host, name::check(&text, Edition::Today).err().filter(early), "{text:x?}");
        let first = name::check_length(&text).err();
        let unfit = name::unfit_place(&text, Edition::Today).map(|place| Refusal::at(4, place));
        assert_eq!(of_host, first.or(unfit), "{text:x?}");
        let normal = normal::normal_form(&text);
        assert_eq!(unfit.is_some(), name::first_unfit(&normal, Edition::Today) < normal.len(), "{text:x?}");
    }
}
