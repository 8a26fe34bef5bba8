//! One name, one ASCII form (document 02, K4): of two accepted texts the ASCII
//! forms are equal where the normal forms are, and nowhere else. So it is within each
//! edition (K12), and hosts likewise.

use reference::answer::{Class, Refusal};
use reference::cases::duplicates::stand_ins;
use reference::cases::editions::sprinkled;
use reference::cases::hosts::HostMaker;
use reference::cases::random::NameMaker;
use reference::edition::{Edition, EDITIONS};
use reference::random::Random;
use reference::{cases, grammar, host, name, normal, points};
use std::collections::HashMap;

/// The forms that were met, each with the text that it was first met with, and
/// the normal forms likewise.
#[derive(Default)]
struct Register {
    text_of: HashMap<String, Vec<u32>>,
    form_of: HashMap<Vec<u32>, String>,
    /// How often a form was met with another text than the first.
    other_texts: usize,
}

impl Register {
    fn enter(&mut self, form: &str, text: &[u32]) {
        let normal = normal::normal_form(text);
        let first = self.text_of.entry(form.to_string()).or_insert_with(|| text.to_vec());
        self.other_texts += usize::from(first != text);
        assert_eq!(normal::normal_form(first), normal, "two normal forms for {form}");
        let held = self.form_of.entry(normal).or_insert_with(|| form.to_string());
        assert_eq!(held, form, "two forms for {text:x?}");
    }
}

/// The texts of the cases of these calls, and of a maker two spellings each.
fn texts(calls: &str, made: impl Fn(&mut Random) -> Vec<u32>) -> Vec<Vec<u32>> {
    let mut random = Random::seeded(44);
    let maker = NameMaker::default();
    let lines = cases::well_formed_lines();
    let chosen = lines.iter().filter(|line| calls.contains(&line[..1]));
    let mut texts: Vec<Vec<u32>> = chosen.map(|line| cases::numbers_of(line)).collect();
    for _ in 0..20_000 {
        let text = made(&mut random);
        texts.push(maker.respell(&normal::normal_form(&text), &mut random));
        texts.push(text);
    }
    texts
}

/// A random name as typed, one in four with 3003.
fn typed_or_sprinkled(maker: &NameMaker, random: &mut Random) -> Vec<u32> {
    let typed = maker.typed_name(random);
    match random.once_in(4) {
        true => sprinkled(&typed, random),
        false => typed,
    }
}

#[test]
fn names_have_one_form_each() {
    let maker = NameMaker::default();
    let texts = texts("NCAL", |random| typed_or_sprinkled(&maker, random));
    for (edition, least) in EDITIONS.into_iter().zip([11_000, 9_000, 11_000, 12_000]) {
        let mut register = Register::default();
        for text in &texts {
            if let Ok(formed) = name::ascii_form(text, edition) {
                register.enter(&formed.form, text);
            }
        }
        let met = (register.form_of.len(), register.other_texts);
        assert!(met.0 > least && met.1 > least / 2, "{edition:?}: {met:?}");
    }
}

#[test]
fn hosts_have_one_form_each() {
    let maker = HostMaker::default();
    let mut register = Register::default();
    for text in texts("HhGgVvR", |random| maker.typed_host(random)) {
        if let Ok(form) = host::ascii_form(&text) {
            register.enter(&form, &text);
        }
    }
    let met = (register.form_of.len(), register.other_texts);
    assert!(met.0 > 15_000 && met.1 > 10_000, "{met:?}");
}

/// Only a text with an encoding typed in place of a label could share the form.
/// It is refused: with 17 where the encoding is leftmost, else with 12, which takes a
/// Japanese prefecture label and comes in edition 4 alone.
#[test]
fn nothing_stands_in_for_a_name() {
    let (mut leftmost, mut middle) = ([0; 4], [0; 4]);
    let maker = NameMaker::default();
    let texts = texts("A", |random| typed_or_sprinkled(&maker, random));
    for (text, edition) in texts.iter().flat_map(|text| EDITIONS.map(|edition| (text, edition))) {
        let Ok(accepted) = name::check(text, edition) else { continue };
        for other in stand_ins(text, edition) {
            let kept = normal::labels(&other)[0] == accepted.labels[0];
            let number = if kept { 12 } else { 17 };
            assert_eq!(name::check(&other, edition), Err(Refusal::plain(number)), "{text:x?}");
            leftmost[edition.order()] += usize::from(!kept);
            middle[edition.order()] += usize::from(kept);
        }
    }
    assert!(leftmost.iter().all(|times| *times > 10_000), "{leftmost:?} leftmost");
    assert!(middle[..3] == [0; 3] && middle[3] > 1_000, "{middle:?} in the middle");
}

/// Of a host it is 17 at the first such label, wherever that stands.
#[test]
fn nothing_stands_in_for_a_host() {
    let maker = HostMaker::default();
    let mut later = 0;
    for text in texts("H", |random| maker.typed_host(random)) {
        if host::ascii_form(&text).is_err() {
            continue;
        }
        let labels = normal::labels(&normal::normal_form(&text));
        for other in stand_ins(&text, Edition::Today) {
            let typed = normal::labels(&other);
            let place = (0..labels.len()).find(|at| typed[*at] != labels[*at]).unwrap();
            assert_eq!(host::ascii_form(&other), Err(Refusal::at(17, place)), "{text:x?}");
            later += usize::from(place > 0);
        }
    }
    assert!(later > 10_000, "{later} past the first label");
}

/// Before K3 it was not so: document 004's grammar has both of these names, and
/// the second, of two ASCII labels, is its own ASCII form.
#[test]
fn without_17_two_names_shared_a_form() {
    let (kana, plain) = (points("\u{3042}.jp"), points("xn--l8j.jp"));
    assert_eq!(grammar::class_of(&kana, Edition::Today), Some(Class::GeneralUse));
    assert_eq!(grammar::class_of(&plain, Edition::Today), Some(Class::GeneralUse));
    assert_eq!(name::ascii_form(&kana, Edition::Today).unwrap().form, "xn--l8j.jp");
    assert_eq!(stand_ins(&kana, Edition::Today), [plain.clone()]);
    for label in ["xn--l8j", "jp"] {
        assert_eq!(name::label_form(&points(label), Edition::Today), Ok(label.to_string()));
    }
    assert_eq!(name::ascii_form(&plain, Edition::Today), Err(Refusal::plain(17)));
}
