//! The calls that C programs and the browser make, in numbers: an answer is
//! twelve of them, the live check's state 258. A name in UTF-8 that is none is
//! refused with 16.

use crate::answer::{Answer, Class, LabelPlaces, Refusal};
use crate::calls;
use crate::chars::{Kind, Kinds};
use crate::edition::Edition;
use crate::hope;
use crate::live::{Live, Shown};
use crate::name::LONGEST_TEXT;
use crate::utf8;

/// Number, place, class, kinds, length; then the count of labels, three starts
/// and three lengths.
pub type Numbers = [u32; 12];

fn class_number(class: Option<Class>) -> u32 {
    match class {
        None => 0,
        Some(Class::GeneralUse) => 1,
        Some(Class::Prefecture) => 2,
    }
}

fn kinds_number(kinds: &Kinds) -> u32 {
    let bits = [(Kind::Hiragana, 1), (Kind::Katakana, 2), (Kind::Kanji, 4), (Kind::Sign, 8)];
    bits.into_iter().filter(|(kind, _)| kinds.contains(kind)).map(|(_, bit)| bit).sum()
}

fn numbers(answer: &Answer) -> Numbers {
    let LabelPlaces { count, starts: [a, b, c], lengths: [d, e, f] } = answer.labels;
    let place_on = [answer.place as u32, class_number(answer.class), kinds_number(&answer.kinds)];
    let [place, class, kinds] = place_on;
    let [length, count, a, b, c, d, e, f] =
        [answer.length, count, a, b, c, d, e, f].map(|entry| entry as u32);
    [u32::from(answer.number), place, class, kinds, length, count, a, b, c, d, e, f]
}

pub fn check(edition: u32, text: &[u32], form: &mut [u32]) -> Numbers {
    numbers(&calls::check(text, edition, form))
}

pub fn to_ascii(edition: u32, text: &[u32], ascii: &mut [u8]) -> Numbers {
    numbers(&calls::ascii_form(text, edition, ascii))
}

pub fn host_to_ascii(text: &[u32], ascii: &mut [u8]) -> Numbers {
    numbers(&calls::host_form(text, ascii))
}

pub fn encode(label: &[u32], ascii: &mut [u8]) -> Numbers {
    numbers(&calls::encode_label(label, ascii))
}

pub fn decode(ascii: &[u8], label: &mut [u32]) -> Numbers {
    numbers(&calls::decode_label(ascii, label))
}

/// What a call says of the code points of UTF-8.
pub fn of_utf8(octets: &[u8], call: impl FnOnce(&[u32]) -> Numbers) -> Numbers {
    match utf8::read(octets) {
        Some(text) => call(&text),
        None => numbers(&Refusal::plain(16).into()),
    }
}

/// A look's answer: the kinds are not told.
pub fn looked(shown: &Shown) -> Numbers {
    let Shown { number, place, class, labels, length, .. } = *shown;
    numbers(&Answer { number, place, class, kinds: Kinds::new(), labels, length })
}

pub fn is_edition(number: u32) -> bool {
    (1..=4).contains(&number)
}

pub fn may_become(edition: u32, text: &[u32]) -> bool {
    Edition::numbered(edition).is_some_and(|edition| hope::may_become(text, edition))
}

/// The state that code points lead to: the first 256 of them, how many there
/// are, 257 for more than 256, and the edition.
pub fn state(edition: u32, text: &[u32]) -> [u32; LONGEST_TEXT + 2] {
    let mut numbers = [0; LONGEST_TEXT + 2];
    let held = text.len().min(LONGEST_TEXT);
    numbers[..held].copy_from_slice(&text[..held]);
    numbers[LONGEST_TEXT] = text.len().min(LONGEST_TEXT + 1) as u32;
    numbers[LONGEST_TEXT + 1] = edition;
    numbers
}

/// The live check after these code points.
pub fn typed(edition: u32, text: &[u32]) -> Live {
    let mut live = Live::fresh(edition);
    text.iter().for_each(|code| live.step(*code));
    live
}
