//! One name, one ASCII form (K4): names as typed and in normal form, whose
//! ASCII forms must be the same, and texts that would share the form if they
//! were accepted: the name with encodings typed in place of its labels.

use super::hosts::HostMaker;
use super::random::NameMaker;
use super::{CaseFile, SEED};
use crate::chars::PERIOD;
use crate::edition::Edition;
use crate::name::{self, is_japanese_label, label_form};
use crate::normal::{labels, normal_form};
use crate::random::Random;
use crate::{host, points};

/// Of more Japanese labels than this not every choice is tried.
const FEW: usize = 4;

/// The texts that one gets by typing encodings in place of Japanese labels of a
/// text's normal form: for every choice of these labels where there are few, else
/// for each of them and for all. None where no label is Japanese in the edition.
pub fn stand_ins(text: &[u32], edition: Edition) -> Vec<Vec<u32>> {
    let labels = labels(&normal_form(text));
    let japanese: Vec<usize> =
        (0..labels.len()).filter(|at| is_japanese_label(&labels[*at], edition)).collect();
    let all = (1u64 << japanese.len()) - 1;
    let choices: Vec<u64> = match japanese.len() <= FEW {
        true => (1..=all).collect(),
        false => (0..japanese.len()).map(|at| 1 << at).chain([all]).collect(),
    };
    let typed = |choice: &u64| {
        let mut labels = labels.clone();
        for (_, at) in japanese.iter().enumerate().filter(|(order, _)| choice >> order & 1 == 1) {
            labels[*at] = points(&label_form(&labels[*at], edition).expect("a label that has a form"));
        }
        labels.join(&PERIOD)
    };
    choices.iter().map(typed).collect()
}

/// A name or a host, its normal form and what stands in for it.
fn add_all(file: &mut CaseFile, call: char, lent: usize, text: &[u32]) {
    file.add(call, lent, text);
    file.add(call, lent, &normal_form(text));
    for other in stand_ins(text, Edition::Today) {
        file.add(call, lent, &other);
    }
}

pub fn add(file: &mut CaseFile) {
    let mut random = Random::seeded(SEED ^ 0x4B34);
    let (names, hosts) = (NameMaker::default(), HostMaker::default());
    for _ in 0..120 {
        let text = names.typed_name(&mut random);
        if name::check(&text, Edition::Today).is_ok() {
            add_all(file, 'A', 192, &text);
        }
    }
    for _ in 0..30 {
        let text = hosts.typed_host(&mut random);
        if host::ascii_form(&text).is_ok() {
            add_all(file, 'H', 255, &text);
        }
    }
}
