//! The gate's fixed case file: probe lines, hand-picked and random, the same
//! on every machine.

pub mod characters;
pub mod coder;
pub mod desk;
pub mod duplicates;
pub mod editions;
pub mod forms;
pub mod hope;
pub mod hosts;
pub mod kinds;
pub mod labels;
pub mod lines;
pub mod lists;
pub mod names;
pub mod octets;
pub mod outside;
pub mod own;
pub mod pairs;
pub mod places;
pub mod random;
pub mod scripts;
pub mod search;
pub mod tried;
pub mod wish;

use crate::normal::{labels, normal_form};
use std::collections::HashSet;
use std::fmt::LowerHex;

pub const SEED: u64 = 20141103;

/// Probe lines in order, none of them twice.
#[derive(Default)]
pub struct CaseFile {
    lines: Vec<String>,
    held: HashSet<String>,
    turn: usize,
}

/// One probe line.
pub fn probe_line<T: LowerHex>(call: char, lent: usize, numbers: &[T]) -> String {
    let mut line = format!("{call} {lent}");
    for number in numbers {
        line += &format!(" {number:x}");
    }
    line
}

/// One probe line for a call that takes an edition, any number.
pub fn probe_line_in<T: LowerHex>(call: char, edition: u32, lent: usize, numbers: &[T]) -> String {
    let line = probe_line(call, lent, numbers);
    format!("{call}{edition}{}", &line[1..])
}

/// The numbers of a probe line.
pub fn numbers_of(line: &str) -> Vec<u32> {
    let hex = line.split(' ').skip(2);
    hex.map(|word| u32::from_str_radix(word, 16).expect("a number")).collect()
}

/// The edition that a probe line asks for, or none where it has no number.
pub fn edition_of(line: &str) -> Option<u32> {
    line.split(' ').next().and_then(|word| word.get(1..)?.parse().ok())
}

impl CaseFile {
    pub fn add<T: LowerHex>(&mut self, call: char, lent: usize, numbers: &[T]) {
        self.add_line(probe_line(call, lent, numbers));
    }

    /// A call that takes an edition.
    pub fn add_in<T: LowerHex>(&mut self, call: char, edition: u32, lent: usize, numbers: &[T]) {
        self.add_line(probe_line_in(call, edition, lent, numbers));
    }

    fn add_line(&mut self, line: String) {
        if self.held.insert(line.clone()) {
            self.lines.push(line);
        }
    }

    /// The four calls on a text, each with the room it asks for.
    pub fn text(&mut self, text: &[u32]) {
        self.add('N', 256, text);
        self.name(text);
    }

    /// The three calls that judge a text.
    pub fn name(&mut self, text: &[u32]) {
        self.add('C', 256, text);
        self.add('A', 192, text);
        self.add('L', 0, text);
    }

    /// One of the three calls that judge a text, each in its turn.
    pub fn in_turn(&mut self, text: &[u32]) {
        let (call, lent) = [('C', 256), ('A', 192), ('L', 0)][self.turn % 3];
        self.turn += 1;
        self.add(call, lent, text);
    }

    /// The second reader on the leftmost label of a text's normal form.
    pub fn leftmost(&mut self, text: &[u32]) {
        let leftmost = labels(&normal_form(text)).swap_remove(0);
        self.add('S', 0, &leftmost);
    }

    /// Every call that makes sense of a text.
    pub fn everything(&mut self, text: &[u32]) {
        self.text(text);
        self.leftmost(text);
    }

    /// A label for the coder, and its ASCII letters if it has a form.
    pub fn label(&mut self, label: &[u32]) {
        self.add('E', 63, label);
        if let Ok(encoded) = crate::coder::encode(label) {
            self.add('D', 63, encoded.as_bytes());
        }
    }

    pub fn octets(&mut self, octets: &[u8]) {
        self.add('D', 63, octets);
    }

    /// A batch's whole input.
    pub fn batch(&mut self, input: &[u8]) {
        self.add('B', 0, input);
    }

    pub fn into_lines(self) -> Vec<String> {
        self.lines
    }
}

/// The malformed lines of the case file, in their order.
pub fn malformed_lines() -> Vec<String> {
    [
        editions::malformed_lines(),
        outside::malformed_lines(),
        search::malformed_lines(),
        wish::malformed_lines(),
    ]
    .concat()
}

/// The case file without its malformed lines.
pub fn well_formed_lines() -> Vec<String> {
    let malformed = malformed_lines();
    all_lines().into_iter().filter(|line| !malformed.contains(line)).collect()
}

/// The whole case file.
pub fn all_lines() -> Vec<String> {
    let mut file = CaseFile::default();
    tried::add(&mut file);
    coder::add(&mut file);
    names::add(&mut file);
    pairs::add(&mut file);
    characters::add(&mut file);
    desk::add(&mut file);
    random::add(&mut file);
    hope::add(&mut file);
    own::add(&mut file);
    kinds::add(&mut file);
    lists::add(&mut file);
    octets::add(&mut file);
    labels::add(&mut file);
    hosts::add(&mut file);
    forms::add(&mut file);
    duplicates::add(&mut file);
    scripts::add(&mut file);
    places::add(&mut file);
    editions::add(&mut file);
    outside::add(&mut file);
    search::add(&mut file);
    wish::add(&mut file);
    file.into_lines()
}
