//! Random labels, names and edits.

use super::{probe_line, CaseFile, SEED};
use crate::chars::{kanji_in_rows, HYPHEN};
use crate::edition::Edition;
use crate::name::{self, japanese_prefectures, latin_prefectures};
use crate::normal::{compositions, replacements};
use crate::points;
use crate::random::Random;
use std::collections::BTreeMap;

/// A scalar value of 80 or more, most often one that people use.
pub fn scalar(random: &mut Random) -> u32 {
    let (first, last) = *random.pick(&[
        (0x80, 0xFF),
        (0x80, 0x24F),
        (0x400, 0x6FF),
        (0x3041, 0x30FE),
        (0x3400, 0x9FFF),
        (0xAC00, 0xD7A3),
        (0xE000, 0xFFFF),
        (0x10000, 0x2FFFF),
        (0x10000, 0x10FFFF),
    ]);
    random.between(first, last) as u32
}

/// A label for the coder: mostly encodable, of few kinds at a time.
pub fn any_label(random: &mut Random) -> Vec<u32> {
    let near = scalar(random);
    let length = match random.once_in(8) {
        true => random.between(1, 63),
        false => random.between(1, 10),
    };
    let one = |random: &mut Random| match random.below(5) {
        0 => ascii_character(random),
        1 => scalar(random),
        2 => 0x3041 + random.below(83) as u32,
        _ => near + random.below(40) as u32 * (near < 0x9000) as u32,
    };
    (0..length).map(|_| one(random)).collect()
}

fn ascii_character(random: &mut Random) -> u32 {
    u32::from(*random.pick(b"abcdefghijklmnopqrstuvwxyz0123456789--"))
}

/// A Japanese character of the normal form.
pub fn japanese_character(random: &mut Random, kanji: &[u32]) -> u32 {
    match random.below(10) {
        0..=2 => random.between(0x3041, 0x3093) as u32,
        3..=5 => random.between(0x30A1, 0x30F6) as u32,
        6 => *random.pick(&crate::chars::SIGNS),
        _ => *random.pick(kanji),
    }
}

/// What makes random names.
pub struct NameMaker {
    kanji: Vec<u32>,
    prefectures: Vec<String>,
    /// For each character, in order, the texts that become it.
    spellings: BTreeMap<u32, Vec<Vec<u32>>>,
}

impl Default for NameMaker {
    fn default() -> NameMaker {
        let mut prefectures = latin_prefectures();
        prefectures.extend(japanese_prefectures());
        let mut spellings = BTreeMap::<u32, Vec<Vec<u32>>>::new();
        for (from, to) in replacements() {
            spellings.entry(*to).or_default().push(vec![*from]);
        }
        for ((base, mark), whole) in compositions() {
            let mut bases = spellings.get(base).cloned().unwrap_or_default();
            bases.push(vec![*base]);
            let marks = [*mark, mark - 0x309B + 0xFF9E];
            let pairs = bases.iter().flat_map(|base| marks.map(|mark| vec![base[0], mark]));
            let pairs: Vec<Vec<u32>> = pairs.collect();
            spellings.entry(*whole).or_default().extend(pairs);
        }
        spellings.values_mut().for_each(|ways| ways.sort());
        NameMaker { kanji: kanji_in_rows(), prefectures, spellings }
    }
}

impl NameMaker {
    pub fn label(&self, random: &mut Random) -> Vec<u32> {
        let japanese = !random.once_in(4);
        let length = match (japanese, random.once_in(12)) {
            (true, true) => random.between(13, 17),
            (true, false) => random.between(1, 9),
            (false, true) => random.between(61, 65),
            (false, false) => random.between(2, 14),
        };
        let character = |random: &mut Random| match japanese && !random.once_in(4) {
            true => japanese_character(random, &self.kanji),
            false => ascii_character(random),
        };
        let mut label: Vec<u32> = (0..length).map(|_| character(random)).collect();
        // Now and then two hyphens side by side, mostly where K3 looks for them.
        let place = *random.pick(&[1, 2, 2, 2, 3]);
        if random.once_in(6) && place + 2 < length {
            label[place..place + 2].fill(HYPHEN);
        }
        label
    }

    /// A name in normal form that is accepted or nearly so.
    pub fn normal_name(&self, random: &mut Random) -> Vec<u32> {
        let mut name = self.label(random);
        if random.once_in(3) {
            name.push(0x2E);
            let prefecture: &String = random.pick(&self.prefectures);
            name.extend(points(prefecture));
        }
        name.extend(points(".jp"));
        name
    }

    /// Spells a normal form some other way that leads back to it.
    pub fn respell(&self, normal: &[u32], random: &mut Random) -> Vec<u32> {
        let often = random.between(1, 6);
        let mut text = Vec::new();
        for code in normal {
            match self.spellings.get(code) {
                Some(ways) if random.once_in(often) => text.extend(random.pick(ways)),
                _ => text.push(*code),
            }
        }
        text
    }

    /// A name as an applicant may type it.
    pub fn typed_name(&self, random: &mut Random) -> Vec<u32> {
        let normal = self.normal_name(random);
        self.respell(&normal, random)
    }

    /// A text with one code point changed, put in, left out or swapped.
    pub fn edit(&self, text: &[u32], random: &mut Random) -> Vec<u32> {
        let mut text = text.to_vec();
        let at = random.below(text.len());
        let other = random.below(text.len());
        let new = self.odd_character(random);
        match random.below(4) {
            0 => text[at] = new,
            1 => text.insert(at, new),
            2 => drop(text.remove(at)),
            _ => text.swap(at, other),
        }
        text
    }

    fn odd_character(&self, random: &mut Random) -> u32 {
        let picked = [
            0x2D, 0x2E, 0x3002, 0xFF0D, 0xFF61, 0x309B, 0x309C, 0xFF9E, 0xFF9F, 0x3099, 0x30FB, 0xFF65,
            0x2212, 0x2213, 0x20, 0x3000, 0x5F, 0x3094, 0x30F7, 0x30FF, 0xD800, 0x110000,
        ];
        match random.below(8) {
            0..=3 => *random.pick(&picked),
            4 => ascii_character(random),
            5 => random.between(0x4E00, 0x9FFF) as u32,
            6 => scalar(random),
            _ => random.draw() as u32,
        }
    }
}

/// Names as typed and their damaged copies.
pub fn add(file: &mut CaseFile) {
    let mut random = Random::seeded(SEED);
    let maker = NameMaker::default();
    for round in 0..600 {
        let typed = maker.typed_name(&mut random);
        let damaged = maker.edit(&typed, &mut random);
        for text in [typed, damaged] {
            file.in_turn(&text);
            file.in_turn(&text);
            file.leftmost(&text);
            if round % 4 == 0 {
                file.add('N', 256, &text);
            }
        }
    }
    long_texts(file, &mut random, &maker);
}

/// Texts made of several names, near the longest length and beyond.
fn long_texts(file: &mut CaseFile, random: &mut Random, maker: &NameMaker) {
    for length in [200, 255, 256, 257, 258, 300] {
        let mut text = Vec::new();
        while text.len() < length {
            text.extend(maker.typed_name(random));
        }
        text.truncate(length);
        file.add('N', 256, &text);
        file.in_turn(&text);
    }
}

/// Probe lines for the whole ASCII form of random accepted names, each in
/// its typed spelling.
pub fn accepted_lines(count: usize, seed: u64) -> impl Iterator<Item = String> {
    let mut random = Random::seeded(seed);
    let maker = NameMaker::default();
    let names = std::iter::from_fn(move || Some(maker.typed_name(&mut random)));
    let accepted = names.filter(|text| name::check(text, Edition::Today).is_ok());
    accepted.take(count).map(|text| probe_line('A', 192, &text))
}
