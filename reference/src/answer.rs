//! What a call answers.

use crate::chars::Kinds;

/// The class of an accepted name.
#[derive(Clone, Copy, Debug, PartialEq, Eq)]
pub enum Class {
    GeneralUse,
    Prefecture,
}

impl Class {
    /// The letter used in print: G, P, or - for none.
    pub fn letter(class: Option<Class>) -> char {
        match class {
            Some(Class::GeneralUse) => 'G',
            Some(Class::Prefecture) => 'P',
            None => '-',
        }
    }
}

/// A refusal: its number (1 to 17, 19 or 25) and its place.
#[derive(Clone, Copy, Debug, PartialEq, Eq)]
pub struct Refusal {
    pub number: u8,
    pub place: usize,
}

impl Refusal {
    pub fn at(number: u8, place: usize) -> Refusal {
        Refusal { number, place }
    }

    /// A refusal whose place is always 0.
    pub fn plain(number: u8) -> Refusal {
        Refusal::at(number, 0)
    }
}

/// No name has more labels.
pub const MOST_LABELS: usize = 3;

/// Where the labels of a name stand in its normal form (K7): how many they are, and
/// the start and length of each. What belongs to no label is 0.
#[derive(Clone, Copy, Debug, Default, PartialEq, Eq)]
pub struct LabelPlaces {
    pub count: usize,
    pub starts: [usize; MOST_LABELS],
    pub lengths: [usize; MOST_LABELS],
}

impl LabelPlaces {
    /// The word used in print: the count, then start and length of each label,
    /// parted by commas; or - where all of these are 0.
    pub fn word(&self) -> String {
        let pairs = self.starts.into_iter().zip(self.lengths);
        let numbers = [self.count].into_iter().chain(pairs.flat_map(|(start, length)| [start, length]));
        match *self == LabelPlaces::default() {
            true => "-".to_string(),
            false => numbers.map(|number| number.to_string()).collect::<Vec<_>>().join(","),
        }
    }
}

/// The answer of a call that has a lent buffer. Only that of the whole ASCII form
/// has kinds, and only that of the check has places of labels; both only where
/// the name is accepted.
#[derive(Clone, Debug, PartialEq, Eq)]
pub struct Answer {
    pub number: u8,
    pub place: usize,
    pub class: Option<Class>,
    pub kinds: Kinds,
    pub labels: LabelPlaces,
    pub length: usize,
}

impl From<Refusal> for Answer {
    fn from(refusal: Refusal) -> Answer {
        let Refusal { number, place } = refusal;
        let (kinds, labels) = (Kinds::new(), LabelPlaces::default());
        Answer { number, place, class: None, kinds, labels, length: 0 }
    }
}
