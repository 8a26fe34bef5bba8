//! The editions of the rules (K12). Renewals are judged by the rules of their
//! day. An edition says which signs are Japanese characters and which prefecture
//! labels there are; all else is the same in each.

use crate::chars::{EARLY_SIGN, SIGNS};
use crate::name::{japanese_prefectures, latin_prefectures};

#[derive(Clone, Copy, Debug, PartialEq, Eq, PartialOrd, Ord, Hash)]
pub enum Edition {
    /// 1, of 10 July 2003.
    Of2003,
    /// 2, of 30 August 2005.
    Of2005,
    /// 3, of 16 July 2012.
    Of2012,
    /// 4, today's.
    Today,
}

/// All editions, in the order of their numbers.
pub const EDITIONS: [Edition; 4] = [Edition::Of2003, Edition::Of2005, Edition::Of2012, Edition::Today];

impl Edition {
    /// The edition of a number, or none where it has none.
    pub fn numbered(number: u32) -> Option<Edition> {
        EDITIONS.into_iter().find(|edition| edition.number() == number)
    }

    /// The same for the calls below the name: a number without an edition is taken
    /// for today's.
    pub fn numbered_or_today(number: u32) -> Edition {
        Edition::numbered(number).unwrap_or(Edition::Today)
    }

    pub fn number(self) -> u32 {
        self.order() as u32 + 1
    }

    /// From 0, for tables with an entry for each edition.
    pub fn order(self) -> usize {
        self as usize
    }

    /// The signs of row 1 that are Japanese characters.
    pub fn signs(self) -> Vec<u32> {
        match self {
            Edition::Of2003 => [&SIGNS[..], &[EARLY_SIGN]].concat(),
            Edition::Of2005 | Edition::Of2012 | Edition::Today => SIGNS.to_vec(),
        }
    }

    /// The prefecture labels. Where there are none, there are no prefecture names.
    pub fn prefectures(self) -> Vec<String> {
        match self {
            Edition::Of2003 | Edition::Of2005 => Vec::new(),
            Edition::Of2012 => latin_prefectures(),
            Edition::Today => [latin_prefectures(), japanese_prefectures()].concat(),
        }
    }
}
