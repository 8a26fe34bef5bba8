//! The characters: ASCII set, period, Japanese characters and their kinds. Which
//! characters are Japanese is asked of an edition (K12).

use crate::edition::{Edition, EDITIONS};
use std::collections::{BTreeSet, HashMap};
use std::sync::OnceLock;

pub const HYPHEN: u32 = 0x2D;
pub const PERIOD: u32 = 0x2E;
pub const MIDDLE_DOT: u32 = 0x30FB;

/// Rows 16 to 84 of JIS X 0208, one line a row (see the script `kanji`).
const ROWS: &str = include_str!("../kanji.txt");

/// The ten signs of row 1, as code points: the documents' print is unsure.
pub const SIGNS: [u32; 10] = [0x30FB, 0x30FD, 0x30FE, 0x309D, 0x309E, 0x4EDD, 0x3005, 0x3006, 0x3007, 0x30FC];

/// The sign in cell 1-23, which edition 1 has besides (K12).
pub const EARLY_SIGN: u32 = 0x3003;

/// The kind of a Japanese character (K6), in the order in which kinds are printed.
#[derive(Clone, Copy, Debug, PartialEq, Eq, PartialOrd, Ord)]
pub enum Kind {
    Hiragana,
    Katakana,
    Kanji,
    Sign,
}

impl Kind {
    /// The letter used in print: H, K, J, S, or - for none.
    pub fn letter(kind: Option<Kind>) -> char {
        match kind {
            Some(Kind::Hiragana) => 'H',
            Some(Kind::Katakana) => 'K',
            Some(Kind::Kanji) => 'J',
            Some(Kind::Sign) => 'S',
            None => '-',
        }
    }
}

/// The kanji in order of code point.
pub fn kanji() -> &'static BTreeSet<u32> {
    static KANJI: OnceLock<BTreeSet<u32>> = OnceLock::new();
    KANJI.get_or_init(|| kanji_in_rows().into_iter().collect())
}

/// The kanji in order of row and cell.
pub fn kanji_in_rows() -> Vec<u32> {
    ROWS.lines()
        .filter_map(|line| line.split_once(' '))
        .flat_map(|(_row, cells)| cells.chars().map(u32::from))
        .collect()
}

/// All Japanese characters of an edition and their kinds. The counts that document
/// 01 gives are checked here, with one sign more in edition 1; they add up, so no
/// character has two kinds.
pub fn japanese(edition: Edition) -> &'static HashMap<u32, Kind> {
    static JAPANESE: [OnceLock<HashMap<u32, Kind>>; EDITIONS.len()] = [const { OnceLock::new() }; 4];
    JAPANESE[edition.order()].get_or_init(|| {
        let hiragana = ('ぁ'..='ん').map(u32::from).collect();
        let katakana = ('ァ'..='ヶ').map(u32::from).collect();
        let mut all = HashMap::new();
        let mut list = |kind: Kind, codes: Vec<u32>, count: usize| {
            assert_eq!(codes.len(), count);
            all.extend(codes.into_iter().map(|code| (code, kind)));
        };
        list(Kind::Hiragana, hiragana, 83);
        list(Kind::Katakana, katakana, 86);
        list(Kind::Kanji, kanji().iter().copied().collect(), 6355);
        list(Kind::Sign, edition.signs(), [11, 10, 10, 10][edition.order()]);
        assert_eq!(all.len(), [6535, 6534, 6534, 6534][edition.order()]);
        all
    })
}

/// The kind of a code point, or none where it is not Japanese.
pub fn kind(code: u32, edition: Edition) -> Option<Kind> {
    japanese(edition).get(&code).copied()
}

/// Any kind but none.
pub fn is_japanese(code: u32, edition: Edition) -> bool {
    kind(code, edition).is_some()
}

pub type Kinds = BTreeSet<Kind>;

/// The kinds found among some characters. What is unfit has no kind.
pub fn kinds(characters: &[u32], edition: Edition) -> Kinds {
    characters.iter().filter_map(|code| kind(*code, edition)).collect()
}

/// The letters of some kinds as a word, or - where there is none.
pub fn letters(kinds: &Kinds) -> String {
    match kinds.is_empty() {
        true => "-".to_string(),
        false => kinds.iter().map(|kind| Kind::letter(Some(*kind))).collect(),
    }
}

/// Letters in lower case and digits. Upper case never outlives the normal form.
pub fn is_letter_or_digit(code: u32) -> bool {
    match char::from_u32(code) {
        Some(c) => c.is_ascii_lowercase() || c.is_ascii_digit(),
        None => false,
    }
}

pub fn is_ascii_set(code: u32) -> bool {
    code == HYPHEN || is_letter_or_digit(code)
}
