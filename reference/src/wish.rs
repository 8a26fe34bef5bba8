//! First and second wish (document 02, K1): which of two texts is accepted first,
//! and its part before the first separator, as the applicant typed it. It stays
//! with edition 4 (K12).

use crate::edition::Edition;
use crate::name;

/// The separators of document 01.
const SEPARATORS: &str = ".．。｡";

#[derive(Clone, Debug, PartialEq, Eq)]
pub struct Wished<'a> {
    /// 1 or 2, or 0 for neither.
    pub won: u8,
    /// Number and place of the check of each.
    pub checks: [(u8, usize); 2],
    pub part: &'a [u32],
}

/// Each text is judged as if it stood alone, with room enough.
pub fn wished<'a>(first: &'a [u32], second: &'a [u32]) -> Wished<'a> {
    let checks = [checked(first), checked(second)];
    match checks {
        [(0, _), _] => Wished { won: 1, checks, part: part(first) },
        [_, (0, _)] => Wished { won: 2, checks, part: part(second) },
        _ => Wished { won: 0, checks, part: &first[..0] },
    }
}

fn checked(text: &[u32]) -> (u8, usize) {
    match name::check(text, Edition::Today) {
        Ok(_name) => (0, 0),
        Err(refusal) => (refusal.number, refusal.place),
    }
}

/// What stands before the first separator of a text; all of it where there is none.
pub fn part(text: &[u32]) -> &[u32] {
    let is_separator = |code: &u32| char::from_u32(*code).is_some_and(|c| SEPARATORS.contains(c));
    let end = text.iter().position(is_separator);
    &text[..end.unwrap_or(text.len())]
}
