//! Yes or no for the search box (document 02, K9), and how many code points are
//! read. It stays with edition 4 (K12).

use crate::edition::Edition;
use crate::name;

#[derive(Clone, Copy, Debug, PartialEq, Eq)]
pub struct Searched {
    pub yes: bool,
    /// How many code points were read.
    pub read: usize,
}

/// None where the length alone refuses; the place of refusal 4 and one more where
/// that stops it; else all.
pub fn acceptable(text: &[u32]) -> Searched {
    let checked = name::check(text, Edition::Today);
    let read = match &checked {
        Err(refusal) if refusal.number == 2 || refusal.number == 3 => 0,
        Err(refusal) if refusal.number == 4 => refusal.place + 1,
        _ => text.len(),
    };
    Searched { yes: checked.is_ok(), read }
}
