//! Whether a text may yet become a name: whether the check accepts it, by the rules of
//! an edition, with something, or nothing, typed after it.
//!
//! No continuation is put to the check. The grammar is asked what it still
//! lets follow:
//!
//! - Before the first period the second reader goes on from where it stands,
//!   by every kind of character, up to the longest label. Where one of these
//!   ways comes to the end of a label that may be leftmost, ".jp" may follow.
//! - From the first period on, a name ends in one of 95 ways today, of 48 in edition
//!   3, and in one way in editions 1 and 2. The label before must be whole, and the
//!   rest the beginning of such an ending.
//!
//! The second reader keeps to document 004. Beside it each way remembers what
//! K3 asks: a label with hyphens in its third and fourth places is leftmost
//! only if it is Japanese. So after "ab--" a Japanese character must come, and
//! among the first fifteen.
//!
//! It is enough to go on from the normal form, and in normal form. What is
//! typed later changes it in one way only: a mark joins the last base. Base
//! and whole are of one kind, stand in the same place of the label, and neither
//! stands in an ending, so the mark changes nothing that is asked here; a mark
//! that joins nothing is unfit for good. Nor does the limit of 256 stop a text
//! that the grammar lets go on: no name is longer than 63 letters and
//! ".hiroshima.jp", 76 code points; fifteen characters typed with their marks
//! are only thirty.

use crate::chars::{is_japanese, HYPHEN, MIDDLE_DOT, PERIOD};
use crate::edition::{Edition, EDITIONS};
use crate::grammar::Reader;
use crate::normal::normal_form;
use crate::points;
use std::collections::HashSet;
use std::sync::OnceLock;

const LONGEST_LABEL: usize = 63;

/// One character of every kind in document 01. The reader looks at the kind
/// alone, and 3003 is one more of the kind of 3005 in edition 1.
const KINDS: [u32; 10] = [0x61, 0x30, HYPHEN, 0x3042, 0x30A2, 0x4E9C, 0x3005, 0x3006, 0x30FC, MIDDLE_DOT];

/// All that may follow the leftmost label.
fn endings(edition: Edition) -> &'static Vec<Vec<u32>> {
    static ENDINGS: [OnceLock<Vec<Vec<u32>>>; EDITIONS.len()] = [const { OnceLock::new() }; 4];
    ENDINGS[edition.order()].get_or_init(|| {
        let with_prefecture = edition.prefectures().into_iter().map(|label| format!(".{label}.jp"));
        with_prefecture.chain([".jp".to_string()]).map(|ending| points(&ending)).collect()
    })
}

/// A way through a label: the second reader, and what K3 asks beside it.
#[derive(Clone, Copy, Default, PartialEq, Eq, Hash)]
struct Way {
    reader: Reader,
    length: usize,
    /// How many of the third and the fourth place have a hyphen.
    set_aside: usize,
    japanese: bool,
}

impl Way {
    /// The way one character on, or none where no label goes on so.
    fn step(mut self, code: u32, edition: Edition) -> Option<Way> {
        self.reader = self.reader.step(code, edition)?;
        self.length += 1;
        self.set_aside += usize::from(code == HYPHEN && (3..=4).contains(&self.length));
        self.japanese |= is_japanese(code, edition);
        Some(self)
    }

    /// Whether what was read may be a leftmost label: it is a whole label and
    /// does not pretend to be encoded.
    fn may_end(&self) -> bool {
        let pretends = self.set_aside == 2 && !self.japanese;
        self.reader.may_end() && !pretends
    }
}

/// The way through what was begun of a label.
fn read(begun: &[u32], edition: Edition) -> Option<Way> {
    begun.iter().try_fold(Way::default(), |way, code| way.step(*code, edition))
}

/// Whether characters can follow that make a leftmost label of what was begun.
fn may_become_label(begun: &[u32], edition: Edition) -> bool {
    let mut ways: HashSet<Way> = read(begun, edition).into_iter().collect();
    for _length in begun.len()..=LONGEST_LABEL {
        if ways.iter().any(Way::may_end) {
            return true;
        }
        let go_on = |way: &Way| KINDS.map(|code| way.step(code, edition));
        ways = ways.iter().flat_map(go_on).flatten().collect();
    }
    false
}

fn is_leftmost_label(label: &[u32], edition: Edition) -> bool {
    read(label, edition).is_some_and(|way| way.may_end())
}

pub fn may_become(text: &[u32], edition: Edition) -> bool {
    let normal = normal_form(text);
    let end = normal.iter().position(|code| *code == PERIOD).unwrap_or(normal.len());
    let (label, rest) = normal.split_at(end);
    match rest.is_empty() {
        true => may_become_label(label, edition),
        false => {
            let mut endings = endings(edition).iter();
            is_leftmost_label(label, edition) && endings.any(|ending| ending.starts_with(rest))
        }
    }
}
