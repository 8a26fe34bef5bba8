//! The live check: it shows, after each code point, what the check says of
//! all that was read, and the normal form of it. Where that is a name it shows
//! where the labels stand, as the check does (K7). A look at a host shows what the
//! rules of hosts say instead. It also says whether what was read may yet become
//! a name.
//!
//! The fresh state is given an edition (K12), any number, and keeps it. Where that is
//! none, a look shows 25, and no text may become a name. A look at a host stays with
//! today's edition, whatever the state was given.

use crate::answer::{Class, LabelPlaces, Refusal};
use crate::edition::Edition;
use crate::hope;
use crate::host;
use crate::name::{self, LONGEST_TEXT};
use crate::normal::normal_form;

/// What was read, as far as it matters: after 257 code points nothing does.
#[derive(Clone, Debug, PartialEq, Eq)]
pub struct Live {
    edition: u32,
    read: Vec<u32>,
}

/// What a look shows.
#[derive(Clone, Debug, PartialEq, Eq)]
pub struct Shown {
    pub number: u8,
    pub place: usize,
    pub class: Option<Class>,
    pub labels: LabelPlaces,
    pub length: usize,
    pub text: [u32; LONGEST_TEXT],
}

impl Live {
    pub fn fresh(edition: u32) -> Live {
        Live { edition, read: Vec::new() }
    }

    pub fn step(&mut self, code: u32) {
        if self.read.len() <= LONGEST_TEXT {
            self.read.push(code);
        }
    }

    /// What the check says.
    pub fn look(&self) -> Shown {
        let checked = name::check_edition(self.edition).and_then(|edition| name::check(&self.read, edition));
        let labels = checked.as_ref().map(|accepted| accepted.places).unwrap_or_default();
        let shown = self.show(checked.map(|accepted| Some(accepted.class)));
        Shown { labels, ..shown }
    }

    /// What the rules of hosts say, given room. Hosts have no class and no places
    /// of labels.
    pub fn look_at_host(&self) -> Shown {
        self.show(host::ascii_form(&self.read).map(|_form| None))
    }

    fn show(&self, judged: Result<Option<Class>, Refusal>) -> Shown {
        let (number, place, class) = match judged {
            Ok(class) => (0, 0, class),
            Err(refusal) => (refusal.number, refusal.place, None),
        };
        let normal = match self.read.len() > LONGEST_TEXT {
            true => Vec::new(),
            false => normal_form(&self.read),
        };
        let mut text = [0; LONGEST_TEXT];
        text[..normal.len()].copy_from_slice(&normal);
        Shown { number, place, class, labels: LabelPlaces::default(), length: normal.len(), text }
    }

    pub fn may_become(&self) -> bool {
        Edition::numbered(self.edition).is_some_and(|edition| hope::may_become(&self.read, edition))
    }
}
