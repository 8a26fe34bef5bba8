//! Labels and names read by the grammar of document 004, with the characters and the
//! prefecture labels of an edition (K12). Nothing here knows the numbered rules: the
//! tests hold the two against each other.

use crate::answer::Class;
use crate::chars::{is_japanese, is_letter_or_digit, HYPHEN, MIDDLE_DOT};
use crate::coder::encode_by_insertion;
use crate::edition::Edition;
use crate::name::is_prefecture_label;
use crate::normal::labels;
use crate::points;

/// What the second reader has learned of the label so far.
#[derive(Clone, Copy, Default, PartialEq, Eq, Hash)]
struct Seen {
    count: usize,
    japanese: bool,
    middle_dot: bool,
    beyond_exceptions: bool,
}

impl Seen {
    fn note(&mut self, code: u32, edition: Edition) {
        self.count += 1;
        if is_japanese(code, edition) {
            self.japanese = true;
            self.middle_dot |= code == MIDDLE_DOT;
            self.beyond_exceptions |= ![0x3006, 0x30FC, MIDDLE_DOT].contains(&code);
        }
    }

    /// The lengths and the middle dot, judged at the label's end.
    fn may_end(&self) -> bool {
        if self.japanese {
            self.count <= 15 && (self.beyond_exceptions || !self.middle_dot)
        } else {
            (3..=63).contains(&self.count)
        }
    }
}

/// Where the second reader stands in the label.
#[derive(Clone, Copy, Default, PartialEq, Eq, Hash)]
enum Standing {
    #[default]
    AtStart,
    AfterCharacter,
    AfterHyphen,
}

/// The second reader within a label: a machine that stands after a character
/// or after a hyphen.
#[derive(Clone, Copy, Default, PartialEq, Eq, Hash)]
pub struct Reader {
    standing: Standing,
    seen: Seen,
}

impl Reader {
    /// The reader one character on, or none where no label goes on so.
    pub fn step(mut self, code: u32, edition: Edition) -> Option<Reader> {
        let character = is_letter_or_digit(code) || is_japanese(code, edition);
        self.standing = match self.standing {
            _ if character => Standing::AfterCharacter,
            Standing::AfterCharacter | Standing::AfterHyphen if code == HYPHEN => Standing::AfterHyphen,
            _ => return None,
        };
        self.seen.note(code, edition);
        Some(self)
    }

    /// Whether what was read is a whole label.
    pub fn may_end(&self) -> bool {
        matches!(self.standing, Standing::AfterCharacter) && self.seen.may_end()
    }
}

/// The second reader at the end of what was begun of a label.
pub fn read(begun: &[u32], edition: Edition) -> Option<Reader> {
    begun.iter().try_fold(Reader::default(), |reader, code| reader.step(*code, edition))
}

/// The same machine of a whole label, by the characters of an edition.
pub fn reads(label: &[u32], edition: Edition) -> bool {
    read(label, edition).is_some_and(|reader| reader.may_end())
}

/// The second reader of labels, which stays with today's edition.
pub fn second_reader(label: &[u32]) -> bool {
    reads(label, Edition::Today)
}

/// Spells a label in letters for the grammar's kinds: a ALNUM, - hyphen,
/// m MIDDLE-DOT, x another EXCEPTION-char, j another JA-char, ? none.
fn spell(label: &[u32], edition: Edition) -> String {
    let kind = |code: &u32| match *code {
        HYPHEN => '-',
        MIDDLE_DOT => 'm',
        0x3006 | 0x30FC => 'x',
        c if is_letter_or_digit(c) => 'a',
        c if is_japanese(c, edition) => 'j',
        _ => '?',
    };
    label.iter().map(kind).collect()
}

fn all_of(spelled: &str, kinds: &str) -> bool {
    spelled.chars().all(|kind| kinds.contains(kind))
}

/// The inside of a spelled label whose ends are of the kinds given.
fn between<'a>(spelled: &'a str, first: &str, last: &str) -> Option<&'a str> {
    let inner = spelled.get(1..spelled.len().checked_sub(1)?)?;
    let fits = first.contains(&spelled[..1]) && last.contains(&spelled[spelled.len() - 1..]);
    fits.then_some(inner)
}

fn is_ascii_label(spelled: &str) -> bool {
    between(spelled, "a", "a").is_some_and(|inner| (1..=61).contains(&inner.len()) && all_of(inner, "a-"))
}

/// The four alternatives of JA-label.
fn is_ja_label(spelled: &str) -> bool {
    let mixed = |inner: &str| all_of(inner, "jxma-");
    let single = spelled.len() == 1 && all_of(spelled, "jxm");
    let from_ja = between(spelled, "jxm", "jxma").is_some_and(mixed);
    let to_ja = between(spelled, "a", "jxm").is_some_and(mixed);
    let around_ja =
        between(spelled, "a", "a").is_some_and(|inner| mixed(inner) && inner.contains(['j', 'x', 'm']));
    single || from_ja || to_ja || around_ja
}

/// EXCEPTION-STRING, read of the whole label: some middle dot with nothing
/// but exceptions and ALNUM-HYPHEN on both sides.
fn is_exception_string(spelled: &str) -> bool {
    spelled
        .match_indices('m')
        .any(|(at, _)| all_of(&spelled[..at], "xma-") && all_of(&spelled[at + 1..], "xma-"))
}

/// A label by the grammar as it is printed, alternative by alternative.
pub fn is_label(label: &[u32], edition: Edition) -> bool {
    let spelled = spell(label, edition);
    let ja = is_ja_label(&spelled) && spelled.len() <= 15 && !is_exception_string(&spelled);
    is_ascii_label(&spelled) || ja
}

/// A label of a host (K10): a label of 004, or one or two ALNUM, which 004 has
/// not; and none that has hyphens in its third and fourth places.
pub fn is_host_label(label: &[u32]) -> bool {
    let spelled = spell(label, Edition::Today);
    let short = ["a", "aa"].contains(&spelled.as_str());
    (short || is_label(label, Edition::Today)) && spelled.get(2..4) != Some("--")
}

/// A host in normal form: three such labels or more whose ASCII forms, joined
/// by periods, have at most 253 octets.
pub fn is_host(normal: &[u32]) -> bool {
    let parts = labels(normal);
    parts.len() >= 3 && parts.iter().all(|label| is_host_label(label)) && host_octets(&parts) <= 253
}

/// How many octets the joined ASCII form of some labels has.
pub fn host_octets(parts: &[Vec<u32>]) -> usize {
    let octets = |label: &Vec<u32>| match label.iter().any(|code| is_japanese(*code, Edition::Today)) {
        true => "xn--".len() + encode_by_insertion(label).len(),
        false => label.len(),
    };
    parts.iter().map(octets).sum::<usize>() + parts.len() - 1
}

/// The class of a normal form by the grammar, or none.
pub fn class_of(normal: &[u32], edition: Edition) -> Option<Class> {
    let parts = labels(normal);
    let (last, front) = parts.split_last()?;
    if *last != points("jp") {
        return None;
    }
    match front {
        [label] if is_label(label, edition) => Some(Class::GeneralUse),
        [label, middle] if is_label(label, edition) && is_prefecture_label(middle, edition) => {
            Some(Class::Prefecture)
        }
        _ => None,
    }
}
