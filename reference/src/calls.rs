//! The calls with lent buffers. A refused call leaves its buffer untouched;
//! an accepted one writes its start alone. The edition that some of them take is any
//! number.

use crate::answer::{Answer, Class, LabelPlaces, Refusal};
use crate::batch;
use crate::chars::Kinds;
use crate::coder;
use crate::host;
use crate::name;
use crate::normal;
use crate::utf8;

/// What a call would write, and the class where it gives one.
type Outcome<T> = Result<(Vec<T>, Option<Class>), Refusal>;

/// Refusal 1, then the call's own outcome.
fn lend<T: Copy>(buffer: &mut [T], room: usize, outcome: impl FnOnce() -> Outcome<T>) -> Answer {
    if buffer.len() < room {
        return Refusal::plain(1).into();
    }
    match outcome() {
        Err(refusal) => refusal.into(),
        Ok((written, class)) => {
            buffer[..written.len()].copy_from_slice(&written);
            let (kinds, labels) = (Kinds::new(), LabelPlaces::default());
            Answer { number: 0, place: 0, class, kinds, labels, length: written.len() }
        }
    }
}

pub fn normal_form(text: &[u32], buffer: &mut [u32]) -> Answer {
    lend(buffer, 256, || {
        name::check_length(text)?;
        Ok((normal::normal_form(text), None))
    })
}

/// The one call that tells where the labels stand.
pub fn check(text: &[u32], edition: u32, buffer: &mut [u32]) -> Answer {
    let mut labels = LabelPlaces::default();
    let answer = lend(buffer, 256, || {
        let accepted = name::check(text, name::check_edition(edition)?)?;
        labels = accepted.places;
        Ok((accepted.normal, Some(accepted.class)))
    });
    Answer { labels, ..answer }
}

/// The one call that tells kinds.
pub fn ascii_form(text: &[u32], edition: u32, buffer: &mut [u8]) -> Answer {
    let mut kinds = Kinds::new();
    let answer = lend(buffer, 192, || {
        let formed = name::ascii_form(text, name::check_edition(edition)?)?;
        kinds = formed.kinds;
        Ok((formed.form.into_bytes(), Some(formed.class)))
    });
    Answer { kinds, ..answer }
}

pub fn host_form(text: &[u32], buffer: &mut [u8]) -> Answer {
    lend(buffer, 255, || Ok((host::ascii_form(text)?.into_bytes(), None)))
}

pub fn label_form(label: &[u32], buffer: &mut [u8]) -> Answer {
    lend(buffer, 63, || Ok((coder::ascii_label(label)?.into_bytes(), None)))
}

pub fn encode_label(label: &[u32], buffer: &mut [u8]) -> Answer {
    lend(buffer, 63, || Ok((coder::encode(label)?.into_bytes(), None)))
}

pub fn decode_label(octets: &[u8], buffer: &mut [u32]) -> Answer {
    lend(buffer, 63, || Ok((coder::decode(octets)?, None)))
}

/// As many entries as fit go to the buffer's start.
pub fn copy<T: Copy>(entries: &[T], buffer: &mut [T]) {
    let fit = entries.len().min(buffer.len());
    buffer[..fit].copy_from_slice(&entries[..fit]);
}

/// How many code points well-formed UTF-8 has. As many as fit are written; of
/// ill-formed UTF-8 none is.
pub fn decode_utf8(octets: &[u8], buffer: &mut [u32]) -> Option<usize> {
    let points = utf8::read(octets)?;
    copy(&points, buffer);
    Some(points.len())
}

/// The length of the answer to a batch's line. The call asks for 256 octets.
pub fn answer_line(line: &[u8], buffer: &mut [u8]) -> Option<usize> {
    if buffer.len() < 256 {
        return None;
    }
    let answer = batch::answer_line(line) + "\n";
    copy(answer.as_bytes(), buffer);
    Some(answer.len())
}
