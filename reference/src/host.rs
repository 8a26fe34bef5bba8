//! The rules of nameserver host names in the order of document 02's K10, over
//! the same first rules and the same rules of labels as names. Hosts stay with today's
//! edition (K12).

use crate::answer::Refusal;
use crate::edition::Edition;
use crate::name::{check_empty, check_label, label_form, read, Family};
use crate::normal::labels;

/// Document 000's prose sets no minimum but a character; its 6.1 refuses the
/// hyphen pair in every label.
pub const OF_HOSTS: Family = Family { shortest: 1, pair_in_none: true };
const FEWEST_LABELS: usize = 3;
const LONGEST_FORM: usize = 253;

/// The joined ASCII form, given room: refusals 2 to 6, then label by label 7,
/// 9, 17 and 10, then 14, then 19. An empty label is refused with 6, so 8 never
/// comes.
pub fn ascii_form(text: &[u32]) -> Result<String, Refusal> {
    let labels = labels(&read(text, Edition::Today)?);
    if labels.len() < FEWEST_LABELS {
        return Err(Refusal::plain(5));
    }
    check_empty(&labels)?;
    for (index, label) in labels.iter().enumerate() {
        check_label(label, OF_HOSTS, Edition::Today, index)?;
    }
    let mut parts = Vec::new();
    for (index, label) in labels.iter().enumerate() {
        parts.push(label_form(label, Edition::Today).map_err(|no| Refusal::at(no.number, index))?);
    }
    let form = parts.join(".");
    if form.len() > LONGEST_FORM {
        return Err(Refusal::plain(19));
    }
    Ok(form)
}
