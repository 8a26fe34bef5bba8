//! The batch: lines of an id, a tab and a name, which is judged by today's edition.

use crate::answer::Class;
use crate::chars::letters;
use crate::edition::Edition;
use crate::name::{self, Formed};
use crate::utf8;

const LONGEST_LINE: usize = 1024;
const LONGEST_ID: usize = 32;

/// The whole output for the whole input.
pub fn desk(input: &[u8]) -> Vec<u8> {
    let mut lines: Vec<&[u8]> = input.split(|byte| *byte == b'\n').collect();
    // What follows the last LF is a line only if it holds a byte.
    if lines.last().is_some_and(|last| last.is_empty()) {
        lines.pop();
    }
    let answers: Vec<String> = lines.iter().map(|line| answer_line(line) + "\n").collect();
    answers.concat().into_bytes()
}

/// The answer to one line, without its LF.
pub fn answer_line(line: &[u8]) -> String {
    let Some((id, text)) = read_line(line) else {
        return "-\t16\t0\t-\t-\t-".to_string();
    };
    match name::ascii_form(&text, Edition::Today) {
        Ok(Formed { form, class, kinds }) => {
            format!("{id}\t0\t0\t{}\t{form}\t{}", Class::letter(Some(class)), letters(&kinds))
        }
        Err(refusal) => format!("{id}\t{}\t{}\t-\t-\t-", refusal.number, refusal.place),
    }
}

/// The place of the only tab of a line, or none where it has no tab or more.
pub fn only_tab(line: &[u8]) -> Option<usize> {
    let tabs: Vec<usize> = (0..line.len()).filter(|at| line[*at] == b'\t').collect();
    match tabs[..] {
        [tab] => Some(tab),
        _ => None,
    }
}

/// Start and end of the field from a place on, and where reading goes on. It
/// ends at a tab, past which reading goes on, or with the line. Past the line
/// it is empty.
pub fn field_at(line: &[u8], at: usize) -> [usize; 3] {
    let rest = line.get(at..).unwrap_or_default();
    match rest.iter().position(|byte| *byte == b'\t') {
        Some(length) => [at, at + length, at + length + 1],
        None => [at, at + rest.len(), at + rest.len()],
    }
}

pub fn is_id(id: &[u8]) -> bool {
    (1..=LONGEST_ID).contains(&id.len())
        && id.iter().all(|byte| byte.is_ascii_alphanumeric() || *byte == b'-')
}

/// The id and the name's code points, or none for a bad line.
fn read_line(line: &[u8]) -> Option<(String, Vec<u32>)> {
    let (id, name) = line.split_at(only_tab(line)?);
    if line.len() > LONGEST_LINE || !is_id(id) {
        return None;
    }
    Some((String::from_utf8(id.to_vec()).ok()?, utf8::read(&name[1..])?))
}
