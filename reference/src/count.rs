//! How often each number comes up in the answers to probe lines.

/// 18 and 20 to 24 are numbers that no call answers yet.
pub const NUMBERS: usize = 26;

/// The calls whose answer begins with a number.
const NUMBERED: &str = "NCcAaEDLlJjQHhGgVvXR";

/// The numbers in the answer to a case. Most calls answer one; a batch answers
/// one a line, in octets; the others answer none, nor does a malformed case.
fn numbers_in(case: &str, answer: &str) -> Vec<usize> {
    let fields: Vec<&str> = answer.split(' ').collect();
    match case.chars().next() {
        Some(call) if NUMBERED.contains(call) => fields[0].parse().into_iter().collect(),
        Some('B') => numbers_in_batch(&fields),
        Some('W') => numbers_in_batch(fields.get(2..).unwrap_or_default()),
        _ => Vec::new(),
    }
}

fn numbers_in_batch(fields: &[&str]) -> Vec<usize> {
    let octets = fields.iter().filter_map(|hex| u8::from_str_radix(hex, 16).ok());
    let output = String::from_utf8_lossy(&octets.collect::<Vec<u8>>()).into_owned();
    let second = |line: &str| line.split('\t').nth(1)?.parse().ok();
    output.lines().filter_map(second).collect()
}

/// The counts of numbers 0 to 25, of cases and their answers.
pub fn count<'a>(answered: impl Iterator<Item = (&'a str, &'a str)>) -> [usize; NUMBERS] {
    let mut counts = [0; NUMBERS];
    for number in answered.flat_map(|(case, answer)| numbers_in(case, answer)) {
        counts[number] += 1;
    }
    counts
}
