//! A second implementation of the name rules, written from the documents
//! alone. It exists to make test cases and to judge answers. It favours plain
//! strings and maps over speed.

pub mod answer;
pub mod batch;
pub mod calls;
pub mod cases;
pub mod chars;
pub mod coder;
pub mod count;
pub mod edition;
pub mod grammar;
pub mod hope;
pub mod host;
pub mod live;
pub mod name;
pub mod normal;
pub mod outside;
pub mod probe;
pub mod random;
pub mod search;
pub mod sweep;
pub mod utf8;
pub mod wish;

/// The code points of a string, for texts that are easier to write as such.
pub fn points(text: &str) -> Vec<u32> {
    text.chars().map(u32::from).collect()
}
