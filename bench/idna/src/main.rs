// Each line's name to its ASCII form, by Rust's idna.
use std::io::{BufRead, BufWriter, Write};

fn main() {
    let mut out = BufWriter::new(std::io::stdout().lock());
    for line in std::io::stdin().lock().lines() {
        let form = idna::domain_to_ascii_strict(&line.expect("UTF-8"));
        writeln!(out, "{}", form.as_deref().unwrap_or("-")).expect("written");
    }
}
