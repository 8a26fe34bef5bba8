//! The program: `reference probe | cases | lines | desk | count | sweep PART`.

use reference::{batch, cases, count, probe, sweep};
use std::io::{self, BufRead, BufWriter, Read, Write};
use std::process::ExitCode;

const USAGE: &str = "usage: reference probe | cases | lines | desk | count | sweep PART | samples COUNT SEED";

fn main() -> ExitCode {
    let words: Vec<String> = std::env::args().skip(1).collect();
    let words: Vec<&str> = words.iter().map(String::as_str).collect();
    let mut out = BufWriter::new(io::stdout().lock());
    let done = match words[..] {
        ["probe"] => answer_probes(&mut out),
        ["cases"] => write_lines(&mut out, cases::all_lines().into_iter()),
        ["lines"] => out.write_all(&cases::lines::input()),
        ["desk"] => input().and_then(|bytes| out.write_all(&batch::desk(&bytes))),
        ["count"] => input().and_then(|bytes| write_counts(&mut out, &bytes)),
        ["sweep", part] => match sweep::lines(part) {
            Some(lines) => write_lines(&mut out, lines),
            None => return complain(&format!("parts: {}", sweep::PARTS.join(" "))),
        },
        ["samples", count, seed] => match (count.parse(), seed.parse()) {
            (Ok(count), Ok(seed)) => write_lines(&mut out, cases::random::accepted_lines(count, seed)),
            _ => return complain(USAGE),
        },
        _ => return complain(USAGE),
    };
    match done.and_then(|()| out.flush()) {
        Ok(()) => ExitCode::SUCCESS,
        Err(error) => complain(&error.to_string()),
    }
}

fn complain(words: &str) -> ExitCode {
    eprintln!("{words}");
    ExitCode::FAILURE
}

fn input() -> io::Result<Vec<u8>> {
    let mut bytes = Vec::new();
    io::stdin().lock().read_to_end(&mut bytes)?;
    Ok(bytes)
}

fn answer_probes(out: &mut impl Write) -> io::Result<()> {
    let mut lines = io::stdin().lock();
    let mut line = Vec::new();
    while lines.read_until(b'\n', &mut line)? > 0 {
        let case = line.strip_suffix(b"\n").unwrap_or(&line);
        writeln!(out, "{}", probe::answer(case))?;
        line.clear();
    }
    Ok(())
}

fn write_lines(out: &mut impl Write, mut lines: impl Iterator<Item = String>) -> io::Result<()> {
    lines.try_for_each(|line| writeln!(out, "{line}"))
}

fn write_counts(out: &mut impl Write, lines: &[u8]) -> io::Result<()> {
    let lines = String::from_utf8_lossy(lines);
    let answers: Vec<String> = lines.lines().map(|line| probe::answer(line.as_bytes())).collect();
    let counts = count::count(lines.lines().zip(answers.iter().map(String::as_str)));
    write_lines(out, (0..).zip(counts).map(|(number, times): (u8, _)| format!("{number} {times}")))
}
