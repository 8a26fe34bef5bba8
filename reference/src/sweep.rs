//! The big sweeps outside the gate, as probe lines.

use crate::cases::characters::{with_jp, MARKS};
use crate::cases::hosts::HostMaker;
use crate::cases::kinds::IN_A_CASE;
use crate::cases::labels;
use crate::cases::probe_line;
use crate::cases::random::NameMaker;
use crate::chars::PERIOD;
use crate::points;
use crate::random::Random;

pub const PARTS: [&str; 8] = ["first", "second", "above", "marks", "kinds", "pairs", "hosts", "random"];

/// The bases after which the second character is tried.
const BASES: [u32; 2] = [0x30CF, 0x3046];

/// The lines of a part, or none where there is no such part.
pub fn lines(part: &str) -> Option<Box<dyn Iterator<Item = String>>> {
    Some(match part {
        "first" => Box::new((0..0x30000).flat_map(first)),
        "second" => Box::new((0..0x30000).flat_map(second)),
        "above" => Box::new(above().flat_map(|code| first(code).into_iter().chain(second(code)))),
        "marks" => Box::new((0..0x10000).flat_map(marked)),
        "kinds" => Box::new(kinds()),
        "pairs" => Box::new(short_labels().into_iter().flat_map(|label| paired(&label))),
        "hosts" => {
            Box::new(short_hosts().into_iter().flat_map(|host| judged_host(&host)).chain(random_hosts()))
        }
        "random" => Box::new(random()),
        _ => return None,
    })
}

/// A code point as a label of one character.
fn first(code: u32) -> Vec<String> {
    let text = with_jp(&[code]);
    vec![
        probe_line('N', 256, &text),
        probe_line('C', 256, &text),
        probe_line('A', 192, &text),
        probe_line('L', 0, &text),
        probe_line('M', 0, &text),
        probe_line('S', 0, &[code]),
        probe_line('E', 63, &[code]),
    ]
}

/// A code point as the second character after a base.
fn second(code: u32) -> Vec<String> {
    let after = |base: u32| {
        let text = with_jp(&[base, code]);
        [
            probe_line('N', 256, &text),
            probe_line('C', 256, &text),
            probe_line('L', 0, &[base, code]),
            probe_line('M', 0, &[base, code]),
            probe_line('S', 0, &[base, code]),
            probe_line('E', 63, &[base, code]),
        ]
    };
    BASES.into_iter().flat_map(after).collect()
}

/// A sample above 2FFFF and numbers past 10FFFF.
fn above() -> impl Iterator<Item = u32> {
    let planes = (0x30000..=0x110FFF).step_by(37);
    let edges = (0x10FFF0..=0x110010).chain(0xAAAAAA00..=0xAAAAAAAA);
    let powers = (21..32).flat_map(|bit| [(1 << bit) - 1, 1 << bit, (1 << bit) | 0x3042, (1 << bit) | 0x61]);
    let top = 0xFFFFFFF0..=0xFFFFFFFF;
    planes.chain(edges).chain(powers).chain(top)
}

/// A code point followed by each mark.
fn marked(code: u32) -> Vec<String> {
    let with = |mark: u32| {
        let text = with_jp(&[code, mark]);
        [probe_line('N', 256, &text), probe_line('L', 0, &text), probe_line('M', 0, &text)]
    };
    MARKS.into_iter().flat_map(with).collect()
}

/// The calls on single characters, many to a line, and with each mark.
fn kinds() -> impl Iterator<Item = String> {
    let marked = (0..0x10000).flat_map(|code| [code, 0x309B, code, 0x309C]);
    let codes: Vec<u32> = (0..0x30000).chain(above()).chain(marked).collect();
    let lines: Vec<String> = codes.chunks(IN_A_CASE).map(|codes| probe_line('K', 0, codes)).collect();
    lines.into_iter()
}

/// All texts of up to so many characters from a few.
fn all_of(characters: &str, longest: usize) -> Vec<Vec<u32>> {
    let longer = |text: &Vec<u32>| {
        points(characters).into_iter().map(|code| [&text[..], &[code]].concat()).collect::<Vec<_>>()
    };
    let mut texts = vec![Vec::new()];
    let mut of_length = texts.clone();
    for _ in 0..longest {
        of_length = of_length.iter().flat_map(longer).collect();
        texts.extend(of_length.clone());
    }
    texts
}

/// All labels of up to six characters from five.
fn short_labels() -> Vec<Vec<u32>> {
    all_of("a0-\u{3042}\u{30FB}", 6)
}

/// A label as the leftmost one, and by itself with the hyphen pair refused in
/// ASCII labels alone and in every label.
fn paired(label: &[u32]) -> Vec<String> {
    let text = with_jp(label);
    let numbers = labels::numbers(0, 3, 0, label);
    vec![
        probe_line('C', 256, &text),
        probe_line('A', 192, &text),
        probe_line('L', 0, &text),
        probe_line('M', 0, &text),
        probe_line('S', 0, label),
        probe_line('Q', 0, &numbers),
        probe_line('Q', 1, &numbers),
    ]
}

/// All texts of up to seven characters from five that have two periods or more;
/// and each of the labels above, as the first of three, the second or the last.
fn short_hosts() -> Vec<Vec<u32>> {
    let mut hosts = all_of("a-\u{3042}\u{30FB}.", 7);
    hosts.retain(|text| text.iter().filter(|code| **code == PERIOD).count() > 1);
    for (order, label) in short_labels().into_iter().enumerate() {
        let mut labels = [points("b"), points("\u{3044}"), points("c")];
        labels[order % 3] = label;
        hosts.push(labels.join(&PERIOD));
    }
    hosts
}

fn judged_host(text: &[u32]) -> [String; 2] {
    [probe_line('H', 255, text), probe_line('G', 0, text)]
}

/// Random hosts as typed, each followed by a damaged copy.
fn random_hosts() -> impl Iterator<Item = String> {
    let mut random = Random::seeded(19);
    let maker = HostMaker::default();
    (0..10_000).flat_map(move |_| {
        let typed = maker.typed_host(&mut random);
        let damaged = maker.damaged(&typed, &mut random);
        [typed, damaged]
            .iter()
            .flat_map(|text| [probe_line('V', 0, text)].into_iter().chain(judged_host(text)))
            .collect::<Vec<_>>()
    })
}

/// Random names as typed, each followed by a damaged copy.
fn random() -> impl Iterator<Item = String> {
    let mut random = Random::seeded(7);
    let maker = NameMaker::default();
    (0..100_000).flat_map(move |_| {
        let typed = maker.typed_name(&mut random);
        let damaged = maker.edit(&typed, &mut random);
        [typed, damaged]
            .iter()
            .flat_map(|text| {
                [('C', 256), ('A', 192), ('L', 0), ('M', 0)].map(|(call, lent)| probe_line(call, lent, text))
            })
            .collect::<Vec<_>>()
    })
}
