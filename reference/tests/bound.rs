//! No accepted name is refused with 14: a Japanese label of at most fifteen
//! characters never encodes to more than 62 octets. The product's proofs say
//! at most 63, which is all that 14 asks; this is the independent witness, and
//! the sharper bound.
//!
//! The test does not try labels. It goes through the coder's states, code
//! point by code point, and keeps for each bias and each count of digits the
//! least rise in code point value that can lead there. Places within the label
//! are taken as kindly as they could be, so the bound may be a little high.

use std::collections::BTreeMap;

const LONGEST: u64 = 15;
/// The least Japanese character, which edition 1 alone has (K12).
const LEAST: u64 = 0x3003 - 0x80;
const GREATEST: u64 = 0x9FA0 - 0x80;

/// For each (bias, digits so far): the least value reached, counted from 80.
type States = BTreeMap<(u64, u64), u64>;

fn adapt(delta: u64, count: u64, first: bool) -> u64 {
    let mut delta = delta / if first { 700 } else { 2 };
    delta += delta / count;
    let mut k = 0;
    while delta > 455 {
        delta /= 35;
        k += 36;
    }
    k + 36 * delta / (delta + 38)
}

fn digits(delta: u64, bias: u64) -> u64 {
    let (mut rest, mut k) = (delta, 36u64);
    loop {
        let t = k.saturating_sub(bias).clamp(1, 26);
        if rest < t {
            return k / 36;
        }
        rest = (rest - t) / (36 - t);
        k += 36;
    }
}

/// Where the new bias changes, as stretches of delta: (bias, from, to).
fn stretches(count: u64, first: bool) -> Vec<(u64, u64, u64)> {
    let from = if first { LEAST * count } else { 0 };
    let to = GREATEST * count + count;
    let mut found: Vec<(u64, u64, u64)> = Vec::new();
    for delta in from..=to {
        let bias = adapt(delta, count, first);
        match found.last_mut() {
            Some(last) if last.0 == bias => last.2 = delta,
            _ => found.push((bias, delta, delta)),
        }
    }
    found
}

/// The least deltas that take more digits than all before them, by bias.
fn least_deltas(bias: u64, limit: u64) -> Vec<(u64, u64)> {
    let mut found = vec![(0, digits(0, bias))];
    while let Some(&(_, most)) = found.last() {
        let (mut low, mut high) = (0, limit + 1);
        while low < high {
            let middle = (low + high) / 2;
            match digits(middle, bias) > most {
                true => high = middle,
                false => low = middle + 1,
            }
        }
        if low > limit {
            break;
        }
        found.push((low, digits(low, bias)));
    }
    found
}

/// All that one more code point can lead to.
fn step(states: &States, handled: u64, first: bool) -> States {
    let count = handled + 1;
    let stretches = stretches(count, first);
    let mut next = States::new();
    let mut choices = BTreeMap::new();
    for (&(bias, so_far), &value) in states {
        let least = choices.entry(bias).or_insert_with(|| least_deltas(bias, GREATEST * count + count));
        for &(new_bias, from, to) in &stretches {
            for delta in least.iter().map(|(delta, _)| from.max(*delta)).filter(|delta| *delta <= to) {
                let rise = delta.saturating_sub(handled).div_ceil(count);
                let reached = value + rise;
                if reached <= GREATEST {
                    let held = next.entry((new_bias, so_far + digits(delta, bias))).or_insert(reached);
                    *held = reached.min(*held);
                }
            }
        }
    }
    next
}

#[test]
fn fifteen_japanese_characters_encode_to_at_most_62_octets() {
    let mut longest = 0;
    for basic in 0..LONGEST {
        let mut states = States::from([((72, 0), 0)]);
        for handled in basic..LONGEST {
            states = step(&states, handled, handled == basic);
            let most = states.keys().map(|(_, digits)| *digits).max().unwrap_or(0);
            let delimiter = u64::from(basic > 0);
            longest = longest.max(4 + basic + delimiter + most);
        }
    }
    assert_eq!(longest, 62);
}
