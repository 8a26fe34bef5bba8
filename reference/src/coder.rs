//! RFC 3492 for one label. The parameters are a value, so that the tests can
//! bend them and see that some case notices.

use crate::answer::Refusal;

const PREFIX: &str = "xn--";
const LONGEST_LABEL: usize = 63;
const DIGITS: &str = "abcdefghijklmnopqrstuvwxyz0123456789";

/// The parameters of RFC 3492, section 5, and the ones `adapt` derives.
#[derive(Clone, Copy, Debug, PartialEq, Eq)]
pub struct Parameters {
    pub base: u64,
    pub tmin: u64,
    pub tmax: u64,
    pub skew: u64,
    pub damp: u64,
    pub initial_bias: u64,
    pub initial_n: u64,
    /// Above this, `adapt` divides once more.
    pub large: u64,
}

pub const RFC: Parameters = Parameters {
    base: 36,
    tmin: 1,
    tmax: 26,
    skew: 38,
    damp: 700,
    initial_bias: 72,
    initial_n: 128,
    large: (36 - 1) * 26 / 2,
};

impl Parameters {
    fn adapt(&self, delta: u64, count: u64, first: bool) -> u64 {
        let mut delta = delta / if first { self.damp } else { 2 };
        delta += delta / count;
        let mut k = 0;
        while delta > self.large {
            delta /= self.base - self.tmin;
            k += self.base;
        }
        k + (self.base - self.tmin + 1) * delta / (delta + self.skew)
    }

    fn threshold(&self, k: u64, bias: u64) -> u64 {
        k.saturating_sub(bias).clamp(self.tmin, self.tmax)
    }

    /// A delta as digits of a generalized variable-length integer.
    fn write_delta(&self, delta: u64, bias: u64, digits: &mut Vec<u64>) {
        let mut rest = delta;
        let mut k = self.base;
        loop {
            let t = self.threshold(k, bias);
            if rest < t {
                return digits.push(rest);
            }
            digits.push(t + (rest - t) % (self.base - t));
            rest = (rest - t) / (self.base - t);
            k += self.base;
        }
    }

    /// The encoding procedure of section 6.3, of any code points, without
    /// prefix. Digits past 35, which only bent parameters give, become '!'.
    pub fn encode_any(&self, label: &[u32]) -> String {
        let basic = |code: &&u32| u64::from(**code) < self.initial_n;
        let copied: Vec<u32> = label.iter().filter(basic).copied().collect();
        let mut digits = Vec::new();
        let (mut n, mut delta, mut bias) = (self.initial_n, 0, self.initial_bias);
        let mut handled = copied.len() as u64;
        let first = handled;
        while handled < label.len() as u64 {
            let waiting = label.iter().map(|c| u64::from(*c)).filter(|c| *c >= n);
            let m = waiting.min().expect("some code point is still to come");
            delta += (m - n) * (handled + 1);
            n = m;
            for code in label.iter().map(|c| u64::from(*c)) {
                if code < n {
                    delta += 1;
                } else if code == n {
                    self.write_delta(delta, bias, &mut digits);
                    bias = self.adapt(delta, handled + 1, handled == first);
                    delta = 0;
                    handled += 1;
                }
            }
            delta += 1;
            n += 1;
        }
        join(&copied, &digits)
    }

    /// The decoding procedure of section 6.2, of a lower-case string without
    /// prefix. None where a digit is missing or a value passes 10FFFF.
    pub fn decode_any(&self, encoded: &str) -> Option<Vec<u32>> {
        let (copied, digits) = match encoded.rfind('-') {
            Some(at) if at > 0 => (&encoded[..at], &encoded[at + 1..]),
            _ => ("", encoded),
        };
        let mut label: Vec<u32> = copied.chars().map(u32::from).collect();
        let mut digits = digits.chars();
        let (mut n, mut i, mut bias) = (self.initial_n, 0, self.initial_bias);
        let mut first = true;
        while !digits.as_str().is_empty() {
            let delta = self.read_delta(bias, &mut digits)?;
            let count = label.len() as u64 + 1;
            bias = self.adapt(delta, count, first);
            first = false;
            i += delta;
            n += i / count;
            i %= count;
            let code = u32::try_from(n).ok().filter(|code| *code <= 0x10FFFF)?;
            label.insert(i as usize, code);
            i += 1;
        }
        Some(label)
    }

    fn read_delta(&self, bias: u64, digits: &mut std::str::Chars) -> Option<u64> {
        let (mut delta, mut weight, mut k) = (0u64, 1u64, self.base);
        loop {
            let digit = DIGITS.find(digits.next()?)? as u64;
            delta = delta.checked_add(digit.checked_mul(weight)?)?;
            if delta > 1 << 40 {
                return None;
            }
            let t = self.threshold(k, bias);
            if digit < t {
                return Some(delta);
            }
            weight = weight.checked_mul(self.base - t)?;
            k += self.base;
        }
    }
}

/// Basic code points, a delimiter if there are any, and the digits.
fn join(copied: &[u32], digits: &[u64]) -> String {
    let mut out: String = copied.iter().filter_map(|c| char::from_u32(*c)).collect();
    if !out.is_empty() {
        out.push('-');
    }
    let symbol = |digit: &u64| DIGITS.chars().nth(*digit as usize).unwrap_or('!');
    out.extend(digits.iter().map(symbol));
    out
}

/// The same encoding by another route: the code points of 80 and more are put
/// in order of value and place; each one's delta is the way from the state
/// after the one before it to its own state, seen as the decoder counts them.
pub fn encode_by_insertion(label: &[u32]) -> String {
    let (copied, others): (Vec<_>, Vec<_>) = label.iter().zip(0..).partition(|(code, _)| **code < 0x80);
    let mut inserted: Vec<usize> = copied.iter().map(|(_, at)| *at).collect();
    let mut others: Vec<(u64, usize)> = others.iter().map(|(code, at)| (u64::from(**code), *at)).collect();
    others.sort();
    let mut digits = Vec::new();
    let (mut last_value, mut next_place, mut bias) = (0x80, 0, 72);
    for (order, (value, at)) in others.iter().enumerate() {
        let count = inserted.len() as u64 + 1;
        let place = inserted.iter().filter(|held| *held < at).count() as u64;
        let delta = (value - last_value) * count + place - next_place;
        RFC.write_delta(delta, bias, &mut digits);
        bias = RFC.adapt(delta, count, order == 0);
        inserted.push(*at);
        (last_value, next_place) = (*value, place + 1);
    }
    let copied: Vec<u32> = copied.iter().map(|(code, _)| **code).collect();
    join(&copied, &digits)
}

fn may_stand_in_label(code: u32) -> bool {
    match char::from_u32(code) {
        None => false,
        Some(c) if c.is_ascii() => c.is_ascii_lowercase() || c.is_ascii_digit() || c == '-',
        Some(_) => true,
    }
}

pub fn is_encodable(label: &[u32]) -> bool {
    (1..=LONGEST_LABEL).contains(&label.len())
        && label.iter().all(|code| may_stand_in_label(*code))
        && label.iter().any(|code| *code >= 0x80)
}

/// The coder, given room: refusals 13 and 14.
pub fn encode(label: &[u32]) -> Result<String, Refusal> {
    if !is_encodable(label) {
        return Err(Refusal::plain(13));
    }
    let encoded = format!("{PREFIX}{}", RFC.encode_any(label));
    if encoded.len() > LONGEST_LABEL {
        return Err(Refusal::plain(14));
    }
    Ok(encoded)
}

/// The ASCII form of one label, whatever it holds: the coder's where some code
/// point is 80 or more, and else the label itself, with 14 where it has more
/// than 63 characters.
pub fn ascii_label(label: &[u32]) -> Result<String, Refusal> {
    if label.iter().any(|code| *code >= 0x80) {
        return encode(label);
    }
    if label.len() > LONGEST_LABEL {
        return Err(Refusal::plain(14));
    }
    Ok(label.iter().filter_map(|code| char::from_u32(*code)).collect())
}

/// The decoder, given room: refusal 15. What it found must encode back to the
/// very octets it read, in lower case.
pub fn decode(octets: &[u8]) -> Result<Vec<u32>, Refusal> {
    let refusal = Refusal::plain(15);
    let text = std::str::from_utf8(octets).map_err(|_| refusal)?;
    let lower = text.to_ascii_lowercase();
    let tail = lower.strip_prefix(PREFIX).ok_or(refusal)?;
    let label = RFC.decode_any(tail).ok_or(refusal)?;
    match encode(&label) {
        Ok(encoded) if encoded == lower => Ok(label),
        _ => Err(refusal),
    }
}
