//! The probe: one case a line, one answer a line. The format stands in the
//! README.

use crate::answer::{Answer, Class, Refusal};
use crate::batch;
use crate::calls;
use crate::chars::{self, Kind};
use crate::edition::Edition;
use crate::grammar;
use crate::hope;
use crate::live::{Live, Shown};
use crate::name::{self, Family};
use crate::normal;
use crate::outside::{self, Numbers};
use crate::search::{self, Searched};
use crate::wish::{self, Wished};
use std::fmt::LowerHex;

pub const LONGEST_LINE: usize = 4000;
const LONGEST_BUFFER: usize = 300;

/// The calls that take an edition.
const WITH_EDITION: &str = "CcAaJjLlMVvKQRIOY";

/// The answer to one line, given without its LF.
pub fn answer(line: &[u8]) -> String {
    read_and_answer(line).unwrap_or_else(|| "?".to_string())
}

fn read_and_answer(line: &[u8]) -> Option<String> {
    if line.len() > LONGEST_LINE {
        return None;
    }
    let mut fields = std::str::from_utf8(line).ok()?.split(' ');
    let (call, edition) = read_call(fields.next()?)?;
    let lent = fields.next().and_then(decimal)?;
    let numbers: Vec<u32> = fields.map(hexadecimal).collect::<Option<_>>()?;
    match call {
        "B" | "D" | "F" | "U" | "W" | "Y" => {
            let narrow = |number: &u32| u8::try_from(*number).ok();
            let octets: Vec<u8> = numbers.iter().map(narrow).collect::<Option<_>>()?;
            on_octets(call, edition, lent, &octets)
        }
        _ => on_numbers(call, edition, lent, &numbers),
    }
}

/// The call's letter, and the edition that may stand after it: any number of 32
/// bits. Without one it is today's.
fn read_call(word: &str) -> Option<(&str, u32)> {
    let (call, edition) = word.split_at_checked(1)?;
    match edition {
        "" => Some((call, Edition::Today.number())),
        _ if !WITH_EDITION.contains(call) => None,
        _ => Some((call, edition.parse().ok().filter(|number: &u32| number.to_string() == edition)?)),
    }
}

/// The calls on code points. Whether a call is lent the table of kanji or
/// names it itself is one here.
fn on_numbers(call: &str, edition: u32, lent: usize, numbers: &[u32]) -> Option<String> {
    Some(match call {
        "N" => in_points(lent, |buffer| plain(&calls::normal_form(numbers, buffer))),
        "C" | "c" => in_points(lent, |buffer| with_labels(&calls::check(numbers, edition, buffer))),
        "A" | "a" => in_octets(lent, |buffer| with_kinds(&calls::ascii_form(numbers, edition, buffer))),
        "E" => in_octets(lent, |buffer| plain(&calls::encode_label(numbers, buffer))),
        "H" | "h" => in_octets(lent, |buffer| plain(&calls::host_form(numbers, buffer))),
        "X" => in_octets(lent, |buffer| plain(&calls::label_form(numbers, buffer))),
        "R" => in_points(lent, |buffer| asked_first(numbers, edition, buffer)),
        "S" | "s" => flag(grammar::second_reader(numbers)).to_string(),
        "Z" | "z" => searched(search::acceptable(numbers)),
        "L" | "l" | "J" | "j" => live(edition, numbers),
        "V" | "v" | "G" | "g" => live_host(edition, numbers),
        "M" => hopes(edition, numbers),
        "P" => words((0..=lent).map(|entry| normal::place_of(numbers, entry))),
        "I" => flag(Edition::numbered(edition).is_some()).to_string(),
        "K" => characters(edition, numbers),
        "T" => lists(lent, numbers),
        "Q" => label(edition, lent, numbers)?,
        "O" => outside_points(edition, lent, numbers)?,
        "w" => wishes(lent, numbers),
        "o" => told_wishes(lent, numbers),
        _ => return None,
    })
}

fn on_octets(call: &str, edition: u32, lent: usize, octets: &[u8]) -> Option<String> {
    Some(match call {
        "D" => in_points(lent, |buffer| plain(&calls::decode_label(octets, buffer))),
        "U" => in_points(lent, |buffer| counted(calls::decode_utf8(octets, buffer))),
        "W" => in_octets(lent, |buffer| counted(calls::answer_line(octets, buffer))),
        "F" => fields(lent, octets),
        "Y" => outside_octets(edition, lent, octets)?,
        _ => hex_list(&batch::desk(octets)),
    })
}

fn decimal(field: &str) -> Option<usize> {
    let number: usize = field.parse().ok()?;
    (number <= LONGEST_BUFFER && number.to_string() == field).then_some(number)
}

fn hexadecimal(field: &str) -> Option<u32> {
    let number = u32::from_str_radix(field, 16).ok()?;
    (format!("{number:x}") == field).then_some(number)
}

fn words<T: ToString>(entries: impl Iterator<Item = T>) -> String {
    let words: Vec<String> = entries.map(|entry| entry.to_string()).collect();
    words.join(" ")
}

fn hex_list<T: LowerHex>(entries: &[T]) -> String {
    words(entries.iter().map(|entry| format!("{entry:x}")))
}

fn flag(yes: bool) -> char {
    if yes {
        '1'
    } else {
        '0'
    }
}

fn plain(answer: &Answer) -> String {
    format!("{} {} {}", answer.number, answer.place, answer.length)
}

fn with_labels(answer: &Answer) -> String {
    let (class, labels) = (Class::letter(answer.class), answer.labels.word());
    format!("{} {} {class} {labels} {}", answer.number, answer.place, answer.length)
}

fn with_kinds(answer: &Answer) -> String {
    let (class, kinds) = (Class::letter(answer.class), chars::letters(&answer.kinds));
    format!("{} {} {class} {kinds} {}", answer.number, answer.place, answer.length)
}

/// Whether a call did its work, and the count it gives.
fn counted(count: Option<usize>) -> String {
    format!("{} {}", flag(count.is_some()), count.unwrap_or(0))
}

fn in_points(lent: usize, call: impl FnOnce(&mut [u32]) -> String) -> String {
    run((0..lent as u32).map(|i| 0xAAAA_AAAA - i).collect(), call)
}

fn in_octets(lent: usize, call: impl FnOnce(&mut [u8]) -> String) -> String {
    run((0..lent).map(|i| 255 - (i % 16) as u8).collect(), call)
}

/// Runs a call on a buffer and prints its answer and what it changed.
fn run<T: Copy + PartialEq + LowerHex>(before: Vec<T>, call: impl FnOnce(&mut [T]) -> String) -> String {
    let mut buffer = before.clone();
    let mut out = call(&mut buffer);
    let changed = |i: &usize| buffer[*i] != before[*i];
    let end = (0..buffer.len()).rfind(changed).map_or(0, |last| last + 1);
    for (now, held) in buffer[..end].iter().zip(&before) {
        out += &match now == held {
            true => " -".to_string(),
            false => format!(" {now:x}"),
        };
    }
    out
}

/// What a call of the outside returns, the number, and its twelve numbers.
fn told(numbers: Numbers) -> String {
    format!("{:x} {}", numbers[0], hex_list(&numbers))
}

/// A call of the outside on code points; LEN says which.
fn outside_points(edition: u32, which: usize, text: &[u32]) -> Option<String> {
    let live = || outside::typed(edition, text);
    let looked = |shown: Shown| with_text(told(outside::looked(&shown)), &shown.text);
    Some(match which {
        0 => in_points(256, |form| told(outside::check(edition, text, form))),
        1 | 8 => in_octets(192, |ascii| told(outside::to_ascii(edition, text, ascii))),
        2 => flag(outside::may_become(edition, text)).to_string(),
        3 | 9 => in_octets(255, |ascii| told(outside::host_to_ascii(text, ascii))),
        4 => in_octets(63, |ascii| told(outside::encode(text, ascii))),
        5 => looked(live().look()),
        6 => looked(live().look_at_host()),
        7 => flag(live().may_become()).to_string(),
        10 => with_text("258".to_string(), &outside::state(edition, text)),
        11 => flag(outside::is_edition(edition)).to_string(),
        12 => told_read(search::acceptable(text)),
        _ => return None,
    })
}

/// A call of the outside on octets; LEN says which.
fn outside_octets(edition: u32, which: usize, octets: &[u8]) -> Option<String> {
    Some(match which {
        0 => {
            in_points(256, |form| told(outside::of_utf8(octets, |text| outside::check(edition, text, form))))
        }
        1 => in_octets(192, |ascii| {
            told(outside::of_utf8(octets, |text| outside::to_ascii(edition, text, ascii)))
        }),
        2 => {
            in_octets(255, |ascii| told(outside::of_utf8(octets, |text| outside::host_to_ascii(text, ascii))))
        }
        3 => in_points(63, |label| told(outside::decode(octets, label))),
        4 => in_octets(256, |reply| format!("{:x}", calls::answer_line(octets, reply).unwrap_or(0))),
        _ => return None,
    })
}

/// Yes or no, and how many code points were read.
fn searched(searched: Searched) -> String {
    format!("{} {}", flag(searched.yes), searched.read)
}

/// The same as the outside tells it: what it returns, and what it puts where it
/// was lent one number.
fn told_read(searched: Searched) -> String {
    format!("{} {:x}", flag(searched.yes), searched.read)
}

/// The numbers before index LEN, and the others.
fn parted(end: usize, numbers: &[u32]) -> (&[u32], &[u32]) {
    numbers.split_at(end.min(numbers.len()))
}

/// First and second wish: which won, number and place of both checks, and the
/// part with its length. To be lent the table of kanji or to name it is one here.
/// Then how long the part is where neither won, the first, the second, and where a
/// number is told that is no wish, which stands for the first.
fn wishes(end: usize, numbers: &[u32]) -> String {
    let (first, second) = parted(end, numbers);
    let Wished { won, checks: [one, other], part } = wish::wished(first, second);
    let head = format!("{won} {} {} {} {} {}", one.0, one.1, other.0, other.1, part.len());
    let said: String = part.iter().fold(head, |said, code| said + &format!(" {code:x}"));
    let (one, other) = (wish::part(first).len(), wish::part(second).len());
    format!("{said} / {said} / 0 {one} {other} {one}")
}

/// The same as the outside tells it: what it returns, and its six numbers.
fn told_wishes(end: usize, numbers: &[u32]) -> String {
    let (first, second) = parted(end, numbers);
    let Wished { won, checks: [one, other], part } = wish::wished(first, second);
    let told = [won.into(), one.0.into(), one.1, other.0.into(), other.1, part.len()];
    format!("{won:x} {}", hex_list::<usize>(&told))
}

/// The state of the live check after these code points.
fn stepped(edition: u32, numbers: &[u32]) -> Live {
    let mut state = Live::fresh(edition);
    for code in numbers {
        state.step(*code);
    }
    state
}

/// The beginning of an answer and the shown entries up to the last that is not
/// zero.
fn with_text(head: String, entries: &[u32]) -> String {
    match entries.iter().rposition(|entry| *entry != 0) {
        Some(last) => format!("{head} {}", hex_list(&entries[..=last])),
        None => head,
    }
}

/// What the live check shows after the last code point. The judge says the
/// same of the whole text.
fn live(edition: u32, numbers: &[u32]) -> String {
    let shown = stepped(edition, numbers).look();
    let (class, labels) = (Class::letter(shown.class), shown.labels.word());
    with_text(format!("{} {} {class} {labels} {}", shown.number, shown.place, shown.length), &shown.text)
}

/// The same of a host, which has no class and no places of labels.
fn live_host(edition: u32, numbers: &[u32]) -> String {
    let shown = stepped(edition, numbers).look_at_host();
    with_text(format!("{} {} {}", shown.number, shown.place, shown.length), &shown.text)
}

/// The normal form's answer; then whether it holds an unfit character, and the
/// place of the first in the text. Of a text that is refused neither is told.
fn asked_first(numbers: &[u32], edition: u32, buffer: &mut [u32]) -> String {
    let edition = Edition::numbered_or_today(edition);
    let answer = calls::normal_form(numbers, buffer);
    let unfit = name::unfit_place(numbers, edition).filter(|_place| answer.number == 0);
    format!("{} {} {}", plain(&answer), flag(unfit.is_some()), unfit.unwrap_or(0))
}

/// A flag for every state of the live check, then those of the three ways to
/// ask it of the whole text. Here they are one.
fn hopes(edition: u32, numbers: &[u32]) -> String {
    let mut state = Live::fresh(edition);
    let mut run = flag(state.may_become()).to_string();
    for code in numbers {
        state.step(*code);
        run.push(flag(state.may_become()));
    }
    let whole = Edition::numbered(edition).is_some_and(|edition| hope::may_become(numbers, edition));
    let whole = flag(whole).to_string();
    format!("{run} {}", whole.repeat(3))
}

/// What each number is, what it becomes, and what it and the next become. To
/// ask by the table that is lent or by the library's own is one here.
fn characters(edition: u32, numbers: &[u32]) -> String {
    let edition = Edition::numbered_or_today(edition);
    let next = numbers.iter().skip(1).chain([&0]);
    words(numbers.iter().zip(next).map(|(code, next)| {
        let ascii = [chars::is_letter_or_digit(*code), chars::is_ascii_set(*code)];
        let flags = ascii.into_iter().chain([chars::is_japanese(*code, edition)]);
        let flags: String = flags.map(flag).collect();
        let kind = Kind::letter(chars::kind(*code, edition));
        let class = normal::replacement_class(*code);
        let joined = normal::joined(*code, *next).unwrap_or(0);
        format!("{flags}{kind}{kind}{class} {:x} {joined:x}", normal::replaced(*code))
    }))
}

/// Whether two lists are the same, whether the first holds each number, and
/// a copy of the first to a buffer as long as the second.
fn lists(end: usize, numbers: &[u32]) -> String {
    let (first, second) = parted(end, numbers);
    in_points(second.len().min(LONGEST_BUFFER), |buffer| {
        calls::copy(first, buffer);
        let held = numbers.iter().map(|number| flag(first.contains(number)));
        [flag(first == second)].into_iter().chain(held).collect()
    })
}

/// The number that its upper and its lower half make.
fn whole(halves: &[u32]) -> usize {
    halves.iter().fold(0, |whole, half| whole << 32 | *half as usize)
}

/// The refusal of a label, where one ends, its first unfit character, whether
/// it is Japanese, whether it holds only what a label may and, where it does,
/// its kinds, the refusals if it is taken for Japanese and for ASCII, how it may
/// end a name, and what each character of it is. The label comes after six
/// numbers: the halves of where to begin, of the least length and of the label's
/// place. LEN is 0 where the hyphen pair is refused in ASCII labels alone.
fn label(edition: u32, lent: usize, numbers: &[u32]) -> Option<String> {
    let edition = Edition::numbered_or_today(edition);
    let (halves, label) = numbers.split_at_checked(6)?;
    let (from, least, place) = (whole(&halves[..2]), whole(&halves[2..4]), whole(&halves[4..]));
    let family = Family { shortest: least, pair_in_none: lent != 0 };
    let said = |checked: Result<(), Refusal>| match checked {
        Ok(()) => "0 0".to_string(),
        Err(refusal) => format!("{} {}", refusal.number, refusal.place),
    };
    let rule = said(name::check_label(label, family, edition, place));
    let (end, unfit) = (name::label_end(label, from), name::first_unfit(label, edition));
    let japanese = flag(name::is_japanese_label(label, edition));
    let fit = label.iter().all(|code| name::may_be_in_label(*code, edition));
    let kinds = chars::letters(&chars::kinds(if fit { label } else { &[] }, edition));
    let for_japanese = said(name::check_taken(label, true, family, edition, place));
    let for_ascii = said(name::check_taken(label, false, family, edition, place));
    let ending = endings(label, edition);
    let mut out =
        format!("{rule} {end} {unfit} {japanese} {}{kinds} {for_japanese} {for_ascii} {ending}", flag(fit));
    for code in label {
        let flags = [name::may_be_in_label(*code, edition), name::is_ordinary(*code, edition)];
        out.push(' ');
        out.extend(flags.map(flag));
    }
    Some(out)
}

/// Whether a label is "jp", begins it, is a prefecture label, begins one.
fn endings(label: &[u32], edition: Edition) -> String {
    let last = [name::is_jp(label), name::begins_jp(label)];
    let middle = [name::is_prefecture_label(label, edition), name::begins_prefecture_label(label, edition)];
    last.into_iter().chain(middle).map(flag).collect()
}

/// The only tab, the field from a place on, the first field and the one where
/// reading goes on, and whether the whole is an id.
fn fields(at: usize, line: &[u8]) -> String {
    let tab = batch::only_tab(line).map_or("-".to_string(), |tab| tab.to_string());
    let first = batch::field_at(line, 0);
    let second = batch::field_at(line, first[2]);
    let places = words([batch::field_at(line, at), first, second].into_iter().flatten());
    format!("{tab} {places} {}", flag(batch::is_id(line)))
}
