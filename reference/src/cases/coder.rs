//! Cases of the coder and the decoder.

use super::random::{any_label, scalar};
use super::{CaseFile, SEED};
use crate::coder::{encode, encode_by_insertion, Parameters, RFC};
use crate::points;
use crate::random::Random;

/// RFC 3492, section 7.1, samples A to S: the text and its encoding, in the
/// letter cases the RFC prints.
pub const SAMPLES: [(&str, &str); 19] = [
    ("ليهمابتكلموشعربي؟", "egbpdaj6bu4bxfgehfvwxn"),
    ("他们为什么不说中文", "ihqwcrb4cv8a8dqg056pqjye"),
    ("他們爲什麽不說中文", "ihqwctvzc91f659drss3x8bo0yb"),
    ("Pročprostěnemluvíčesky", "Proprostnemluvesky-uyb24dma41a"),
    ("למההםפשוטלאמדבריםעברית", "4dbcagdahymbxekheh6e0a7fei0b"),
    ("यहलोगहिन्दीक्योंनहींबोलसकतेहैं", "i1baa7eci9glrd9b2ae1bj0hfcgg6iyaf8o0a1dig0cd"),
    ("なぜみんな日本語を話してくれないのか", "n8jok5ay5dzabd5bym9f0cm5685rrjetr6pdxa"),
    (
        "세계의모든사람들이한국어를이해한다면얼마나좋을까",
        "989aomsvi5e83db1d2a355cv1e0vak1dwrv93d5xbh15a0dt30a5jpsd879ccm6fea98c",
    ),
    ("почемужеонинеговорятпорусски", "b1abfaaepdrnnbgefbaDotcwatmq2g4l"),
    ("PorquénopuedensimplementehablarenEspañol", "PorqunopuedensimplementehablarenEspaol-fmd56a"),
    ("TạisaohọkhôngthểchỉnóitiếngViệt", "TisaohkhngthchnitingVit-kjcr8268qyxafd2f1b9g"),
    ("3年B組金八先生", "3B-ww4c5e180e575a65lsy2b"),
    ("安室奈美恵-with-SUPER-MONKEYS", "-with-SUPER-MONKEYS-pc58ag80a8qai00g7n9n"),
    ("Hello-Another-Way-それぞれの場所", "Hello-Another-Way--fc4qua05auwb3674vfr0b"),
    ("ひとつ屋根の下2", "2-u9tlzr9756bt3uc0v"),
    ("MajiでKoiする5秒前", "MajiKoi5-783gue6qz075azm5e"),
    ("パフィーdeルンバ", "de-jg4avhby1noc0d"),
    ("そのスピードで", "d9juau41awczczp"),
    ("-> $1.00 <-", "-> $1.00 <--"),
];

/// Bent parameters. Each must change the answer of some case. An initial bias
/// of 71 to 82 gives the same thresholds (1, 1, 26, 26, ...), so no case can
/// tell these apart; 70 and 83 are the nearest that differ.
pub fn mutants() -> Vec<(&'static str, Parameters)> {
    vec![
        ("base 35", Parameters { base: 35, ..RFC }),
        ("base 37", Parameters { base: 37, ..RFC }),
        ("tmin 0", Parameters { tmin: 0, ..RFC }),
        ("tmin 2", Parameters { tmin: 2, ..RFC }),
        ("tmax 25", Parameters { tmax: 25, ..RFC }),
        ("tmax 27", Parameters { tmax: 27, ..RFC }),
        ("skew 37", Parameters { skew: 37, ..RFC }),
        ("skew 39", Parameters { skew: 39, ..RFC }),
        ("damp 699", Parameters { damp: 699, ..RFC }),
        ("damp 701", Parameters { damp: 701, ..RFC }),
        ("damp 2", Parameters { damp: 2, ..RFC }),
        ("initial bias 70", Parameters { initial_bias: 70, ..RFC }),
        ("initial bias 83", Parameters { initial_bias: 83, ..RFC }),
        ("initial n 127", Parameters { initial_n: 127, ..RFC }),
        ("initial n 129", Parameters { initial_n: 129, ..RFC }),
        ("large 454", Parameters { large: 454, ..RFC }),
        ("large 456", Parameters { large: 456, ..RFC }),
    ]
}

pub fn add(file: &mut CaseFile) {
    let mut random = Random::seeded(SEED ^ 0xC0DE);
    samples(file);
    damaged(file);
    not_encodable(file);
    single_octets(file);
    pinning(file, &mut random);
    lengths(file, &mut random);
    edited(file, &mut random);
    for _ in 0..150 {
        file.label(&any_label(&mut random));
    }
    buffers(file);
}

fn samples(file: &mut CaseFile) {
    for (text, encoded) in SAMPLES {
        file.label(&points(text));
        file.label(&points(&text.to_lowercase()));
        let whole = format!("xn--{encoded}");
        file.octets(whole.as_bytes());
        file.octets(whole.to_lowercase().as_bytes());
        file.octets(whole.to_uppercase().as_bytes());
        file.octets(encoded.as_bytes());
        for end in [4, 5, whole.len() - 2, whole.len() - 1] {
            file.octets(&whole.as_bytes()[..end]);
        }
        file.octets(format!("{whole}-").as_bytes());
        file.octets(format!("{whole}a").as_bytes());
    }
}

/// The encoding of any code points at all, encodable or not.
fn forced(label: &[u32]) -> Vec<u8> {
    format!("xn--{}", RFC.encode_any(label)).into_bytes()
}

/// Octets that are no encoded label, or hardly one.
const DAMAGED: [&str; 50] = [
    "", "x", "xn", "xn-", "xn--", "xn---", "xn----", "xn-----", "xn--a", "xn--a-", "xn--abc-", "xn--abc",
    "xn---l8j", "xn----l8j", "xn--l8j-", "xn--l8j--", "XN--L8J", "Xn--l8J", "l8j", "-l8j", "xn-l8j",
    "xm--l8j", "yn--l8j", "xn-_l8j", "xn__l8j", " xn--l8j", "xn--l8j ", "xn--l8j.", "xn--l 8j",
    "xn--\u{3042}", "xn--l8\u{FC}", "\u{FF58}n--l8j", "xn--a_b-l8j", "xn--a.b-l8j", "xn--A-L8J",
    "xn--99999999", "xn--999999999999999999", "xn--a-99999999", "xn--0", "xn--9", "xn--z", "xn--zz",
    "xn--zzz", "xn--zzzz", "xn--zzzzz", "xn--zzzzzz", "xn--zzzzzzz", "xn--aaaaaaaaaaaaaaaaaaaaaaaaaaaaaaaa",
    "xn--jp-", "abc",
];

/// Code points at the edges of what may be encoded.
const EDGES: [u32; 14] = [
    0x7F, 0x80, 0xD7FF, 0xD800, 0xDBFF, 0xDC00, 0xDFFF, 0xE000, 0xFFFF, 0x10FFFF, 0x110000, 0x110001,
    0xFFFFFF, 0xFFFFFFFF,
];

fn damaged(file: &mut CaseFile) {
    for word in DAMAGED {
        file.octets(word.as_bytes());
    }
    for digit in ["9", "z", "a", "0", "-"] {
        for times in [12, 58, 59, 60, 61] {
            file.octets(format!("xn--{}", digit.repeat(times)).as_bytes());
        }
    }
    for code in EDGES {
        for label in [vec![code], vec![0x3042, code], vec![0x61, code, 0x62], vec![code, 0x10FFFF]] {
            file.label(&label);
            file.octets(&forced(&label));
        }
    }
    for text in ["a", "abc", "a-b", "-", "--", "ABC", "A\u{3042}", "a b\u{3042}", "a.\u{3042}"] {
        file.label(&points(text));
        file.octets(&forced(&points(text)));
    }
}

/// Every ASCII character beside a kana, and each kind of label that has none.
fn not_encodable(file: &mut CaseFile) {
    for code in 0..0x82 {
        file.add('E', 63, &[0x3042, code]);
    }
    file.add::<u32>('E', 63, &[]);
    for length in [1, 2, 62, 63, 64, 65, 256] {
        file.label(&vec![0x61; length]);
        file.label(&vec![0x3042; length]);
        let mut mixed = vec![0x61; length - 1];
        mixed.push(0x3042);
        file.label(&mixed);
    }
}

/// Every octet at the end, in the midst and in the prefix of an encoded label.
fn single_octets(file: &mut CaseFile) {
    for octet in 0..=255u8 {
        file.octets(&[b'x', b'n', b'-', b'-', b'l', b'8', octet]);
    }
    for octet in (0..=255u8).filter(|octet| octet.is_ascii() || octet % 16 == 0) {
        file.octets(&[b'x', b'n', b'-', b'-', octet, b'-', b'l', b'8', b'j']);
        file.octets(&[b'x', octet, b'-', b'-', b'l', b'8', b'j']);
    }
}

/// For each bent parameter, the first few random labels that notice it.
fn pinning(file: &mut CaseFile, random: &mut Random) {
    for (_, bent) in mutants() {
        let mut found = 0;
        while found < 6 {
            let label = any_label(random);
            let notices = bent.encode_any(&label) != RFC.encode_any(&label);
            if encode(&label).is_ok() && notices {
                file.label(&label);
                found += 1;
            }
        }
    }
}

/// Labels whose encoding ends near 63 octets. Those over it are shown to the
/// decoder as well.
fn lengths(file: &mut CaseFile, random: &mut Random) {
    for octets in 58..=68 {
        let mut found = 0;
        while found < 16 {
            let mut label = any_label(random);
            while encode_by_insertion(&label).len() + 4 < octets && label.len() < 63 {
                let code = match random.below(3) {
                    0 => 0x61,
                    1 => 0x3041 + random.below(83) as u32,
                    _ => scalar(random),
                };
                label.insert(random.between(0, label.len()), code);
            }
            if forced(&label).len() == octets {
                file.label(&label);
                file.octets(&forced(&label));
                found += 1;
            }
        }
    }
}

/// Encoded labels with one octet changed, put in or left out.
fn edited(file: &mut CaseFile, random: &mut Random) {
    let octets: Vec<u8> = (b'a'..=b'z').chain(b'0'..=b'9').chain(*b"-AZ_.").collect();
    for _ in 0..300 {
        let Ok(encoded) = encode(&any_label(random)) else {
            continue;
        };
        let mut encoded = encoded.into_bytes();
        let at = random.below(encoded.len());
        match random.below(3) {
            0 => encoded[at] = *random.pick(&octets),
            1 => encoded.insert(at, *random.pick(&octets)),
            _ => drop(encoded.remove(at)),
        }
        file.octets(&encoded);
    }
}

/// Lent buffers of many lengths, for good and bad labels alike.
fn buffers(file: &mut CaseFile) {
    let full = vec![0x3042; 50];
    for lent in [0, 1, 2, 6, 7, 8, 61, 62, 63, 64, 65, 128, 191, 192, 193, 255, 256, 257, 300] {
        for label in [points(""), points("\u{3042}"), points("abc"), vec![0x3042; 63], full.clone()] {
            file.add('E', lent, &label);
        }
        let encoded = encode(&full).expect("fifty of 3042 fit");
        for octets in ["", "xn--l8j", "XN--L8J", "xn--", "abc", &encoded] {
            file.add('D', lent, octets.as_bytes());
        }
    }
}
