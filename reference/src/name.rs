//! The name rules in the order of document 01, with row 17 of document 02's K3 and
//! row 25 of its K12. What an edition decides is asked of it.

use crate::answer::{Class, LabelPlaces, Refusal};
use crate::chars::{is_ascii_set, is_japanese, kinds, Kinds, HYPHEN, MIDDLE_DOT, PERIOD};
use crate::coder;
use crate::edition::{Edition, EDITIONS};
use crate::normal::{labels, normal_form, placed_normal_form};
use crate::points;
use std::collections::HashSet;
use std::sync::OnceLock;

pub const LONGEST_TEXT: usize = 256;

const LATIN_PREFECTURES: &str = "\
HOKKAIDO AOMORI IWATE MIYAGI AKITA YAMAGATA FUKUSHIMA IBARAKI TOCHIGI GUNMA \
SAITAMA CHIBA TOKYO KANAGAWA NIIGATA TOYAMA ISHIKAWA FUKUI YAMANASHI NAGANO \
GIFU SHIZUOKA AICHI MIE SHIGA KYOTO OSAKA HYOGO NARA WAKAYAMA TOTTORI SHIMANE \
OKAYAMA HIROSHIMA YAMAGUCHI TOKUSHIMA KAGAWA EHIME KOCHI FUKUOKA SAGA NAGASAKI \
KUMAMOTO OITA MIYAZAKI KAGOSHIMA OKINAWA";

/// Document 004's code points, written as the characters they are.
const JAPANESE_PREFECTURES: &str = "\
北海道 青森 岩手 宮城 秋田 山形 福島 茨城 栃木 群馬 埼玉 千葉 東京 神奈川 新潟 \
富山 石川 福井 山梨 長野 岐阜 静岡 愛知 三重 滋賀 京都 大阪 兵庫 奈良 和歌山 \
鳥取 島根 岡山 広島 山口 徳島 香川 愛媛 高知 福岡 佐賀 長崎 熊本 大分 宮崎 \
鹿児島 沖縄";

/// A name that passed all checks.
#[derive(Clone, Debug, PartialEq, Eq)]
pub struct Accepted {
    pub normal: Vec<u32>,
    pub labels: Vec<Vec<u32>>,
    pub class: Class,
    /// Where the labels stand in the normal form.
    pub places: LabelPlaces,
}

/// The whole ASCII form of such a name.
#[derive(Clone, Debug, PartialEq, Eq)]
pub struct Formed {
    pub form: String,
    pub class: Class,
    /// The kinds found in the leftmost label of the normal form.
    pub kinds: Kinds,
}

/// The Latin prefecture labels in lower case.
pub fn latin_prefectures() -> Vec<String> {
    let words = LATIN_PREFECTURES.split_whitespace();
    words.map(str::to_lowercase).collect()
}

pub fn japanese_prefectures() -> Vec<String> {
    let words = JAPANESE_PREFECTURES.split_whitespace();
    words.map(String::from).collect()
}

/// The prefecture labels of an edition: none, 47 or 94.
fn prefectures(edition: Edition) -> &'static HashSet<Vec<u32>> {
    static LABELS: [OnceLock<HashSet<Vec<u32>>>; EDITIONS.len()] = [const { OnceLock::new() }; 4];
    LABELS[edition.order()].get_or_init(|| {
        let labels: HashSet<Vec<u32>> = edition.prefectures().iter().map(|word| points(word)).collect();
        assert_eq!(labels.len(), [0, 0, 47, 94][edition.order()]);
        labels
    })
}

pub fn is_prefecture_label(label: &[u32], edition: Edition) -> bool {
    prefectures(edition).contains(label)
}

/// Whether one of the prefecture labels begins with these characters, or is them.
pub fn begins_prefecture_label(begun: &[u32], edition: Edition) -> bool {
    prefectures(edition).iter().any(|label| label.starts_with(begun))
}

/// So many labels a name has at most: three where there are prefecture names.
fn most_labels(edition: Edition) -> usize {
    match prefectures(edition).is_empty() {
        true => 2,
        false => 3,
    }
}

pub fn is_jp(label: &[u32]) -> bool {
    label == points("jp")
}

/// Whether "jp" begins with these characters, or is them.
pub fn begins_jp(begun: &[u32]) -> bool {
    points("jp").starts_with(begun)
}

pub fn is_japanese_label(label: &[u32], edition: Edition) -> bool {
    label.iter().any(|code| is_japanese(*code, edition))
}

/// Refusal 25, which comes before all that is asked of the text.
pub fn check_edition(number: u32) -> Result<Edition, Refusal> {
    Edition::numbered(number).ok_or(Refusal::plain(25))
}

/// Refusals 2 and 3.
pub fn check_length(text: &[u32]) -> Result<(), Refusal> {
    match text.len() {
        0 => Err(Refusal::plain(2)),
        length if length > LONGEST_TEXT => Err(Refusal::at(3, LONGEST_TEXT)),
        _ => Ok(()),
    }
}

/// What a label may hold.
pub fn may_be_in_label(code: u32, edition: Edition) -> bool {
    is_ascii_set(code) || is_japanese(code, edition)
}

fn is_permitted(code: u32, edition: Edition) -> bool {
    code == PERIOD || may_be_in_label(code, edition)
}

/// The index of the first character that is not permitted, or the length.
pub fn first_unfit(normal: &[u32], edition: Edition) -> usize {
    normal.iter().position(|code| !is_permitted(*code, edition)).unwrap_or(normal.len())
}

/// The place in a text of the first character of its normal form that is not
/// permitted.
pub fn unfit_place(text: &[u32], edition: Edition) -> Option<usize> {
    placed_normal_form(text).iter().find(|c| !is_permitted(c.code, edition)).map(|c| c.place)
}

/// The normal form of a text, after refusals 2 to 4, which are asked of every
/// text first.
pub fn read(text: &[u32], edition: Edition) -> Result<Vec<u32>, Refusal> {
    check_length(text)?;
    match unfit_place(text, edition) {
        Some(place) => Err(Refusal::at(4, place)),
        None => Ok(normal_form(text)),
    }
}

/// Refusal 6.
pub fn check_empty(labels: &[Vec<u32>]) -> Result<(), Refusal> {
    match labels.iter().position(Vec::is_empty) {
        Some(empty) => Err(Refusal::at(6, empty)),
        None => Ok(()),
    }
}

/// Where the label ends that is read from an index on. Past the text's end
/// there is nothing to read, so it ends where it begins.
pub fn label_end(normal: &[u32], from: usize) -> usize {
    let rest = normal.get(from..).unwrap_or(&[]);
    from + labels(rest)[0].len()
}

/// A Japanese character beside which a middle dot may stand.
pub fn is_ordinary(code: u32, edition: Edition) -> bool {
    is_japanese(code, edition) && ![0x3006, 0x30FC, MIDDLE_DOT].contains(&code)
}

fn breaks_middle_dot_rule(label: &[u32], edition: Edition) -> bool {
    label.contains(&MIDDLE_DOT) && !label.iter().any(|code| is_ordinary(*code, edition))
}

/// Hyphens in the third and fourth places, which RFC 5891 sets aside.
fn has_hyphen_pair(label: &[u32]) -> bool {
    [2, 3].iter().all(|place| label.get(*place) == Some(&HYPHEN))
}

/// What one family of names wants of a label and another does not.
#[derive(Clone, Copy, Debug, PartialEq, Eq)]
pub struct Family {
    /// So many characters an ASCII label has at least.
    pub shortest: usize,
    /// Whether the hyphen pair is refused in Japanese labels too (hosts, K10)
    /// or in ASCII labels alone (names, K3).
    pub pair_in_none: bool,
}

const OF_NAMES: Family = Family { shortest: 3, pair_in_none: false };

/// The first of 7, 8, 9, 17 and 10 that applies to a label, at its place.
pub fn check_label(label: &[u32], family: Family, edition: Edition, place: usize) -> Result<(), Refusal> {
    check_taken(label, is_japanese_label(label, edition), family, edition, place)
}

/// The same of a label that is taken for Japanese or for ASCII, whatever it
/// holds. Document 004 has the middle dot rule for Japanese labels alone.
pub fn check_taken(
    label: &[u32],
    japanese: bool,
    family: Family,
    edition: Edition,
    place: usize,
) -> Result<(), Refusal> {
    let longest = if japanese { 15 } else { 63 };
    let pair_is_refused = family.pair_in_none || !japanese;
    if label.first() == Some(&HYPHEN) || label.last() == Some(&HYPHEN) {
        Err(Refusal::at(7, place))
    } else if !japanese && label.len() < family.shortest {
        Err(Refusal::at(8, place))
    } else if label.len() > longest {
        Err(Refusal::at(9, place))
    } else if pair_is_refused && has_hyphen_pair(label) {
        Err(Refusal::at(17, place))
    } else if japanese && breaks_middle_dot_rule(label, edition) {
        Err(Refusal::at(10, place))
    } else {
        Ok(())
    }
}

/// The refusals of the leftmost label.
pub fn check_leftmost(label: &[u32], edition: Edition) -> Result<(), Refusal> {
    check_label(label, OF_NAMES, edition, 0)
}

/// Where labels stand in the text that they make when they are joined by periods
/// (K7): the first at its start, each other one after the period that follows the
/// one before.
pub fn label_places(labels: &[Vec<u32>]) -> LabelPlaces {
    let mut places = LabelPlaces { count: labels.len(), ..LabelPlaces::default() };
    let mut start = 0;
    for (order, label) in labels.iter().enumerate() {
        places.starts[order] = start;
        places.lengths[order] = label.len();
        start += label.len() + 1;
    }
    places
}

/// The whole check by the rules of an edition, given room: refusals 2 to 12, and 17
/// after 9. Without prefecture names there is no 12.
pub fn check(text: &[u32], edition: Edition) -> Result<Accepted, Refusal> {
    let normal = read(text, edition)?;
    let labels = labels(&normal);
    if !(2..=most_labels(edition)).contains(&labels.len()) {
        return Err(Refusal::plain(5));
    }
    check_empty(&labels)?;
    check_leftmost(&labels[0], edition)?;
    if !labels.last().is_some_and(|last| is_jp(last)) {
        return Err(Refusal::plain(11));
    }
    let class = match labels.len() {
        2 => Class::GeneralUse,
        _ if is_prefecture_label(&labels[1], edition) => Class::Prefecture,
        _ => return Err(Refusal::plain(12)),
    };
    let places = label_places(&labels);
    Ok(Accepted { normal, labels, class, places })
}

/// A label as it stands in the ASCII form: a Japanese one is encoded, an ASCII
/// one left as it is.
pub fn label_form(label: &[u32], edition: Edition) -> Result<String, Refusal> {
    match is_japanese_label(label, edition) {
        true => coder::encode(label),
        false => Ok(label.iter().filter_map(|c| char::from_u32(*c)).collect()),
    }
}

/// The whole ASCII form, given room: the check's refusals, then 14.
pub fn ascii_form(text: &[u32], edition: Edition) -> Result<Formed, Refusal> {
    let accepted = check(text, edition)?;
    let parts: Vec<String> =
        accepted.labels.iter().map(|label| label_form(label, edition)).collect::<Result<_, _>>()?;
    let kinds = kinds(&accepted.labels[0], edition);
    Ok(Formed { form: parts.join("."), class: accepted.class, kinds })
}
