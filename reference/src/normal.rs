//! The normal form: replacement, then composition.

use crate::chars::PERIOD;
use std::collections::HashMap;
use std::sync::OnceLock;

const HALF_WIDTH: &str = "･ｦｧｨｩｪｫｬｭｮｯｰｱｲｳｴｵｶｷｸｹｺｻｼｽｾｿﾀﾁﾂﾃﾄﾅﾆﾇﾈﾉﾊﾋﾌﾍﾎﾏﾐﾑﾒﾓﾔﾕﾖﾗﾘﾙﾚﾛﾜﾝﾞﾟ";
const FULL_WIDTH: &str = "・ヲァィゥェォャュョッーアイウエオカキクケコサシスセソタチツテトナニヌネノハヒフヘホマミムメモヤユヨラリルレロワン゛゜";

const PLAIN: &str = "カキクケコサシスセソタチツテトハヒフヘホウかきくけこさしすせそたちつてとはひふへほゝヽ";
const VOICED: &str = "ガギグゲゴザジズゼゾダヂヅデドバビブベボヴがぎぐげござじずぜぞだぢづでどばびぶべぼゞヾ";
const PLAIN_H: &str = "ハヒフヘホはひふへほ";
const HALF_VOICED: &str = "パピプペポぱぴぷぺぽ";

/// The two marks, full-width.
pub const MARK_VOICED: char = '\u{309B}';
pub const MARK_HALF_VOICED: char = '\u{309C}';

/// One character of the normal form, with the place in the application text
/// of the (first) code point it came from.
#[derive(Clone, Copy, Debug, PartialEq, Eq)]
pub struct Placed {
    pub code: u32,
    pub place: usize,
}

/// What each code point becomes; one that is not a key stays.
pub fn replacements() -> &'static HashMap<u32, u32> {
    static MAP: OnceLock<HashMap<u32, u32>> = OnceLock::new();
    MAP.get_or_init(|| {
        let mut map = HashMap::new();
        let mut pair = |from: char, to: char| map.insert(u32::from(from), u32::from(to));
        for (letter, order) in ('a'..='z').zip(0u32..) {
            for first in ['A', 'Ａ', 'ａ'] {
                pair(char::from_u32(u32::from(first) + order).unwrap(), letter);
            }
        }
        for (wide, digit) in ('０'..='９').zip('0'..='9') {
            pair(wide, digit);
        }
        // The second of these is document 02's, K2.
        for hyphen in ['\u{FF0D}', '\u{2212}'] {
            pair(hyphen, '-');
        }
        for separator in ['．', '。', '｡'] {
            pair(separator, '.');
        }
        for (half, full) in HALF_WIDTH.chars().zip(FULL_WIDTH.chars()) {
            pair(half, full);
        }
        map
    })
}

/// What each base followed by a mark becomes.
pub fn compositions() -> &'static HashMap<(u32, u32), u32> {
    static MAP: OnceLock<HashMap<(u32, u32), u32>> = OnceLock::new();
    MAP.get_or_init(|| {
        let voiced = PLAIN.chars().zip(VOICED.chars());
        let half_voiced = PLAIN_H.chars().zip(HALF_VOICED.chars());
        voiced
            .map(|pair| (pair, MARK_VOICED))
            .chain(half_voiced.map(|pair| (pair, MARK_HALF_VOICED)))
            .map(|((base, whole), mark)| ((base.into(), mark.into()), whole.into()))
            .collect()
    })
}

/// What a code point becomes.
pub fn replaced(code: u32) -> u32 {
    *replacements().get(&code).unwrap_or(&code)
}

/// The one character that a base and a mark become.
pub fn joined(base: u32, mark: u32) -> Option<u32> {
    compositions().get(&(base, mark)).copied()
}

/// The letter of a code point's replacement class: L letter, D digit, H hyphen,
/// S separator, K half-width kana, M mark, O other. Letters and digits are
/// so in either case and width; the half-width marks are half-width kana.
pub fn replacement_class(code: u32) -> char {
    let is_half_width = char::from_u32(code).is_some_and(|c| HALF_WIDTH.contains(c));
    match char::from_u32(replaced(code)) {
        _ if is_half_width => 'K',
        Some('a'..='z') => 'L',
        Some('0'..='9') => 'D',
        Some('-') => 'H',
        Some('.') => 'S',
        Some(MARK_VOICED | MARK_HALF_VOICED) => 'M',
        _ => 'O',
    }
}

/// The normal form with the places its characters came from.
pub fn placed_normal_form(text: &[u32]) -> Vec<Placed> {
    let replaced: Vec<u32> = text.iter().map(|code| replaced(*code)).collect();
    let mut normal = Vec::new();
    let mut place = 0;
    while place < replaced.len() {
        let code = replaced[place];
        let next = replaced.get(place + 1).copied();
        let whole = next.and_then(|mark| joined(code, mark));
        normal.push(Placed { code: whole.unwrap_or(code), place });
        place += if whole.is_some() { 2 } else { 1 };
    }
    normal
}

/// The normal form alone, of a text of any length.
pub fn normal_form(text: &[u32]) -> Vec<u32> {
    placed_normal_form(text).iter().map(|c| c.code).collect()
}

/// The place in the text where an entry of its normal form began; 0 where
/// there is no such entry.
pub fn place_of(text: &[u32], entry: usize) -> usize {
    placed_normal_form(text).get(entry).map_or(0, |c| c.place)
}

/// The labels: the stretches between periods of a normal form.
pub fn labels(normal: &[u32]) -> Vec<Vec<u32>> {
    normal.split(|code| *code == PERIOD).map(<[u32]>::to_vec).collect()
}
