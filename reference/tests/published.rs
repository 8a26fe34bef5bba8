//! What others have published: document 01's own examples, document 004's code
//! points and the samples of RFC 3492; and names that document 02 decides.

use reference::answer::Class;
use reference::cases::coder::SAMPLES;
use reference::cases::{hosts, tried};
use reference::edition::Edition;
use reference::{batch, chars, coder, host, name, normal, points, probe};

#[test]
fn characters_are_as_many_as_document_01_says() {
    assert_eq!(chars::kanji().len(), 6355);
    assert_eq!(chars::kanji_in_rows().len(), 6355);
    assert_eq!(chars::kanji().first(), Some(&0x4E00));
    assert_eq!(chars::kanji().last(), Some(&0x9FA0));
    assert!(!chars::kanji().contains(&0x4EDD));
    assert_eq!(chars::japanese(Edition::Today).len(), 6534);
}

#[test]
fn half_width_kana_go_in_the_order_of_document_01() {
    let listed = "30FB 30F2 30A1 30A3 30A5 30A7 30A9 30E3 30E5 30E7 30C3 30FC 30A2 30A4 30A6 30A8 30AA \
        30AB 30AD 30AF 30B1 30B3 30B5 30B7 30B9 30BB 30BD 30BF 30C1 30C4 30C6 30C8 30CA 30CB 30CC 30CD \
        30CE 30CF 30D2 30D5 30D8 30DB 30DE 30DF 30E0 30E1 30E2 30E4 30E6 30E8 30E9 30EA 30EB 30EC 30ED \
        30EF 30F3 309B 309C";
    let listed: Vec<u32> = listed.split(' ').map(|hex| u32::from_str_radix(hex, 16).unwrap()).collect();
    assert_eq!(listed.len(), 0xFF9F - 0xFF65 + 1);
    for (half, full) in (0xFF65..).zip(listed) {
        assert_eq!(normal::normal_form(&[half]), [full]);
    }
    // 3 times 26 letters, 10 digits, 2 hyphens, 3 separators, 59 kana.
    assert_eq!(normal::replacements().len(), 3 * 26 + 10 + 2 + 3 + 59);
}

#[test]
fn compositions_are_those_of_document_01() {
    let twenty =
        "30AB 30AD 30AF 30B1 30B3 30B5 30B7 30B9 30BB 30BD 30BF 30C1 30C4 30C6 30C8 30CF 30D2 30D5 30D8 30DB";
    let twenty: Vec<u32> = twenty.split(' ').map(|hex| u32::from_str_radix(hex, 16).unwrap()).collect();
    let mut pairs = vec![((0x309D, 0x309B), 0x309E), ((0x30FD, 0x309B), 0x30FE), ((0x30A6, 0x309B), 0x30F4)];
    for shift in [0, 0x60] {
        pairs.extend(twenty.iter().map(|base| ((base - shift, 0x309B), base - shift + 1)));
        pairs.extend(twenty[15..].iter().map(|base| ((base - shift, 0x309C), base - shift + 2)));
    }
    assert_eq!(*normal::compositions(), pairs.into_iter().collect());
}

/// Document 004's Japanese prefecture labels, as it gives them in ABNF.
const ABNF: &str = "5317 6D77 9053/9752 68EE/5CA9 624B/5BAE 57CE/79CB 7530/5C71 5F62/798F 5CF6/8328 57CE/\
    6803 6728/7FA4 99AC/57FC 7389/5343 8449/6771 4EAC/795E 5948 5DDD/65B0 6F5F/5BCC 5C71/77F3 5DDD/\
    798F 4E95/5C71 68A8/9577 91CE/5C90 961C/9759 5CA1/611B 77E5/4E09 91CD/6ECB 8CC0/4EAC 90FD/5927 962A/\
    5175 5EAB/5948 826F/548C 6B4C 5C71/9CE5 53D6/5CF6 6839/5CA1 5C71/5E83 5CF6/5C71 53E3/5FB3 5CF6/\
    9999 5DDD/611B 5A9B/9AD8 77E5/798F 5CA1/4F50 8CC0/9577 5D0E/718A 672C/5927 5206/5BAE 5D0E/\
    9E7F 5150 5CF6/6C96 7E04";

#[test]
fn prefecture_labels_are_the_code_points_of_document_004() {
    let words: Vec<String> = ABNF
        .split('/')
        .map(|word| {
            let codes = word.split(' ').map(|hex| u32::from_str_radix(hex, 16).unwrap());
            codes.map(|code| char::from_u32(code).unwrap()).collect()
        })
        .collect();
    assert_eq!(words, name::japanese_prefectures());
    assert_eq!(name::latin_prefectures().len(), 47);
}

#[test]
fn tried_names_of_document_01_and_requested_ones_of_document_02() {
    for (text, number, place, class, normal) in tried::names().into_iter().chain(tried::requested()) {
        let found = match name::check(&points(&text), Edition::Today) {
            Ok(name) => {
                assert_eq!(name.normal, points(&normal), "{text}");
                (0, 0, Class::letter(Some(name.class)))
            }
            Err(refusal) => (refusal.number, refusal.place, '-'),
        };
        assert_eq!(found, (number, place, class), "{text}");
    }
    assert_eq!(coder::encode(&[0x3042]).unwrap(), "xn--l8j");
    assert_eq!(coder::encode(&[0x3042; 63]).unwrap_err().number, 14);
}

#[test]
fn tried_hosts_of_document_02() {
    for (text, number, place, form) in hosts::tried() {
        let found = match host::ascii_form(&points(&text)) {
            Ok(form) => (0, 0, form),
            Err(refusal) => (refusal.number, refusal.place, String::new()),
        };
        assert_eq!(found, (number, place, form), "{text}");
    }
}

/// With the sixth fields that document 02's K6 gives.
#[test]
fn desk_prints_document_01s_example() {
    let input = "a1\tABC.JP\na2\tab.jp\na3\tあ.tokyo.jp\n";
    let output = "a1\t0\t0\tG\tabc.jp\t-\na2\t8\t0\t-\t-\t-\na3\t0\t0\tP\txn--l8j.tokyo.jp\tH\n";
    assert_eq!(batch::desk(input.as_bytes()), output.as_bytes());
    assert_eq!(batch::desk(input.trim_end().as_bytes()), output.as_bytes());
}

#[test]
fn samples_of_rfc_3492_there_and_back() {
    for (text, encoded) in SAMPLES {
        // The procedure itself keeps the case of what it copies.
        assert!(coder::RFC.encode_any(&points(text)).eq_ignore_ascii_case(encoded), "{text}");
        let lower = points(&text.to_lowercase());
        let whole = format!("xn--{encoded}");
        match encoded {
            "-> $1.00 <--" => assert_eq!(coder::encode(&lower).unwrap_err().number, 13),
            _ if whole.len() > 63 => assert_eq!(coder::encode(&lower).unwrap_err().number, 14),
            _ => {
                assert_eq!(coder::encode(&lower).unwrap(), whole.to_lowercase());
                assert_eq!(coder::decode(whole.as_bytes()).unwrap(), lower);
                assert_eq!(coder::decode(whole.to_uppercase().as_bytes()).unwrap(), lower);
                continue;
            }
        }
        assert_eq!(coder::decode(whole.as_bytes()).unwrap_err().number, 15);
    }
}

#[test]
fn letters_in_upper_case_are_not_encodable() {
    let mixed = SAMPLES.iter().filter(|(text, _)| text.chars().any(|c| c.is_ascii_uppercase()));
    assert!(mixed.map(|(text, _)| coder::encode(&points(text)).unwrap_err().number).all(|n| n == 13));
}

#[test]
fn probe_lines_are_answered_in_the_fixed_format() {
    let answers = [
        ("N 256 41 ff76 ff9e", "0 0 2 61 30ac"),
        ("N 255 41", "1 0 0"),
        ("N 300", "2 0 0"),
        ("N 256 61 aaaaaaa9 61", "0 0 3 61 - 61"),
        ("N 256 aaaaaaaa", "0 0 1"),
        ("C 256 3042 2e 6a 70", "0 0 G 2,0,1,2,2,0,0 4 3042 2e 6a 70"),
        ("C 256 41 42 43 2e 4a 50", "0 0 G 2,0,3,4,2,0,0 6 61 62 63 2e 6a 70"),
        ("C 256 3042 3002 74 6f 6b 79 6f 2e 6a 70", "0 0 P 3,0,1,2,5,8,2 10 3042 2e 74 6f 6b 79 6f 2e 6a 70"),
        ("C 256 61 62 2e 6a 70", "8 0 - - 0"),
        ("C 255 41 42 43 2e 4a 50", "1 0 - - 0"),
        ("C 256 3046 309b 2e 6a 70", "4 1 - - 0"),
        ("C 256 61 62 2d 2d 63 2e 6a 70", "17 0 - - 0"),
        ("A 192 3042 2e 6a 70", "0 0 G H 10 78 6e 2d 2d 6c 38 6a 2e 6a 70"),
        ("A 192 30fc ff76 2e 6a 70", "0 0 G KS 12 78 6e 2d 2d 6c 63 6b 7a 69 2e 6a 70"),
        (
            "A 192 61 62 63 2e 6771 4eac 2e 6a 70",
            "0 0 P - 18 61 62 63 2e 78 6e 2d 2d 31 6c 71 73 37 31 64 2e 6a 70",
        ),
        ("A 192 61 62 2e 6a 70", "8 0 - - 0"),
        ("E 63 3042", "0 0 7 78 6e 2d 2d 6c 38 6a"),
        ("E 62 3042", "1 0 0"),
        ("D 63 58 4e 2d 2d 4c 38 4a", "0 0 1 3042"),
        ("D 63", "15 0 0"),
        ("S 0 61 62 63", "1"),
        ("S 0 61 62 2d 2d 63", "1"),
        ("S 0", "0"),
        ("L 0", "2 0 - - 0"),
        ("L 0 30cf 309c", "5 0 - - 1 30d1"),
        ("L 0 0 61 0", "4 0 - - 3 0 61"),
        ("L 0 ff76 ff9e ff61 4a 50", "0 0 G 2,0,1,2,2,0,0 4 30ac 2e 6a 70"),
        ("L 0 ff76 ff9e ff61 4a 50 2e", "6 2 - - 5 30ac 2e 6a 70 2e"),
        ("M 0", "1 111"),
        ("M 0 61 62 63 2e 6a 70", "1111111 111"),
        ("M 0 61 20", "110 000"),
        ("M 0 61 62 2d 2d 63 2e 6a", "11111100 000"),
        ("c 256 3046 309b 2e 6a 70", "4 1 - - 0"),
        ("c 256 41 42 43 2e 4a 50", "0 0 G 2,0,3,4,2,0,0 6 61 62 63 2e 6a 70"),
        ("a 191 3042 2e 6a 70", "1 0 - - 0"),
        ("a 192 61 62 63 2e 6a 70", "0 0 G - 6 61 62 63 2e 6a 70"),
        ("s 0 2d", "0"),
        ("l 0 30cf 309c", "5 0 - - 1 30d1"),
        ("l 0 ff76 ff9e 2e 6a 70", "0 0 G 2,0,1,2,2,0,0 4 30ac 2e 6a 70"),
        ("J 0 30cf 309c", "5 0 - - 1 30d1"),
        ("J 0 61 62 2e 6a 70", "8 0 - - 5 61 62 2e 6a 70"),
        ("J 0 61 62 63 2e 6d 69 65 2e 6a 70", "0 0 P 3,0,3,4,3,8,2 10 61 62 63 2e 6d 69 65 2e 6a 70"),
        ("j 0", "2 0 - - 0"),
        ("j 0 ff76 ff9e 2e 6a 70", "0 0 G 2,0,1,2,2,0,0 4 30ac 2e 6a 70"),
        ("P 2 ff76 ff9e 61", "0 2 0"),
        ("P 0", "0"),
        ("K 0 30ab 309b", "001KKO 30ab 30ac 000--M 309b 0"),
        ("K 0 30ab 309b ff21", "001KKO 30ab 30ac 000--M 309b 0 000--L 61 0"),
        ("K 0 3042 4e9c 4edd 30fc", "001HHO 3042 0 001JJO 4e9c 0 001SSO 4edd 0 001SSO 30fc 0"),
        ("K 0 61 2d ff76 3003", "110--L 61 0 010--H 2d 0 000--K 30ab 0 000--O 3003 0"),
        ("K 0", ""),
        ("T 2 61 62 61 62", "11111 61 62"),
        ("T 1 61 62 63 64", "01000 61"),
        ("T 3 61 62 63 64", "01110 61"),
        ("T 9", "1"),
        ("Q 0 0 0 0 3 0 5 61 2e 3042", "0 0 1 3 1 0- 0 0 0 0 0000 10 00 11"),
        ("Q 0 0 2 0 3 0 5 6a", "8 5 2 1 0 1- 0 0 8 5 0100 10"),
        ("Q 0 0 0 0 0 0 0", "0 0 0 0 0 1- 0 0 0 0 0101"),
        ("Q 0 0 0 0 1 0 5", "8 5 0 0 0 1- 0 0 8 5 0101"),
        ("Q 0 0 2 0 3 1 2 2d", "7 4294967298 2 1 0 1- 7 4294967298 7 4294967298 0000 10"),
        ("Q 0 ffffffff ffffffff 0 0 0 4 30fb 41", "10 4 18446744073709551615 1 1 0- 10 4 0 0 0000 10 00"),
        ("Q 0 0 0 0 3 0 2 6a 70", "8 2 2 2 0 1- 0 0 8 2 1100 10 10"),
        ("Q 0 0 0 0 3 0 1 6d 69 65", "0 0 3 3 0 1- 0 0 0 0 0011 10 10 10"),
        ("Q 0 0 0 0 3 0 1 6771", "0 0 1 1 1 1J 0 0 8 1 0001 11"),
        ("Q 0 0 0 0 3 0 2 61 62 2d 2d 63", "17 2 5 5 0 1- 0 0 17 2 0000 10 10 10 10 10"),
        ("Q 1 0 0 0 3 0 2 61 62 2d 2d 63", "17 2 5 5 0 1- 17 2 17 2 0000 10 10 10 10 10"),
        ("Q 0 0 0 0 3 0 2 61 62 2d 2d 30fb", "10 2 5 5 1 1S 10 2 17 2 0000 10 10 10 10 10"),
        ("Q 1 0 0 0 3 0 2 61 62 2d 2d 30fb", "17 2 5 5 1 1S 17 2 17 2 0000 10 10 10 10 10"),
        ("Q 300 0 0 0 6 0 2 61 62 2d 2d 63", "8 2 5 5 0 1- 17 2 8 2 0000 10 10 10 10 10"),
        ("Q 0 0 0 0 3 0 0 30fc 4e9c 20 ff71", "0 0 4 2 1 0- 0 0 0 0 0000 10 11 00 00"),
        ("H 255 4e 53 2e 3042 3002 61", "0 0 12 6e 73 2e 78 6e 2d 2d 6c 38 6a 2e 61"),
        ("H 254 61 2e 62 2e 63", "1 0 0"),
        ("H 255 61 2e 62 2e 63 2e", "6 3 0"),
        ("H 256 61 2e 62 2e 63", "0 0 5 61 2e 62 2e 63"),
        ("h 255 61 2e 62", "5 0 0"),
        ("G 0 61 2e 2212 2e ff76 ff9e", "7 1 5 61 2e 2d 2e 30ac"),
        ("V 0 61 2e 2212 2e ff76 ff9e", "7 1 5 61 2e 2d 2e 30ac"),
        ("G 300", "2 0 0"),
        ("g 0 61 2e 62 2e 63 2e", "6 3 6 61 2e 62 2e 63 2e"),
        ("V 0 0 2e 61 2e 0", "4 0 5 0 2e 61 2e"),
        ("V 0 61 2e 62 2e 61 62 2d 2d 3042", "17 2 9 61 2e 62 2e 61 62 2d 2d 3042"),
        ("v 0 31 2e 32 2e 33 2e 34", "0 0 7 31 2e 32 2e 33 2e 34"),
        ("X 63 61 42 20", "0 0 3 61 42 20"),
        ("X 63 3042", "0 0 7 78 6e 2d 2d 6c 38 6a"),
        ("X 63 3042 42", "13 0 0"),
        ("X 63", "0 0 0"),
        ("X 62", "1 0 0"),
        ("R 256 ff76 ff9e 20 41", "0 0 3 1 2 30ac 20 61"),
        ("R 256 61 62", "0 0 2 0 0 61 62"),
        ("R 256 20", "0 0 1 1 0 20"),
        ("R 256", "2 0 0 0 0"),
        ("R 255 20", "1 0 0 0 0"),
        ("U 1 61 e3 81 82", "1 2 61"),
        ("U 9 61 e3 81", "0 0"),
        ("F 2 61 9 62", "1 2 3 3 0 1 2 2 3 3 0"),
        ("F 5 61 62", "- 5 5 5 0 2 2 2 2 2 1"),
        ("W 256", "1 13 2d 9 31 36 9 30 9 2d 9 2d 9 2d a"),
        ("W 256 6b 9 e4 ba 9c 2e 6a 70", "1 21 6b 9 30 9 30 9 47 9 78 6e 2d 2d 6c 6c 71 2e 6a 70 9 4a a"),
        ("W 255", "0 0"),
        ("Z 0 41 42 43 2e 4a 50", "1 6"),
        ("z 0 3046 309b 2e 6a 70", "0 2"),
        ("Z 0", "0 0"),
        ("O 12 61 61 61 61 61 61 61 61 61 61", "0 a"),
        (
            "w 5 61 62 2e 6a 70 ff76 ff9e ff61 6a 70",
            "2 8 0 0 0 2 ff76 ff9e / 2 8 0 0 0 2 ff76 ff9e / 0 2 2 2",
        ),
        ("w 0", "0 2 0 2 0 0 / 0 2 0 2 0 0 / 0 0 0 0"),
        ("w 9 61 62 63 2e 6a 70", "1 0 0 2 0 3 61 62 63 / 1 0 0 2 0 3 61 62 63 / 0 3 0 3"),
        ("o 5 61 62 2e 6a 70 ff76 ff9e ff61 6a 70", "2 2 8 0 0 0 2"),
        ("o 0 20", "0 0 2 0 4 0 0"),
        ("B 0", ""),
        ("B 0 a", "2d 9 31 36 9 30 9 2d 9 2d 9 2d a"),
        ("B 0 6b 9 61 62 2e 6a 70", "6b 9 38 9 30 9 2d 9 2d 9 2d a"),
    ];
    for (line, answer) in answers {
        assert_eq!(probe::answer(line.as_bytes()), answer, "{line}");
    }
}

#[test]
fn malformed_probe_lines_are_answered_by_a_question_mark() {
    let lines = "k 0|x 0|r 256|H 301 61|n 256|b 0|N||N 301|P 301|N 256 GG|D 63 100|U 9 100|F 0 100|W 256 100|Q 0|Q 0 0 0 0 3 0|N 256 061|N 256  61|N 256 1aaaaaaaa|N 256 61 |N +1|N 256 +61";
    for line in lines.split('|') {
        assert_eq!(probe::answer(line.as_bytes()), "?", "{line}");
    }
    let long = |points: usize| format!("L 0{}", " 61".repeat(points));
    assert_eq!(probe::answer(long(257).as_bytes()), "3 256 - - 0");
    assert_eq!(probe::answer(long(257).replace('L', "G").as_bytes()), "3 256 0");
    assert_eq!(probe::answer(long(1400).as_bytes()), "?");
}
