//! Cases of finding, numbers and percent coding.

use oracle::io::api::{coding, record, values};

use crate::list::{Dice, List, hex, written};

/// Lengths around the windows of the finder.
const LENGTHS: [usize; 12] = [0, 1, 2, 15, 16, 17, 31, 32, 33, 47, 48, 65];

/// A byte from a cursor on, as `position` of the standard library finds it; the next word, as `split_ascii_whitespace` does.
pub fn finding(list: &mut List) {
    list.title("f TEXT AT BYTE: the first place of a byte from a cursor on, or the length");
    let mut dice = Dice::new(1);

    for len in LENGTHS {
        for at in [0, 1, len / 2, len.saturating_sub(1), len, len + 1, usize::MAX] {
            let text = dice.text(len, b"abcdefgh;");
            let from = at.min(len);
            let found = text[from..].iter().position(|b| *b == b';').map_or(len, |i| from + i);
            list.case(&format!("f {} {at} {}", hex(&text), b';'), &format!("{found} "));
        }
    }

    list.title("w TEXT AT: where the next word from a cursor on starts and ends");

    for len in LENGTHS {
        for at in [0, 1, len / 2, len, len + 9] {
            let text = dice.text(len, b"ab \t\n\x0b\x0c\r\xa0");
            let from = at.min(len);
            let rest = &text[from..];
            let start = from + rest.iter().position(|b| !b.is_ascii_whitespace()).unwrap_or(rest.len());
            let word = text[start..].split(u8::is_ascii_whitespace).next().unwrap_or_default();
            list.case(
                &format!("w {} {at}", hex(&text)),
                &format!("{start} {} ", start + word.len()),
            );
        }
    }
}

/// The position reader of columns 4 and 5 (a sign is refused here and outside the comparison), the region's and the version's.
pub fn numbers(list: &mut List) {
    list.title("p TEXT: a position; r TEXT: a position of a region; v TEXT: a part of a version");
    let mut dice = Dice::new(2);
    let mut tokens: Vec<Vec<u8>> = [
        "",
        "0",
        "1",
        "8",
        "00",
        "08",
        "0008",
        "+8",
        "-8",
        "-0",
        "+",
        "-",
        "++8",
        "8 ",
        " 8",
        "8a",
        "0x8",
        "4294967295",
        "4294967296",
        "00004294967295",
        "9999999999",
        "18446744073709551614",
        "18446744073709551615",
        "18446744073709551616",
        "18446744073709551625",
        "18446744073709551700",
        "28446744073709551615",
        "99999999999999999999",
        "000000000000000000018446744073709551615",
        "/",
        ":",
        "1/",
        "1:",
    ]
    .iter()
    .map(|s| s.as_bytes().to_vec())
    .collect();
    tokens.extend((0..60).map(|i| dice.text(1 + i % 21, b"0123456789")));

    for token in &tokens {
        let text = std::str::from_utf8(token).expect("the tokens are ASCII");
        let signed = token.first().is_some_and(|b| b"+-".contains(b));
        let position = if signed { None } else { record_start(token) };
        list.case(&format!("p {}", hex(token)), &shown(position));

        let region = (!text.contains(' ')).then(|| values::parse_region(&format!("a {text} 1")));
        let region = region.and_then(|answer| answer.ok()).map(|(_, start, _)| start);
        list.case(&format!("r {}", hex(token)), &shown(region));

        let version = values::parse_version(text).ok().map(|(major, _, _)| u64::from(major));
        list.case(&format!("v {}", hex(token)), &shown(version));
    }

    list.title("n NUMBER ROOM: a number in decimal");

    for n in [
        1,
        9,
        10,
        99,
        100,
        4_294_967_295,
        4_294_967_296,
        9_999_999_999_999_999_999,
        u64::MAX,
    ] {
        let digits = n.to_string();
        for room in [0, digits.len() - 1, digits.len(), digits.len() + 3] {
            list.case(&format!("n {n} {room}"), &written(digits.as_bytes(), room));
        }
    }
}

fn record_start(token: &[u8]) -> Option<u64> {
    let line = [b"s\tp\tt\t", token, b"\t1\t.\t.\t.\t."].concat();
    record::start(&line).ok()
}

fn shown(number: Option<u64>) -> String {
    number.map_or("! ".into(), |n| format!("{n} "))
}

/// The samples of RULES 14, RFC 3986's examples (sections 2.1, 2.4, 2.5 and 6.2.2.1); the bytes at the ends of the ranges of hex digits and
/// those beyond, as either digit; and mixtures.
pub fn decoding(list: &mut List) {
    list.title("d TEXT ROOM: decoding");
    let mut dice = Dice::new(3);

    for (text, decoded) in [
        (&b"%20"[..], &b" "[..]),
        (b"%2541", b"%41"),
        (b"%%41", b"%A"),
        (b"%4", b"%4"),
        (b"%25", b"%"),
        (b"%41", b"A"),
        (b"%7E", b"~"),
        (b"%C3%80", "À".as_bytes()),
        (b"%E3%82%A2", "ア".as_bytes()),
        (b"%3a", b":"),
        (b"%3A", b":"),
    ] {
        assert_eq!(coding::percent_decode(text), decoded);
        for room in [decoded.len() - 1, decoded.len(), decoded.len() + 2] {
            list.case(&format!("d {} {room}", hex(text)), &written(decoded, room));
        }
    }

    for &byte in b"/09:@AFG`afg" {
        for text in [[b'%', byte, b'1'], [b'%', b'1', byte]] {
            let decoded = coding::percent_decode(&text);
            list.case(
                &format!("d {} {}", hex(&text), decoded.len()),
                &written(&decoded, decoded.len()),
            );
        }
    }

    for len in 0..70 {
        let text = dice.text(len, b"%%%%4aF+g ;");
        let decoded = coding::percent_decode(&text);
        let room = decoded.len() + dice.below(3);
        list.case(
            &format!("d {} {}", hex(&text), room.saturating_sub(1)),
            &written(&decoded, room.saturating_sub(1)),
        );
    }
}

/// All 256 bytes in each set, and texts that do not fit.
pub fn encoding(list: &mut List) {
    type Encode = fn(&[u8]) -> Vec<u8>;
    let sets: [(u8, Encode); 3] = [
        (1, coding::encode_reference_sequence_name),
        (2, coding::encode_source),
        (3, coding::encode_value),
    ];

    list.title("e TEXT ROOM SET: encoding; 1 is column 1, 2 columns 2 and 3, 3 tags and values");
    let mut dice = Dice::new(4);

    for (set, encode) in sets {
        for b in 0..=255 {
            list.case(&format!("e {} 3 {set}", hex(&[b])), &written(&encode(&[b]), 3));
        }

        for len in 0..40 {
            let text = dice.text(len, b"ab%;=&,# \t\n\xc3\x80");
            let encoded = encode(&text);
            let room = (encoded.len() + 1).saturating_sub(dice.below(3));
            list.case(&format!("e {} {room} {set}", hex(&text)), &written(&encoded, room));
        }
    }
}
