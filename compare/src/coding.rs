//! Percent-decoding, percent-encoding with the three sets, and positions by themselves.

use oracle::io::api::{coding as rust, record};

use crate::{
    case::{By, Case, Slack, Verdict, same},
    desk::{Desk, rooms_and},
    numbers, ours,
    report::{Call, Report},
    texts::{self, BYTES, Dice},
};

/// The longest text that is encoded; the Rust knows no such limit.
const LONGEST: usize = 1_048_576;

/// A text is not longer when it is decoded, and at most three times as long when it is encoded.
const DECODED_AT_ONCE: [Slack; 2] = [Slack::Each(1, 0), Slack::Each(1, -1)];
const ENCODED_AT_ONCE: [Slack; 2] = [Slack::Each(3, 0), Slack::Each(3, -1)];

/// The three sets, and numbers that count as the first (RULES 16.3).
const SETS: [usize; 6] = [1, 2, 3, 0, 4, u32::MAX as usize];

const MARKS: &[u8] = b"%%%%0123456789abcdefABCDEFgG+;=&, \x7f\x80\xff";

pub fn every(report: &mut Report, len: usize) {
    if len <= 7 {
        texts::every(b"%42fFg", len, |text| decoded(report, text));
    }

    if len <= 6 {
        texts::every(b"019+-a", len, |text| {
            report.check(Call::Position, Case::of(text), position)
        });
    }

    if len <= 1 {
        texts::every(&BYTES, len, |text| encoded(report, text));
    }

    if len <= 2 {
        texts::every(&BYTES, len, |text| {
            report.check(Call::Position, Case::of(text), position);

            for number in 1..=3 {
                report.check(Call::Encode, Case::at(text, number), encode);
            }
        });
    }
}

/// Every pair of bytes behind a percent sign, every single one, and none; an escape, whole or cut, at each place of texts of each
/// length; and the longest text that is encoded, and one longer.
pub fn sweep(report: &mut Report) {
    for len in 0..=2 {
        texts::every(&BYTES, len, |text| decoded(report, &[b"%", text].concat()));
    }

    for len in 0..=70 {
        let text = vec![b'a'; len];
        encoded(report, &text);
        encoded(report, &vec![b'%'; len]);

        for at in 0..=len {
            for escape in [&b"%41"[..], b"%4", b"%", b"%%41", b"%4G", b"%41%41"] {
                decoded(report, &[&text[..at], escape, &text[at..]].concat());
            }
        }
    }

    texts::beside_greatest(|number| report.check(Call::Position, Case::of(number.as_bytes()), position));

    for len in [LONGEST - 1, LONGEST, LONGEST + 1] {
        for byte in *b"a%" {
            let text = vec![byte; len];

            for slack in [Slack::Full, Slack::Short(1), Slack::None] {
                for number in 1..=3 {
                    report.check(
                        Call::Encode,
                        Case {
                            slack,
                            ..Case::at(&text, number)
                        },
                        encode,
                    );
                }
            }
        }
    }
}

pub fn random(report: &mut Report, dice: &mut Dice) {
    let len = dice.len();
    let mut text = match dice.below(4) {
        0 => dice.text(len, MARKS),
        1 => dice.text(len, &BYTES),
        2 => dice.text(len, b"aaaaaaaaaaaaaaaaaaaaaaaaa%41"),
        _ => texts::attributes(dice),
    };

    decoded(report, &text);
    encoded(report, &text);
    let escaped = rust::encode_value(&text);
    decoded(report, &escaped);
    texts::damage(dice, &mut text, MARKS);
    decoded(report, &text);

    let mut token = texts::digits(dice);

    for _ in 0..4 {
        report.check(Call::Position, Case::of(&token), position);
        texts::damage(dice, &mut token, b"0123456789+-\t ");
    }
}

fn decoded(report: &mut Report, text: &[u8]) {
    for slack in rooms_and(text.len(), DECODED_AT_ONCE) {
        report.check(
            Call::Decode,
            Case {
                slack,
                ..Case::of(text)
            },
            decode,
        );
    }
}

fn encoded(report: &mut Report, text: &[u8]) {
    for number in SETS {
        let all = if number < 4 { usize::MAX } else { 1 };

        for slack in rooms_and(text.len(), ENCODED_AT_ONCE).take(all) {
            report.check(
                Call::Encode,
                Case {
                    slack,
                    ..Case::at(text, number)
                },
                encode,
            );
        }
    }
}

fn decode(desk: &mut Desk, case: Case<'_>) -> Verdict {
    let expected = rust::percent_decode(case.text);
    desk.writes(case, By::Rust, Ok(&expected), ours::decode)
}

type Writer = fn(&[u8]) -> Vec<u8>;

/// Two of the Rust's writers share a set each: columns 2 and 3, tags and values.
fn encode(desk: &mut Desk, case: Case<'_>) -> Verdict {
    let set = case.number as u32;
    let encode = |text: &[u8], out: &mut [u8]| ours::encode(set, text, out);

    if case.text.len() > LONGEST {
        return desk.writes(case, By::Checker, Err(24), encode);
    }

    let writers: &[Writer] = match case.number {
        2 => &[rust::encode_source, rust::encode_type],
        3 => &[rust::encode_tag, rust::encode_value],
        _ => &[rust::encode_reference_sequence_name],
    };
    let expected = writers[0](case.text);
    let by = By::rust_if((1..=3).contains(&case.number));
    let verdict = desk.writes(case, by, Ok(&expected), encode);
    let mut others = writers[1..].iter();
    let alike = others.try_for_each(|write| same(&expected, &write(case.text)));
    verdict.by.says(verdict.compared.and(alike))
}

/// The Rust reads positions in columns alone, so a token with a tab never reaches its reader: it is no position.
fn position(desk: &mut Desk, case: Case<'_>) -> Verdict {
    let (by, expected) = if case.text.contains(&b'\t') {
        (By::Checker, Err(2))
    } else {
        let line = [b"\t\t\t", case.text, b"\t\t\t\t\t"].concat();
        numbers::position(case.text, || record::start(&line))
    };

    by.says(same(ours::position(desk.text(case.text)), numbers::answer(expected)))
}
