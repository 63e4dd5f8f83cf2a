//! The three typed values of directives.

use std::borrow::Cow;

use oracle::io::api::values as rust;

use crate::{
    case::{By, Case, Compared, Verdict, same, same_text},
    desk::Desk,
    ours::{self, BuildValue, RegionValue, VersionValue},
    report::{Call, Report},
    texts::{self, BYTES, Dice},
};

const MARKS: &[u8] = b" \t\n\x0b\x0c\r+-.0123456789a\x80\xc2\xa0\xe2\x80\x83";

pub fn every(report: &mut Report, len: usize) {
    if len <= 7 {
        texts::every(b"014+.-", len, |text| {
            report.check(Call::Version, Case::of(text), version);
        });
    }

    if len <= 6 {
        texts::every(b"a10+ -\t", len, |text| {
            report.check(Call::Region, Case::of(text), region);
            report.check(Call::Region, Case::of(&[b"sq0 ", text].concat()), region);
        });
        texts::every(b"a \t\n\x0c\r\x0b", len, |text| {
            report.check(Call::Build, Case::of(text), build)
        });
    }

    if len <= 2 {
        texts::every(&BYTES, len, |text| {
            whole(report, text);
            whole(report, &[b"3.1.", text].concat());
            whole(report, &[b"sq0 8 1", text, b"3"].concat());
        });
    }
}

/// The greatest numbers and those beside them, in each place.
pub fn sweep(report: &mut Report) {
    texts::beside_greatest(|number| {
        for sign in ["", "+", "-"] {
            for text in [
                format!("{sign}{number}"),
                format!("3.{sign}{number}"),
                format!("3.{sign}{number}.{number}"),
                format!("3.1.{sign}{number}"),
            ] {
                report.check(Call::Version, Case::of(text.as_bytes()), version);
            }

            for text in [
                format!("a {sign}{number} 8"),
                format!("a 8 {sign}{number}"),
                format!("a {number} {sign}{number}"),
            ] {
                report.check(Call::Region, Case::of(text.as_bytes()), region);
            }
        }
    });
}

pub fn random(report: &mut Report, dice: &mut Dice) {
    let len = dice.len();
    let mut text = match dice.below(5) {
        0 => dice.text(len, MARKS),
        1 => join(dice, b"."),
        2 => join(dice, b" \t\n\x0c\r"),
        3 => {
            let len = dice.len();
            let name = dice.text(len, b"abc%|.");
            let rest = join(dice, b" ");
            [&name[..], b" ", &rest].concat()
        }
        _ => dice
            .one_of(&["3.1.26", "sq0 8 13", "NCBI B36", "ctg123 1 1497228"])
            .into(),
    };

    whole(report, &text);
    texts::damage(dice, &mut text, MARKS);
    whole(report, &text);
}

/// Numbers with signs now and then, and something between them.
fn join(dice: &mut Dice, between: &[u8]) -> Vec<u8> {
    let mut text = Vec::new();

    for n in 0..dice.between(1, 4) {
        if n > 0 {
            text.push(dice.one_of(between));
        }

        match dice.below(6) {
            0 => text.push(dice.one_of(b"+-.")),
            1 => text.push(dice.one_of(between)),
            _ => {}
        }

        text.extend(texts::digits(dice));
    }

    text
}

fn whole(report: &mut Report, text: &[u8]) {
    report.check(Call::Version, Case::of(text), version);
    report.check(Call::Region, Case::of(text), region);
    report.check(Call::Build, Case::of(text), build);
}

/// The text as the Rust takes it, and who decides. It reads UTF-8 alone; in any other text bytes from 0x80 are neither digit nor
/// white space, which `x` is neither, so the answer on `x` in their place is expected (RULES 7).
fn readable(text: &[u8]) -> (By, Cow<'_, str>) {
    match str::from_utf8(text) {
        Ok(text) => (By::Rust, text.into()),
        Err(_) => {
            let plain = text.iter().map(|&b| if b.is_ascii() { char::from(b) } else { 'x' });
            (By::Checker, plain.collect::<String>().into())
        }
    }
}

fn version(desk: &mut Desk, case: Case<'_>) -> Verdict {
    let (by, text) = readable(case.text);
    let expected = match rust::parse_version(&text) {
        Ok((major, minor, patch)) => VersionValue {
            refused: 0,
            parts: 1 + u64::from(minor.is_some()) + u64::from(patch.is_some()),
            major: major.into(),
            minor: minor.unwrap_or_default().into(),
            patch: patch.unwrap_or_default().into(),
        },
        Err(refused) => VersionValue {
            refused: refused.into(),
            ..VersionValue::default()
        },
    };

    by.says(same(ours::version(desk.text(case.text)), expected))
}

fn region(desk: &mut Desk, case: Case<'_>) -> Verdict {
    let (by, text) = readable(case.text);
    by.says(region_of(ours::region(desk.text(case.text)), &text))
}

fn region_of(answer: RegionValue, text: &str) -> Compared {
    match rust::parse_region(text) {
        Ok((name, start, end)) => {
            let [(name_start, name_end), _] = words(text);
            let expected = RegionValue {
                refused: 0,
                name_start,
                name_end,
                start,
                end,
            };
            same(answer, expected)?;
            same_text(text.as_bytes(), answer.name_start, answer.name_end, &name)
        }
        Err(refused) => same(
            answer,
            RegionValue {
                refused: refused.into(),
                ..RegionValue::default()
            },
        ),
    }
}

fn build(desk: &mut Desk, case: Case<'_>) -> Verdict {
    let (by, text) = readable(case.text);
    by.says(build_of(ours::build(desk.text(case.text)), &text))
}

fn build_of(answer: BuildValue, text: &str) -> Compared {
    match rust::parse_build(text) {
        Ok((source, name)) => {
            let [(source_start, source_end), (name_start, name_end)] = words(text);
            let expected = BuildValue {
                refused: 0,
                source_start,
                source_end,
                name_start,
                name_end,
            };
            same(answer, expected)?;
            same_text(text.as_bytes(), answer.source_start, answer.source_end, &source)?;
            same_text(text.as_bytes(), answer.name_start, answer.name_end, &name)
        }
        Err(refused) => same(
            answer,
            BuildValue {
                refused: refused.into(),
                ..BuildValue::default()
            },
        ),
    }
}

/// Where the first two words stand: the Rust hands out their texts alone.
fn words(text: &str) -> [(usize, usize); 2] {
    let mut places = text.split_ascii_whitespace().map(|word| {
        let start = word.as_ptr() as usize - text.as_ptr() as usize;
        (start, start + word.len())
    });

    [places.next().unwrap_or_default(), places.next().unwrap_or_default()]
}
