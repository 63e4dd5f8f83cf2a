//! Lines judged and unfolded into sheets. The Rust reads each field; the sheet is put together from them.

use oracle::io::api::{
    attributes::{self, Value},
    record as rust,
};

use crate::{
    case::{By, Case, Slack, Verdict, same},
    desk::{Desk, rooms_and},
    numbers,
    ours::{self, Unfolded},
    report::{Call, Report},
    score,
    sheet::Sheet,
    texts::{self, BYTES, Dice},
};

/// The longest line that is unfolded; the Rust knows no such limit.
pub const LONGEST: usize = 4_194_304;

/// A sheet has at most ten bytes for each of its line's, and 26.
const AT_ONCE: [Slack; 2] = [Slack::Each(10, 26), Slack::Each(10, 25)];

const MARKS: &[u8] = b"\t\t\t.+-?%0123456789eE#=;,=;,";

pub fn every(report: &mut Report, len: usize) {
    if len <= 12 {
        texts::every(b"a\t", len, |line| line_of(report, line));
    }

    if len <= 6 {
        texts::every(b"=;,%4.", len, |column| line_of(report, &with(9, column)));
    }

    if len <= 7 {
        texts::every(b"01.+-e", len, |token| {
            report.check(Call::Judge, Case::of(&with(6, token)), judge);
        });
    }

    if len <= 5 {
        texts::every(b"01.+-e", len, |token| line_of(report, &with(6, token)));
        texts::every(b"%24gF", len, |token| {
            for column in 1..=3 {
                line_of(report, &with(column, token));
            }
        });
    }

    if len <= 1 {
        texts::every(&BYTES, len, |token| {
            for column in 1..=9 {
                line_of(report, &with(column, token));
            }
        });
    }
}

pub fn sweep(report: &mut Report) {
    lengths(report);
    close(report);
    texts::beside_greatest(|number| {
        report.check(Call::Judge, Case::of(&with(4, number.as_bytes())), judge);
        report.check(Call::Judge, Case::of(&with(5, number.as_bytes())), judge);
    });
    refusals(report);
    long(report);
}

/// Each column of each length.
fn lengths(report: &mut Report) {
    for column in 1..=9 {
        for len in 0..=70 {
            line_of(report, &with(column, &vec![b'1'; len]));
            line_of(report, &with(column, &texts::turns(b"abcdefghijk", len)));
            line_of(report, &with(column, &texts::turns(b"a=bcd,ef;g", len)));
        }
    }
}

/// Short lines whose texts stand close to the sheet's buffer, each in the ways that memory is lent.
fn close(report: &mut Report) {
    for len in 0..=40 {
        for (column, alphabet) in [
            (0, b"abcdefghijk"),
            (1, b"abcdefghijk"),
            (2, b"abcdefghijk"),
            (5, b"12345678901"),
            (8, b"=abcdefghij"),
        ] {
            let text = texts::turns(alphabet, len);
            let mut columns: [&[u8]; 9] = [b"", b"", b"", b"1", b"1", b".", b".", b".", b""];
            columns[column] = &text;

            for _ in 0..4 {
                line_of(report, &columns.join(&b'\t'));
            }
        }
    }
}

/// Every refusal before every other: which of the columns from 4 on are bad, each in three ways.
fn refusals(report: &mut Report) {
    let bad: [[&[u8]; 2]; 6] = [
        [b"0", b"x"],
        [b"", b"+1"],
        [b"", b"1."],
        [b"", b"++"],
        [b"", b"3"],
        [b"a", b"a=1;b"],
    ];

    for bits in 0..1 << (2 * bad.len()) {
        let mut columns = GOOD;

        for (i, ways) in bad.iter().enumerate() {
            match bits >> (2 * i) & 3 {
                0 => {}
                way @ (1 | 2) => columns[3 + i] = ways[way - 1],
                _ => columns[3 + i] = b"\xff",
            }
        }

        line_of(report, &columns.join(&b'\t'));
    }
}

/// The longest line, one shorter and one longer.
fn long(report: &mut Report) {
    for len in [LONGEST - 1, LONGEST, LONGEST + 1] {
        let short = with(9, b"").len();

        for (first, rest) in [(&b"="[..], b'a'), (b"=", b','), (b"", b'a')] {
            let mut column = first.to_vec();
            column.extend(texts::turns(&[rest, b'b', rest, rest], len - short - first.len()));
            let line = with(9, &column);

            report.check(Call::Judge, Case::of(&line), judge);

            for slack in [Slack::Full, Slack::Short(1), Slack::None] {
                report.check(
                    Call::Unfold,
                    Case {
                        slack,
                        ..Case::of(&line)
                    },
                    unfold,
                );
            }
        }
    }
}

pub fn random(report: &mut Report, dice: &mut Dice) {
    let mut line = texts::line(dice);

    match dice.below(8) {
        0..3 => {}
        3 => {
            let len = dice.len();
            let column = dice.text(len, b"aab=;,%4.");
            line = with(9, &column);
        }
        4 => {
            let column = dice.between(1, 9);
            let len = dice.len();
            let token = dice.text(len, &BYTES);
            line = with(column, &token);
        }
        5 => {
            let digits = texts::digits(dice);
            line = with(dice.between(4, 5), &digits);
        }
        _ => texts::damage(dice, &mut line, MARKS),
    }

    line_of(report, &line);
}

fn line_of(report: &mut Report, line: &[u8]) {
    report.check(Call::Judge, Case::of(line), judge);

    for slack in rooms_and(line.len(), AT_ONCE) {
        report.check(
            Call::Unfold,
            Case {
                slack,
                ..Case::of(line)
            },
            unfold,
        );
    }
}

const GOOD: [&[u8]; 9] = [b"sq0", b"lab", b"gene", b"8", b"13", b".", b"+", b".", b"a=1"];

/// A record's line with this text in this column, counted from 1, and short texts in the others.
fn with(column: usize, text: &[u8]) -> Vec<u8> {
    let mut columns = GOOD;
    columns[column - 1] = text;
    columns.join(&b'\t')
}

/// Start, end, strand and phase.
type Numbers = (u64, u64, u32, u32);

/// The sheet and the numbers of a line, or the refusal.
pub type Unfold = Result<(Sheet, Numbers), u64>;

/// What a line unfolds to, and who decides it. The limit and a score that is there are the checker's (RULES 11.2).
pub fn unfolded(line: &[u8]) -> (By, Unfold) {
    if line.len() > LONGEST {
        return (By::Checker, Err(24));
    }

    let Some(columns) = rust::columns(line) else {
        return (By::Rust, Err(1));
    };
    let (by_start, start) = numbers::position(columns[3], || rust::start(line));
    let (by_end, end) = numbers::position(columns[4], || rust::end(line));
    let (Ok(start), Ok(end)) = (start, end) else {
        let by = if start.is_err() { by_start } else { by_start.and(by_end) };
        return (by, Err(2));
    };
    let by_score = By::rust_if(columns[5] == b".");

    (by_start.and(by_end).and(by_score), rest(line, &columns, start, end))
}

/// The same behind start and end.
fn rest(line: &[u8], columns: &[&[u8]; 9], start: u64, end: u64) -> Unfold {
    let score = match columns[5] {
        b"." => b"",
        token if score::is_token(token) => token,
        _ => return Err(17),
    };
    let strand = rust::strand(line).map_err(u64::from)?;
    let phase = rust::phase(line).map_err(u64::from)?;
    let (attributes, refused) = attributes::decoded(columns[8]);

    if let Some(refused) = refused {
        return Err(refused.into());
    }

    let sheet = Sheet {
        name: rust::reference_sequence_name(line).map_err(u64::from)?,
        source: rust::source(line).map_err(u64::from)?,
        ty: rust::ty(line).map_err(u64::from)?,
        score: score.to_vec(),
        attributes: attributes
            .into_iter()
            .map(|(tag, value)| match value {
                Value::String(value) => (tag, vec![value]),
                Value::Array(values) => (tag, values),
            })
            .collect(),
    };

    Ok((sheet, (start, end, strand.into(), phase.into())))
}

/// What the library has to answer where a sheet of so many bytes was laid or measured, or the line was refused.
fn answer((start, end, strand, phase): Numbers, refused: u64, length: usize) -> Unfolded {
    if refused != 0 {
        return Unfolded {
            refused,
            length,
            ..Unfolded::default()
        };
    }

    Unfolded {
        refused,
        length,
        start,
        end,
        strand,
        phase,
    }
}

fn judge(desk: &mut Desk, case: Case<'_>) -> Verdict {
    let (by, unfolded) = unfolded(case.text);
    let expected = match unfolded {
        Ok((sheet, numbers)) => answer(numbers, 0, sheet.bytes().len()),
        Err(refused) => answer(Numbers::default(), refused, 0),
    };

    by.says(same(ours::judge(desk.text(case.text)), expected))
}

fn unfold(desk: &mut Desk, case: Case<'_>) -> Verdict {
    let (by, unfolded) = unfolded(case.text);
    let numbers = unfolded.as_ref().map_or(Numbers::default(), |(_, numbers)| *numbers);
    let sheet = unfolded.map(|(sheet, _)| sheet.bytes());

    desk.lays(
        case,
        by,
        sheet.as_deref().map_err(|&refused| refused),
        |[line, ..], out| ours::unfold(line, out),
        |written| answer(numbers, written.refused, written.length),
    )
}
