//! The columns of a record, and the readers of its fields.

mod record;
mod tabs;

use oracle::io::api::record as rust;

use crate::{
    case::{By, Case, Compared, Given, Verdict, same, same_text},
    desk::{Desk, rooms},
    numbers,
    ours::{self, Bounds, Indexed, Number, Place, ScoreText},
    report::{Call, Check, Report},
    score,
    texts::{self, BYTES, Dice},
};

const MARKS: &[u8] = b"\t\t\t.+-?%0123456789eE#";

/// The readers of a line and its bounds that take nothing else.
const READERS: [(Call, Check); 5] = [
    (Call::Start, start),
    (Call::End, end),
    (Call::Strand, strand),
    (Call::Phase, phase),
    (Call::Score, read_score),
];

pub fn every(report: &mut Report, len: usize) {
    if len <= 12 {
        texts::every(b"a\t", len, |line| whole_line(report, line));
    }

    if len <= 7 {
        texts::every(b"01.+-e", len, |token| {
            field(report, &with(6, token), Call::Score, read_score)
        });
    }

    if len <= 6 {
        texts::every(b"019+-a", len, |token| {
            field(report, &with(4, token), Call::Start, start);
            field(report, &with(5, token), Call::End, end);
        });
        texts::every(b"%24gF", len, |token| {
            for column in 1..=3 {
                decoded(report, &with(column, token), column);
            }
        });
    }

    if len <= 2 {
        texts::every(&BYTES, len, |token| {
            field(report, &with(7, token), Call::Strand, strand);
            field(report, &with(8, token), Call::Phase, phase);
            field(report, &with(6, token), Call::Score, read_score);
            field(report, &with(4, token), Call::Start, start);
            field(report, &with(5, token), Call::End, end);
        });
    }
}

/// Tabs at places where the search for them changes its way, each column of each length, numbers beside the greatest, and each of
/// the eight ends put wrong.
pub fn sweep(report: &mut Report) {
    tabs::sweep(report);

    for column in 1..=9 {
        for len in 0..=50 {
            whole_line(report, &with(column, &vec![b'1'; len]));
            whole_line(report, &with(column, &vec![b'\t'; len]));
        }
    }

    texts::beside_greatest(|number| {
        field(report, &with(4, number.as_bytes()), Call::Start, start);
        field(report, &with(5, number.as_bytes()), Call::End, end);
    });

    for line in [
        with(9, b"a=1"),
        with(9, b"\t\t"),
        b"\t\t\t\t\t\t\t\t".to_vec(),
        with(1, &[b'a'; 40]),
    ] {
        let own = rust::bounds(&line).expect("the line has eight tabs");

        for i in 0..8 {
            for wrong in [
                0,
                1,
                own[i] - 1,
                own[i] + 1,
                own[(i + 1) % 8],
                line.len(),
                line.len() + 1,
                usize::MAX,
            ] {
                let mut ends = own;
                ends[i] = wrong;
                given(report, &line, Given::These(ends));
            }
        }
    }
}

pub fn random(report: &mut Report, dice: &mut Dice) {
    let mut line = texts::line(dice);

    match dice.below(6) {
        0 => {}
        1 => {
            let len = dice.len();
            line = dice.text(len, b"\ta1.");
        }
        2 | 3 => line = with(dice.between(4, 5), &number(dice)),
        4 => {
            let column = dice.between(1, 9);
            let len = dice.len();
            let token = if dice.once_in(2) {
                dice.text(len, MARKS)
            } else {
                dice.text(len, &BYTES)
            };
            line = with(column, &token);
        }
        _ => texts::damage(dice, &mut line, MARKS),
    }

    whole_line(report, &line);

    let len = dice.between(1, 24);
    let token = dice.text(len, b"0123456789012345678901234567890123456789.eE+-");
    field(report, &with(6, &token), Call::Score, read_score);

    // Bounds of another line, of the line before a damage, and of no line.
    let mut other = line.clone();
    texts::damage(dice, &mut other, MARKS);
    indexed(report, &other);

    if let Some(ends) = rust::bounds(&line) {
        given(report, &other, Given::These(ends));
        let mut ends = ends;
        ends[dice.below(8)] = dice.cursor(line.len());
        given(report, &line, Given::These(ends));
    }

    let ends = std::array::from_fn(|_| dice.cursor(line.len()));
    given(report, &line, Given::These(ends));
}

/// A number, good or not, for columns 4 and 5.
fn number(dice: &mut Dice) -> Vec<u8> {
    let mut token = texts::digits(dice);

    match dice.below(5) {
        0 => token.insert(0, dice.one_of(b"+-")),
        1 => texts::damage(dice, &mut token, b"0123456789+-. "),
        _ => {}
    }

    token
}

fn whole_line(report: &mut Report, line: &[u8]) {
    indexed(report, line);
    given(report, line, Given::Own);
}

/// The calls that find the bounds themselves.
fn indexed(report: &mut Report, line: &[u8]) {
    report.check(Call::Index, Case::of(line), index);
    report.check(Call::Record, Case::of(line), record::record);
}

/// The reader of one column, and the record read at once.
fn field(report: &mut Report, line: &[u8], call: Call, check: Check) {
    report.check(call, Case::of(line), check);
    report.check(Call::Record, Case::of(line), record::record);
}

/// The readers of a line and the bounds that the case gives.
fn readers(report: &mut Report, case: Case<'_>) {
    for (call, check) in READERS {
        report.check(call, case, check);
    }
}

/// Every reader on a line and these bounds.
fn given(report: &mut Report, line: &[u8], bounds: Given) {
    let case = Case {
        bounds,
        ..Case::of(line)
    };

    for number in [1, 2, 3, 4, 5, 6, 7, 8, 9, 0, 10, u32::MAX as usize] {
        report.check(Call::Column, Case { number, ..case }, column);
    }

    readers(report, case);

    for number in [1, 2, 3, 0, 4, u32::MAX as usize] {
        let all = if number < 4 {
            rooms(line.len())
        } else {
            &rooms(line.len())[..1]
        };

        for &slack in all {
            report.check(Call::Text, Case { number, slack, ..case }, text);
        }
    }
}

fn decoded(report: &mut Report, line: &[u8], number: usize) {
    for &slack in rooms(line.len()) {
        report.check(
            Call::Text,
            Case {
                number,
                slack,
                ..Case::of(line)
            },
            text,
        );
    }
}

/// A record's line with this text in this column, counted from 1, and short texts in the others.
fn with(column: usize, text: &[u8]) -> Vec<u8> {
    let mut columns: [&[u8]; 9] = [b"sq0", b"lab", b"gene", b"8", b"13", b".", b"+", b".", b"a=1"];
    columns[column - 1] = text;
    columns.join(&b'\t')
}

/// The bounds that go into a call, whether they are the line's own, and who decides: the Rust, but where a line that has bounds
/// is given others, which it cannot be.
fn bounds(case: Case<'_>) -> (Bounds, bool, By) {
    let own = rust::bounds(case.text);
    let ends = match case.bounds {
        Given::Own => own.unwrap_or_default(),
        Given::These(ends) => ends,
    };
    let is_own = own == Some(ends);

    (Bounds { ends }, is_own, By::rust_if(is_own || own.is_none()))
}

fn index(desk: &mut Desk, case: Case<'_>) -> Verdict {
    let expected = match rust::bounds(case.text) {
        Some(ends) => Indexed {
            refused: 0,
            bounds: Bounds { ends },
        },
        None => Indexed {
            refused: 1,
            ..Indexed::default()
        },
    };

    By::Rust.says(desk.answers(case.text, ours::index, expected))
}

/// A number that is no column's is refused by 1 (RULES 16.3).
fn column(desk: &mut Desk, case: Case<'_>) -> Verdict {
    let (bounds, own, by) = bounds(case);
    let is_column = (1..=9).contains(&case.number);
    let lent = desk.text(case.text);
    let answer = ours::column(lent, bounds, case.number as u32);
    let columns = rust::columns(case.text).filter(|_| own && is_column);

    let compared = match columns {
        None => same(
            answer,
            Place {
                refused: 1,
                ..Place::default()
            },
        ),
        Some(columns) => at_column(case, lent, answer, columns[case.number - 1]),
    };

    by.and(By::rust_if(is_column)).says(compared)
}

fn at_column(case: Case<'_>, lent: &[u8], answer: Place, expected: &[u8]) -> Compared {
    let start = expected.as_ptr() as usize - case.text.as_ptr() as usize;
    let end = start + expected.len();
    same(answer, Place { refused: 0, start, end })?;
    same_text(lent, answer.start, answer.end, expected)
}

fn start(desk: &mut Desk, case: Case<'_>) -> Verdict {
    position(desk, case, 3, ours::start, rust::start)
}

fn end(desk: &mut Desk, case: Case<'_>) -> Verdict {
    position(desk, case, 4, ours::end, rust::end)
}

fn position(
    desk: &mut Desk,
    case: Case<'_>,
    column: usize,
    read: fn(&[u8], Bounds) -> Number,
    rust: fn(&[u8]) -> Result<u64, u8>,
) -> Verdict {
    let (bounds, own, by) = bounds(case);

    let (by, expected) = match rust::columns(case.text).filter(|_| own) {
        None => (by, Err(1)),
        Some(columns) => numbers::position(columns[column], || rust(case.text)),
    };

    by.says(same(read(desk.text(case.text), bounds), numbers::answer(expected)))
}

fn strand(desk: &mut Desk, case: Case<'_>) -> Verdict {
    let (bounds, own, by) = bounds(case);
    let expected = if own { rust::strand(case.text) } else { Err(1) };
    by.says(same(
        ours::strand(desk.text(case.text), bounds),
        numbers::answer(expected),
    ))
}

fn phase(desk: &mut Desk, case: Case<'_>) -> Verdict {
    let (bounds, own, by) = bounds(case);
    let expected = if own { rust::phase(case.text) } else { Err(1) };
    by.says(same(
        ours::phase(desk.text(case.text), bounds),
        numbers::answer(expected),
    ))
}

/// That the Rust, whose grammar is wider, accepts what ours does is compared too.
fn read_score(desk: &mut Desk, case: Case<'_>) -> Verdict {
    let (bounds, own, by) = bounds(case);
    let answer = ours::score(desk.text(case.text), bounds);

    let (by, expected) = match rust::columns(case.text).filter(|_| own) {
        None => (by, Err(1)),
        Some(columns) => score_of(case.text, columns[5]),
    };

    let expected = expected.unwrap_or_else(|refused| ScoreText {
        refused: refused.into(),
        ..ScoreText::default()
    });
    let accepted = answer.refused != 0 || rust::score(case.text).is_ok();
    by.says(same(answer, expected).and_then(|()| {
        let what = "accepted by the Rust";
        same((what, accepted), (what, true))
    }))
}

/// What this column 6 of a line comes to. The grammar is that of RULES 4.2; the Rust decides what is missing.
fn score_of(line: &[u8], token: &[u8]) -> (By, Result<ScoreText, u8>) {
    if rust::score(line) == Ok(None) {
        let missing = ScoreText {
            missing: 1,
            ..ScoreText::default()
        };
        return (By::Rust, Ok(missing));
    }

    if !score::is_token(token) {
        return (By::Checker, Err(17));
    }

    let start = token.as_ptr() as usize - line.as_ptr() as usize;
    let place = ScoreText {
        start,
        end: start + token.len(),
        ..ScoreText::default()
    };
    (By::Checker, Ok(place))
}

/// A number that is none of the three columns' is refused by 1 (RULES 16.3).
fn text(desk: &mut Desk, case: Case<'_>) -> Verdict {
    let (bounds, own, by) = bounds(case);
    let read = match case.number {
        1 => Some(rust::reference_sequence_name as fn(&[u8]) -> Result<Vec<u8>, u8>),
        2 => Some(rust::source as _),
        3 => Some(rust::ty as _),
        _ => None,
    };
    let by = by.and(By::rust_if(read.is_some()));
    let expected = read.filter(|_| own).map_or(Err(1), |read| read(case.text));

    desk.writes(case, by, expected.as_deref().map_err(|&n| u64::from(n)), |line, out| {
        ours::text(line, bounds, case.number as u32, out)
    })
}
