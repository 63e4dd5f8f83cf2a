//! Column 9: the walk, the values of an attribute, the lookup.

use oracle::io::api::{
    attributes::{self as rust, Step, Value as Values},
    coding::percent_decode,
};

use crate::{
    case::{By, Case, Compared, Difference, Verdict, same, same_text},
    desk::Desk,
    ours::{self, Field, Found, Value},
    report::{Call, Report},
    texts::{self, BYTES, Dice},
};

const MARKS: &[u8] = b"==;;,,%.a6\t";

pub fn every(report: &mut Report, len: usize) {
    if len <= 7 {
        texts::every(b"a=;,%.", len, |column| whole_column(report, column));
        texts::every(b"a=;%61", len, |column| {
            for tag in [&b"a"[..], b"", b"%61", b"aa", b"a;", b"61"] {
                lookup(report, column, tag);
            }
        });
    }

    if len <= 8 {
        texts::every(b"a,%", len, |value| whole_value(report, value));
    }

    if len <= 2 {
        texts::every(&BYTES, len, |column| {
            report.check(Call::NoAttributes, Case::of(column), no_attributes);
            report.check(Call::NextField, Case::of(column), next_field);
        });
    }
}

/// Every pair of bytes behind a percent sign in a tag, since the lookup decodes by itself; and tags and values of each length, from each
/// cursor.
pub fn sweep(report: &mut Report) {
    texts::every(&BYTES, 2, |pair| {
        let column = [b"%", pair, b"=1"].concat();
        lookup(report, &column, &rust::parse_tag(&column[..3]));
        lookup(report, &column, &column[..3]);
    });

    for tag in (0..=34).chain(46..=50) {
        for value in 0..=34 {
            let tag = vec![b't'; tag];
            let value = vec![b'v'; value];
            let column = [&tag[..], b"=", &value, b";", &tag, b"x=", &value, b";b"].concat();
            whole_column(report, &column);
            lookup(report, &column, &tag);
            lookup(report, &column, &[&tag[..], b"x"].concat());
            whole_value(report, &[&tag[..], b",", &value].concat());
        }
    }
}

pub fn random(report: &mut Report, dice: &mut Dice) {
    let len = dice.len();
    let column = match dice.below(6) {
        0 => dice.text(len, MARKS),
        1 => dice.text(len, b"aaaaaaaaaaaaaaaaaaaaaaaaaa=;,%61"),
        2 => dice.text(len, &BYTES),
        3 => texts::attributes(dice),
        _ => {
            let mut column = texts::attributes(dice);
            texts::damage(dice, &mut column, MARKS);
            column
        }
    };

    report.check(Call::NextField, Case::of(&column), walk);
    report.check(Call::NoAttributes, Case::of(&column), no_attributes);

    for _ in 0..6 {
        report.check(
            Call::NextField,
            Case::at(&column, dice.cursor(column.len())),
            next_field,
        );
        let out = u64::from(dice.once_in(6)) * dice.number();
        let at = dice.cursor(column.len());
        report.check(
            Call::NextValue,
            Case {
                out,
                ..Case::at(&column, at)
            },
            next_value,
        );
    }

    let (fields, _) = rust::walk(&column);

    for (tag, value) in fields.iter().take(12) {
        report.check(Call::NextValue, Case::of(value), all_values);
        let decoded = rust::parse_tag(tag);
        lookup(report, &column, &decoded);
        lookup(report, &column, tag);
        let mut other = decoded;
        texts::damage(dice, &mut other, MARKS);
        lookup(report, &column, &other);
    }

    for tag in [&b"ID"[..], b"Parent", b"Note", b"", b"."] {
        lookup(report, &column, tag);
    }
}

fn whole_column(report: &mut Report, column: &[u8]) {
    for at in (0..=column.len() + 1).chain([usize::MAX]) {
        report.check(Call::NextField, Case::at(column, at), next_field);
    }

    report.check(Call::NextField, Case::of(column), walk);
    report.check(Call::NoAttributes, Case::of(column), no_attributes);
    let (fields, _) = rust::walk(column);

    for (tag, value) in fields {
        lookup(report, column, &rust::parse_tag(tag));
        lookup(report, column, value);
    }
}

fn whole_value(report: &mut Report, value: &[u8]) {
    for at in (0..=value.len() + 1).chain([usize::MAX]) {
        for out in [0, 1, 2, 1 << 32, u64::MAX] {
            report.check(
                Call::NextValue,
                Case {
                    out,
                    ..Case::at(value, at)
                },
                next_value,
            );
        }
    }

    report.check(Call::NextValue, Case::of(value), all_values);
}

fn lookup(report: &mut Report, column: &[u8], tag: &[u8]) {
    report.check(
        Call::FindTag,
        Case {
            tag,
            ..Case::of(column)
        },
        find_tag,
    );
}

fn no_attributes(desk: &mut Desk, case: Case<'_>) -> Verdict {
    let answer = ours::no_attributes(desk.text(case.text));
    By::Rust.says(same(answer, u32::from(rust::is_empty(case.text))))
}

/// From a cursor, as the Rust steps over what is left from there. That a cursor beyond the column counts as at its end is
/// RULES 5.3.
fn next_field(desk: &mut Desk, case: Case<'_>) -> Verdict {
    By::rust_if(case.number <= case.text.len()).says(field_from(desk, case))
}

/// A column `.` is none at all, which the Rust's own step is not told.
fn field_from(desk: &mut Desk, case: Case<'_>) -> Compared {
    let end = case.text.len();
    let at = case.number.min(end);
    let step = if case.text == b"." {
        Step::Done
    } else {
        rust::step(&case.text[at..])
    };
    let lent = desk.text(case.text);
    let answer = ours::next_field(lent, case.number);

    match step {
        Step::Done => same(answer, no_field(0, at)),
        Step::Refused(_) => same(answer, no_field(5, at)),
        Step::Field(tag, value, left) => {
            let value_start = at + tag.len() + 1;
            let expected = Field {
                refused: 0,
                done: 0,
                tag_start: at,
                tag_end: at + tag.len(),
                value_start,
                value_end: value_start + value.len(),
                next: end - left,
            };
            same(answer, expected)?;
            same_text(lent, answer.tag_start, answer.tag_end, tag)?;
            same_text(lent, answer.value_start, answer.value_end, value)
        }
    }
}

/// Where there is no field: refused by 5, or done, and the cursor where it was (RULES 16.2).
fn no_field(refused: u64, next: usize) -> Field {
    Field {
        refused,
        done: u64::from(refused == 0),
        next,
        ..Field::default()
    }
}

/// From the start, by the library's own cursors, and at the end or after a refusal once more.
fn walk(desk: &mut Desk, case: Case<'_>) -> Verdict {
    By::Rust.says(walk_by_cursor(desk, case))
}

fn walk_by_cursor(desk: &mut Desk, case: Case<'_>) -> Compared {
    let (fields, refused) = rust::walk(case.text);
    let lent = desk.text(case.text);
    let mut at = 0;

    for (tag, value) in fields {
        let answer = ours::next_field(lent, at);
        same((answer.refused, answer.done), (0, 0))?;
        same_text(lent, answer.tag_start, answer.tag_end, tag)?;
        same_text(lent, answer.value_start, answer.value_end, value)?;
        at = answer.next;
    }

    if let Some(place) = refused {
        same(("refused at", at), ("refused at", place))?;
    }

    let last = ours::next_field(lent, at);
    same(last, no_field(if refused.is_some() { 5 } else { 0 }, at))?;
    same(ours::next_field(lent, last.next), last)
}

/// From a cursor. That the last value may be out, and what a cursor beyond the text counts as, is RULES 5.3.
fn next_value(desk: &mut Desk, case: Case<'_>) -> Verdict {
    By::rust_if(case.out == 0 && case.number <= case.text.len()).says(value_from(desk, case))
}

/// The Rust splits a whole text and decodes it at once, so the values from the cursor on are those of the text that is left.
fn value_from(desk: &mut Desk, case: Case<'_>) -> Compared {
    let end = case.text.len();
    let at = case.number.min(end);
    let answer = ours::next_value(desk.text(case.text), case.number, case.out);

    if case.out != 0 {
        return same(answer, no_value(at));
    }

    let values = values(rust::parse_value(&case.text[at..]));
    let raw = case.text[at..].split(|&b| b == b',').next().unwrap_or_default();
    let expected = Value {
        done: 0,
        start: at,
        end: at + raw.len(),
        next: end.min(at + raw.len() + 1),
        out: (values.len() == 1).into(),
    };
    same(answer, expected)?;
    same(Some(percent_decode(raw)), values.into_iter().next())
}

/// Where there is no value: the last one stays out, and the cursor where it was (RULES 16.2).
fn no_value(next: usize) -> Value {
    Value {
        done: 1,
        next,
        out: 1,
        ..Value::default()
    }
}

/// From the start, by the library's own cursors, and at the end once more.
fn all_values(desk: &mut Desk, case: Case<'_>) -> Verdict {
    By::Rust.says(values_by_cursor(desk, case))
}

fn values_by_cursor(desk: &mut Desk, case: Case<'_>) -> Compared {
    let lent = desk.text(case.text);
    let mut cursor = (0, 0);

    for value in values(rust::parse_value(case.text)) {
        let answer = ours::next_value(lent, cursor.0, cursor.1);
        same(answer.done, 0)?;
        same(lent.get(answer.start..answer.end).map(percent_decode), Some(value))?;
        cursor = (answer.next, answer.out);
    }

    let last = ours::next_value(lent, cursor.0, cursor.1);
    same(last, no_value(case.text.len()))?;
    same(ours::next_value(lent, last.next, last.out), last)
}

fn values(value: Values) -> Vec<Vec<u8>> {
    match value {
        Values::String(one) => vec![one],
        Values::Array(all) => all,
    }
}

fn find_tag(desk: &mut Desk, case: Case<'_>) -> Verdict {
    By::Rust.says(tag_found(desk, case))
}

/// The place is that of the first field whose tag the Rust decodes to this one.
fn tag_found(desk: &mut Desk, case: Case<'_>) -> Compared {
    let (fields, refused) = rust::walk(case.text);
    let met = fields.iter().find(|(tag, _)| rust::parse_tag(tag) == case.tag);
    let (lent, tag) = desk.text_and_tag(case);
    let answer = ours::find_tag(lent, tag);

    let expected = match (met, refused) {
        (Some((_, value)), _) => {
            let start = value.as_ptr() as usize - case.text.as_ptr() as usize;
            Found {
                refused: 0,
                found: 1,
                start,
                end: start + value.len(),
            }
        }
        (None, Some(_)) => Found {
            refused: 5,
            ..Found::default()
        },
        (None, None) => Found::default(),
    };
    same(answer, expected)?;
    value_found(case, lent, answer)
}

/// The value there is the one that the Rust's own lookup tells.
fn value_found(case: Case<'_>, lent: &[u8], answer: Found) -> Compared {
    match (rust::get(case.text, case.tag), answer) {
        (
            None,
            Found {
                refused: 0, found: 0, ..
            },
        )
        | (Some(Err(5)), Found { refused: 5, .. }) => Ok(()),
        (
            Some(Ok(value)),
            Found {
                refused: 0,
                found: 1,
                start,
                end,
            },
        ) => same(lent.get(start..end).map(rust::parse_value), Some(value)),
        (theirs, ours) => Err(Difference {
            ours: format!("{ours:?}"),
            expected: format!("{theirs:?}"),
        }),
    }
}
