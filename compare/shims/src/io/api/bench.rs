//! Tight loops over the original functions, for measuring; each answers a sum, so that no work can be left out.

use std::io::{BufRead, BufReader};

use super::{Door, record};
use crate::{Line, line::Kind, record::attributes::field::Value};

/// Lines, and the sum of their lengths without ends. Calls the inner `read_line` of io/reader.rs, one buffer for all lines.
#[inline(never)]
pub fn lines(mut text: &[u8]) -> (u64, u64) {
    let mut buf = Vec::new();
    let (mut count, mut sum) = (0, 0);

    while take_line(&mut text, &mut buf) {
        count += 1;
        sum += buf.len() as u64;
    }

    (count, sum)
}

/// Lines of a text that comes in parts, and the sum of their lengths without ends and of the last byte of each. Calls the inner
/// `read_line` of io/reader.rs over a reader that takes so many bytes at a time, one buffer for all lines.
#[inline(never)]
pub fn parts(text: &[u8], len: usize) -> (u64, u64) {
    let mut reader = BufReader::with_capacity(len, text);
    let mut buf = Vec::new();
    let (mut count, mut sum) = (0, 0);

    while take_line(&mut reader, &mut buf) {
        count += 1;
        sum += buf.len() as u64 + buf.last().map_or(0, |&byte| u64::from(byte));
    }

    (count, sum)
}

/// Lines with eight tabs, and the sum of all their ends. Calls `Bounds::index` of record/fields/bounds.rs on each line.
#[inline(never)]
pub fn columns(lines: &[&[u8]]) -> (u64, u64) {
    let (mut count, mut sum) = (0, 0);

    for bounds in lines.iter().filter_map(|line| record::bounds(line)) {
        count += 1;
        sum += bounds.iter().map(|&end| end as u64).sum::<u64>();
    }

    (count, sum)
}

/// Records whose four numbers are read, and the sum of starts, ends, strands and phases: `numbers` of record.rs on each line.
#[inline(never)]
pub fn fields(lines: &[&[u8]]) -> (u64, u64) {
    let (mut count, mut sum) = (0, 0);

    for numbers in lines.iter().filter_map(|line| record::numbers(line)) {
        count += 1;
        sum += numbers.iter().sum::<u64>();
    }

    (count, sum)
}

/// Attributes, and the sum of the lengths of their raw tags and values, up to a refusal in each column.
/// Calls `next` of record/attributes/field.rs on each column, `.` being text like any other.
#[inline(never)]
pub fn attributes(columns: &[&[u8]]) -> (u64, u64) {
    let (mut count, mut sum) = (0, 0);

    for column in columns {
        let mut rest = *column;

        while let Some(Ok((tag, value))) = Door::next(&mut rest) {
            count += 1;
            sum += (tag.len() + value.len()) as u64;
        }
    }

    (count, sum)
}

/// Values of an attribute, and the sum of their lengths when decoded. Calls `parse_value` of record/attributes/field/value.rs and
/// `Array::iter` of array.rs.
#[inline(never)]
pub fn values(raw: &[u8]) -> (u64, u64) {
    match Door::parse_value(raw) {
        Value::String(value) => (1, value.len() as u64),
        Value::Array(array) => array
            .iter()
            .fold((0, 0), |(count, sum), value| (count + 1, sum + value.len() as u64)),
    }
}

/// Attributes of all records of a text, and the sum of the lengths of their raw tags and values, up to a refusal in each.
/// Calls the inner `read_line` of io/reader.rs, `Line::kind` and `Line::as_record` of line.rs, `Record::attributes` of
/// record.rs, and `next` of record/attributes/field.rs: splitting, columns and walk as the crate joins them.
#[inline(never)]
pub fn whole(mut text: &[u8]) -> (u64, u64) {
    let mut line = Line::default();
    let (mut count, mut sum) = (0, 0);

    while take_line(&mut text, &mut line.0) {
        let Some(Ok(record)) = line.as_record() else {
            continue;
        };

        let attributes = record.attributes();
        let mut rest = attributes.as_ref();

        while let Some(Ok((tag, value))) = Door::next(&mut rest) {
            count += 1;
            sum += (tag.len() + value.len()) as u64;
        }
    }

    (count, sum)
}

/// Lines that are no records, or records whose start, end and attributes are read; and the sum of the lengths of those whose start is not
/// above their end. Calls the inner `read_line` of io/reader.rs, `Line::kind` and `Line::as_record` of line.rs, `Record::start`, `end` and
/// `attributes` of record.rs, and `next` of record/attributes/field.rs.
#[inline(never)]
pub fn report(mut text: &[u8]) -> (u64, u64) {
    let mut line = Line::default();
    let (mut count, mut sum) = (0, 0);

    while take_line(&mut text, &mut line.0) {
        if line.0.is_empty() {
            continue;
        }

        if line.kind() != Kind::Record {
            count += 1;
            continue;
        }

        if let Some(length) = length(&line) {
            count += 1;
            sum += length;
        }
    }

    (count, sum)
}

/// The length of a record that is read, or 0 where its start is above its end.
#[inline]
fn length(line: &Line) -> Option<u64> {
    let record = line.as_record()?.ok()?;
    let (start, end) = (usize::from(record.start().ok()?), usize::from(record.end().ok()?));
    let attributes = record.attributes();
    let mut rest = attributes.as_ref();

    while let Some(field) = Door::next(&mut rest) {
        field.ok()?;
    }

    Some(end.checked_sub(start).map_or(0, |far| far as u64 + 1))
}

/// Lines that are read as records and written again, and the sum of the lengths of their new lines; one buffer for all lines.
/// Calls `rewrite_record` of the API on each line.
#[inline(never)]
pub fn records(lines: &[&[u8]]) -> (u64, u64) {
    let mut dst = Vec::new();
    let (mut count, mut sum) = (0, 0);

    for line in lines {
        dst.clear();

        if super::writing::rewrite_record(line, &mut dst).is_ok() {
            count += 1;
            sum += dst.len() as u64;
        }
    }

    (count, sum)
}

/// Records of a text that are written again, and the sum of the lengths of their new lines.
/// Calls the inner `read_line` of io/reader.rs, `Line::kind` of line.rs, and `rewrite_record` of the API.
#[inline(never)]
pub fn rewrite(mut text: &[u8]) -> (u64, u64) {
    let mut line = Line::default();
    let mut dst = Vec::new();
    let (mut count, mut sum) = (0, 0);

    while take_line(&mut text, &mut line.0) {
        dst.clear();

        if line.kind() == Kind::Record && super::writing::rewrite_record(&line.0, &mut dst).is_ok() {
            count += 1;
            sum += dst.len() as u64;
        }
    }

    (count, sum)
}

/// The bytes of texts when decoded, and the sum of the last byte of each. Calls `percent_decode` of record.rs on each text, which hands
/// back the text itself where it has no escape; so that both sides make a text of their own, it is copied then.
#[inline(never)]
pub fn decoded(texts: &[&[u8]]) -> (u64, u64) {
    let (mut count, mut sum) = (0, 0);

    for text in texts {
        let decoded = Door::percent_decode(text).into_owned();
        count += decoded.len() as u64;
        sum += decoded.last().map_or(0, |&byte| u64::from(byte));
    }

    (count, sum)
}

#[inline]
fn take_line(reader: &mut impl BufRead, buf: &mut Vec<u8>) -> bool {
    buf.clear();
    Door::read_line(reader, buf).is_ok_and(|taken| taken > 0)
}
