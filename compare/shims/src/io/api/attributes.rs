//! Column 9: the walk over raw fields, decoded tags and values, and the lookup by tag.

use super::{Door, record::record};
use crate::record::attributes::field;

/// An attribute as it stands in the column: tag and value, not decoded.
pub type RawField<'a> = (&'a [u8], &'a [u8]);

/// What one step over raw fields answers.
#[derive(Clone, Debug, Eq, PartialEq)]
pub enum Step<'a> {
    /// Nothing is left.
    Done,
    /// Refusal 5, and how many bytes are left.
    Refused(usize),
    /// Tag and value, not decoded, and how many bytes are left.
    Field(&'a [u8], &'a [u8], usize),
}

/// A value, decoded.
#[derive(Clone, Debug, Eq, PartialEq)]
pub enum Value {
    /// One string.
    String(Vec<u8>),
    /// Two or more.
    Array(Vec<Vec<u8>>),
}

/// One step at the start of the text, `.` being text like any other. Calls `next` of record/attributes/field.rs.
pub fn step(text: &[u8]) -> Step<'_> {
    let mut rest = text;

    match Door::next(&mut rest) {
        None => Step::Done,
        Some(Err(_)) => Step::Refused(rest.len()),
        Some(Ok((tag, value))) => Step::Field(tag, value, rest.len()),
    }
}

/// The raw fields of a column in order, and where 5 came, if it did. A column `.` has none.
/// Calls `Fields::attributes` of record/fields.rs, then `next` of record/attributes/field.rs until it is done or refuses.
pub fn walk(column: &[u8]) -> (Vec<RawField<'_>>, Option<usize>) {
    let mut fields = Vec::new();
    let kept = with_attributes(column, |attributes| attributes.as_ref().len());
    let mut rest = &column[..kept];

    loop {
        match Door::next(&mut rest) {
            None => return (fields, None),
            Some(Err(_)) => return (fields, Some(column.len() - rest.len())),
            Some(Ok(field)) => fields.push(field),
        }
    }
}

/// The attributes of a column, decoded, in order, and 5 if it comes. A column `.` has none.
/// Calls `Attributes::iter` of record/attributes.rs up to its first refusal.
pub fn decoded(column: &[u8]) -> (Vec<(Vec<u8>, Value)>, Option<u8>) {
    with_attributes(column, |attributes| {
        let mut fields = Vec::new();

        for result in attributes.iter() {
            match result {
                Ok((tag, value)) => fields.push((tag.to_vec(), owned(value))),
                Err(_) => return (fields, Some(5)),
            }
        }

        (fields, None)
    })
}

/// A tag, decoded. Calls the shim `parse_tag` of record/attributes/field/tag.rs, and so `percent_decode` of record.rs.
pub fn parse_tag(raw: &[u8]) -> Vec<u8> {
    Door::parse_tag(raw).to_vec()
}

/// A value, split, then decoded. Calls `parse_value` of record/attributes/field/value.rs and `Array::iter` of array.rs.
pub fn parse_value(raw: &[u8]) -> Value {
    owned(Door::parse_value(raw))
}

/// The value of the first attribute whose decoded tag is `tag`, or 5 where that comes first; nothing if it is absent.
/// Calls `Attributes::get` of record/attributes.rs.
pub fn get(column: &[u8], tag: &[u8]) -> Option<Result<Value, u8>> {
    with_attributes(column, |attributes| {
        attributes.get(tag).map(|result| result.map(owned).map_err(|_| 5))
    })
}

/// Whether a column has no attributes. Calls `Attributes::is_empty` of record/attributes.rs.
pub fn is_empty(column: &[u8]) -> bool {
    with_attributes(column, |attributes| attributes.is_empty())
}

/// Hands the attributes of a column to `f`. Calls `Fields::attributes` of record/fields.rs on a record of eight empty
/// columns and this one: there a column `.` becomes no text at all.
fn with_attributes<T>(column: &[u8], f: impl FnOnce(crate::record::Attributes<'_>) -> T) -> T {
    let line = [b"\t\t\t\t\t\t\t\t", column].concat();
    let record = record(&line).expect("the line has eight tabs");
    f(record.attributes())
}

fn owned(value: field::Value<'_>) -> Value {
    match value {
        field::Value::String(s) => Value::String(s.to_vec()),
        field::Value::Array(array) => Value::Array(array.iter().map(|s| s.to_vec()).collect()),
    }
}
