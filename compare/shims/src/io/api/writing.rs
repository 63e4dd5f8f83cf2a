//! Writing records, directives and comments, without a line feed.
//!
//! An error of kind `Unsupported` is the API's own: the Rust cannot express what was asked (a position of zero, a patch
//! without a minor, a strand or phase above 3). Every other error is the Rust's.

use std::io;

use bstr::ByteSlice;
use noodles_core::Position;

use super::{Door, values};
use crate::{
    DirectiveBuf, Record,
    directive_buf::{
        Value,
        value::{GenomeBuild, GffVersion, SequenceRegion},
    },
    feature::{
        RecordBuf,
        record::{Phase, Strand},
        record_buf::attributes::field,
    },
};

/// A record's fields, decoded. An attribute is a tag and its values: one is a string, more are an array.
#[derive(Clone, Debug)]
pub struct Fields<'a> {
    pub reference_sequence_name: &'a [u8],
    pub source: &'a [u8],
    pub ty: &'a [u8],
    pub start: u64,
    pub end: u64,
    pub score: Option<f32>,
    pub strand: u8,
    pub phase: u8,
    pub attributes: &'a [(&'a [u8], &'a [&'a [u8]])],
}

/// A directive's value.
#[derive(Clone, Copy, Debug, Eq, PartialEq)]
pub enum Typed<'a> {
    /// No value.
    None,
    /// A text.
    String(&'a [u8]),
    /// Major, minor, patch.
    Version(values::Version),
    /// Name, start, end.
    Region(&'a [u8], u64, u64),
    /// Source, name.
    Build(&'a [u8], &'a [u8]),
}

/// A record's line. Calls `write_record` of io/writer/line/record.rs on a shim's `RecordBuf`.
pub fn write_record(fields: &Fields<'_>) -> io::Result<Vec<u8>> {
    let mut dst = Vec::new();
    put_record(fields, &mut dst)?;
    Ok(dst)
}

/// The same behind what `dst` holds; on an error, what was written before it stays.
pub fn put_record(fields: &Fields<'_>, dst: &mut Vec<u8>) -> io::Result<()> {
    let attributes = fields
        .attributes
        .iter()
        .map(|&(tag, values)| (tag.into(), value(values)))
        .collect();

    let mut builder = RecordBuf::builder()
        .set_reference_sequence_name(fields.reference_sequence_name.into())
        .set_source(fields.source.into())
        .set_type(fields.ty.into())
        .set_start(position(fields.start)?)
        .set_end(position(fields.end)?)
        .set_strand(strand(fields.strand)?)
        .set_attributes(attributes);

    if let Some(score) = fields.score {
        builder = builder.set_score(score);
    }

    if let Some(phase) = phase(fields.phase)? {
        builder = builder.set_phase(phase);
    }

    Door::write_record(dst, &builder.build())
}

/// A record's line read and written again behind what `dst` holds. Calls `Record::try_new` of record.rs, then `write_record`
/// of io/writer/line/record.rs on that very record; on an error, what was written before it stays.
pub fn rewrite_record(line: &[u8], dst: &mut Vec<u8>) -> io::Result<()> {
    Door::write_record(dst, &Record::try_new(line)?)
}

/// A directive's line. Calls `write_directive` of io/writer/line/directive.rs.
pub fn write_directive(key: &[u8], value: Typed<'_>) -> io::Result<Vec<u8>> {
    let mut dst = Vec::new();
    put_directive(key, value, &mut dst)?;
    Ok(dst)
}

/// The same behind what `dst` holds; on an error, what was written before it stays.
pub fn put_directive(key: &[u8], value: Typed<'_>, dst: &mut Vec<u8>) -> io::Result<()> {
    let value = match value {
        Typed::None => None,
        Typed::String(text) => Some(Value::String(text.into())),
        Typed::Version(version) => Some(Value::GffVersion(gff_version(version)?)),
        Typed::Region(name, start, end) => Some(Value::SequenceRegion(SequenceRegion::new(
            name,
            position(start)?,
            position(end)?,
        ))),
        Typed::Build(source, name) => Some(Value::GenomeBuild(GenomeBuild::new(source, name))),
    };

    Door::write_directive(dst, &DirectiveBuf::new(key, value))
}

/// A comment's line. Calls `write_comment` of io/writer/line/comment.rs.
pub fn write_comment(text: &[u8]) -> io::Result<Vec<u8>> {
    let mut dst = Vec::new();
    Door::write_comment(&mut dst, text.as_bstr())?;
    Ok(dst)
}

fn value(values: &[&[u8]]) -> field::Value {
    match *values {
        [one] => field::Value::String(one.into()),
        _ => field::Value::Array(values.iter().map(|&v| v.into()).collect()),
    }
}

/// A version has no maker but its reader, `GffVersion::from_str`.
fn gff_version(version: values::Version) -> io::Result<GffVersion> {
    let text = match version {
        (major, None, None) => format!("{major}"),
        (major, Some(minor), None) => format!("{major}.{minor}"),
        (major, Some(minor), Some(patch)) => format!("{major}.{minor}.{patch}"),
        (_, None, Some(_)) => return Err(unsupported("a patch without a minor")),
    };

    Ok(text.parse().expect("a version written by numbers is read"))
}

fn position(n: u64) -> io::Result<Position> {
    Position::try_from(n as usize).map_err(|_| unsupported("a position of zero"))
}

fn strand(n: u8) -> io::Result<Strand> {
    match n {
        0 => Ok(Strand::None),
        1 => Ok(Strand::Forward),
        2 => Ok(Strand::Reverse),
        3 => Ok(Strand::Unknown),
        _ => Err(unsupported("a strand above 3")),
    }
}

fn phase(n: u8) -> io::Result<Option<Phase>> {
    match n {
        0 => Ok(Some(Phase::Zero)),
        1 => Ok(Some(Phase::One)),
        2 => Ok(Some(Phase::Two)),
        3 => Ok(None),
        _ => Err(unsupported("a phase above 3")),
    }
}

fn unsupported(what: &str) -> io::Error {
    io::Error::new(io::ErrorKind::Unsupported, what)
}
