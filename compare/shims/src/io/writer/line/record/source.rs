//! Stands in for io/writer/line/record/source.rs; column 2 as written rests on it, its escape set is record.rs's own.

use std::io::{self, Write};

use bstr::BStr;

use crate::{feature::record::Attributes, io::api::Door};

pub(super) fn write_source<W>(writer: &mut W, source: &BStr) -> io::Result<()>
where
    W: Write,
{
    writer.write_all(super::percent_encode(source).as_bytes())
}

impl Door {
    /// `write_reference_sequence_name` of io/writer/line/record/reference_sequence_name.rs.
    pub(crate) fn write_reference_sequence_name(dst: &mut Vec<u8>, s: &BStr) -> io::Result<()> {
        super::write_reference_sequence_name(dst, s)
    }

    /// `write_source` above.
    pub(crate) fn write_source(dst: &mut Vec<u8>, s: &BStr) -> io::Result<()> {
        write_source(dst, s)
    }

    /// `write_type` of ty.rs beside this file.
    pub(crate) fn write_type(dst: &mut Vec<u8>, s: &BStr) -> io::Result<()> {
        super::write_type(dst, s)
    }

    /// `write_attributes` of io/writer/line/record/attributes.rs.
    pub(crate) fn write_attributes(dst: &mut Vec<u8>, a: &dyn Attributes) -> io::Result<()> {
        super::write_attributes(dst, a)
    }

    /// `write_comment` of io/writer/line/comment.rs.
    pub(crate) fn write_comment(dst: &mut Vec<u8>, s: &BStr) -> io::Result<()> {
        super::super::write_comment(dst, s)
    }
}
