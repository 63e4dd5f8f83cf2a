//! Stands in for io/writer.rs; no answer rests on it, but it is the door to `write_record` and `write_directive`.

mod line;
mod num;

use std::io::{self, Write};

use super::api::Door;
use crate::{DirectiveBuf, LineBuf, feature::Record};

/// A writer of lines.
pub struct Writer<W> {
    inner: W,
}

impl<W> Writer<W>
where
    W: Write,
{
    /// A writer into `inner`.
    pub fn new(inner: W) -> Self {
        Self { inner }
    }

    /// Writes a line and its line feed.
    pub fn write_line(&mut self, line: &LineBuf) -> io::Result<()> {
        line::write_line(&mut self.inner, line)
    }
}

impl Door {
    /// `write_record` of io/writer/line/record.rs.
    pub(crate) fn write_record<R>(dst: &mut Vec<u8>, record: &R) -> io::Result<()>
    where
        R: Record,
    {
        line::write_record(dst, record)
    }

    /// `write_directive` of io/writer/line/directive.rs.
    pub(crate) fn write_directive(dst: &mut Vec<u8>, directive: &DirectiveBuf) -> io::Result<()> {
        line::write_directive(dst, directive)
    }
}
