//! Stands in for the writer of a version; a written version rests on it: the original `Display` of `GffVersion`.

use std::io::{self, Write};

use crate::directive_buf::value::GffVersion;

pub(crate) fn write_gff_version<W>(writer: &mut W, version: &GffVersion) -> io::Result<()>
where
    W: Write,
{
    write!(writer, "{version}")
}
