//! Stands in for the writer of a region; a written region rests on it: name, start and end, one space between.

use std::io::{self, Write};

use crate::{directive_buf::value::SequenceRegion, io::writer::num};

pub(crate) fn write_sequence_region<W>(writer: &mut W, sequence_region: &SequenceRegion) -> io::Result<()>
where
    W: Write,
{
    writer.write_all(sequence_region.reference_sequence_name())?;
    writer.write_all(b" ")?;
    num::write_usize(writer, usize::from(sequence_region.start()))?;
    writer.write_all(b" ")?;
    num::write_usize(writer, usize::from(sequence_region.end()))
}
