//! Stands in for the writer of a build; a written build rests on it: source and name, one space between.

use std::io::{self, Write};

use crate::directive_buf::value::GenomeBuild;

pub(crate) fn write_genome_build<W>(writer: &mut W, genome_build: &GenomeBuild) -> io::Result<()>
where
    W: Write,
{
    writer.write_all(genome_build.source())?;
    writer.write_all(b" ")?;
    writer.write_all(genome_build.name())
}
