//! Prints the exons of a GFF3 file: the name of the reference sequence, start, end, strand, and the parents.
//!
//! ```sh
//! cargo run --example exons -- annotation.gff3
//! ```

use std::{
    env, fs,
    io::{self, Write},
    path::Path,
    process::ExitCode,
};

use gff3_lines::{Kind, Record, Refusal, Values, decode_into, lines};

fn main() -> ExitCode {
    let name = match env::args_os().nth(1) {
        Some(name) => name,
        None => {
            eprintln!("usage: exons FILE");
            return ExitCode::FAILURE;
        }
    };
    let printed = fs::read(&name).and_then(|text| print_exons(&text, &mut io::stdout().lock()));
    match printed {
        Ok(()) => ExitCode::SUCCESS,
        Err(error) => {
            eprintln!("{}: {error}", Path::new(&name).display());
            ExitCode::FAILURE
        }
    }
}

/// A line that is refused is said so, and the others are read on.
fn print_exons(text: &[u8], out: &mut impl Write) -> io::Result<()> {
    let mut lines = lines(text);
    let (mut number, mut counted) = (0, 0);
    while let Some(line) = lines.next() {
        number += line_count(&text[counted..lines.at()]);
        counted = lines.at();
        if line.kind() != Kind::Record {
            continue;
        }
        match line.record().and_then(|record| exon(&record)) {
            Ok(None) => {}
            Ok(Some(exon)) => out.write_all(&exon)?,
            Err(refusal) => writeln!(out, "line {number}: {refusal}")?,
        }
    }
    Ok(())
}

/// How many lines a text has, blank ones too.
fn line_count(text: &[u8]) -> usize {
    text.split_inclusive(|byte| *byte == b'\n').count()
}

/// The line that is printed of an exon.
fn exon(record: &Record) -> Result<Option<Vec<u8>>, Refusal> {
    if record.ty() != b"exon" {
        return Ok(None);
    }
    let mut exon = record.reference_sequence_name();
    exon.extend(format!(" {} {} {}", record.start()?, record.end()?, record.strand()?).bytes());
    if let Some(parents) = record.attributes().get(b"Parent")? {
        for parent in Values::new(parents) {
            exon.push(b' ');
            decode_into(parent, &mut exon);
        }
    }
    exon.push(b'\n');
    Ok(Some(exon))
}
