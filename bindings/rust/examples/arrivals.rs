//! Says the records of a GFF3 text while it still comes, each as soon as its line has ended: column 1, start, end and column 9. A line that
//! is refused or too long is said on standard error by its number, and the lines behind it are read on.
//!
//! ```sh
//! tail -n +1 -f annotation.gff3 | cargo run --example arrivals
//! cargo run --example arrivals -- annotation.gff3
//! ```
//!
//! The status is 0 at the end of the input, and 2 where the input could not be read or the output not be written.

use std::{
    env,
    fs::File,
    io::{self, Read, Write},
    process::ExitCode,
};

use gff3_lines::{Column, Kind, Line, ReadError, Reader, Refusal, judge};

fn main() -> ExitCode {
    let said = match env::args_os().nth(1) {
        Some(name) => File::open(name).and_then(say_records),
        None => say_records(io::stdin().lock()),
    };
    match said {
        Ok(()) => ExitCode::SUCCESS,
        Err(error) => {
            eprintln!("arrivals: {error}");
            ExitCode::from(2)
        }
    }
}

fn say_records(input: impl Read) -> io::Result<()> {
    let mut out = io::stdout().lock();
    let mut reader = Reader::new(Counted { input, feeds: 0 });
    while let Some(line) = reader.next_line() {
        let said = match line {
            Ok(line) => said(line),
            Err(ReadError::Refused(refusal)) => Err(refusal),
            Err(ReadError::Io(error)) => return Err(error),
        };
        match said {
            Ok(said) => {
                out.write_all(&said)?;
                out.flush()?;
            }
            Err(refusal) => eprintln!("line {}: {refusal}", line_number(&reader)),
        }
    }
    Ok(())
}

/// An input, and how many line feeds have come from it.
struct Counted<R> {
    input: R,
    feeds: usize,
}

impl<R: Read> Read for Counted<R> {
    fn read(&mut self, buffer: &mut [u8]) -> io::Result<usize> {
        let count = self.input.read(buffer)?;
        self.feeds += feeds(&buffer[..count]);
        Ok(count)
    }
}

fn feeds(bytes: &[u8]) -> usize {
    bytes.iter().filter(|byte| **byte == b'\n').count()
}

/// The number of the line that was answered last: so many line feeds are taken, those of blank lines and its own among them. A last line
/// need not have one.
fn line_number<R>(reader: &Reader<Counted<R>>) -> usize {
    reader.get_ref().feeds - feeds(reader.buffer()) + usize::from(reader.is_cut())
}

/// What is said of a line: nothing where it is no record. Columns 1 and 9 are said as they stand, percent-encoded.
fn said(line: Line) -> Result<Vec<u8>, Refusal> {
    if line.kind() != Kind::Record {
        return Ok(Vec::new());
    }
    let judged = judge(line.bytes())?;
    let record = line.record()?;
    let mut said = record.column(Column::ReferenceSequenceName).to_vec();
    said.extend(format!(": {} to {}, ", judged.start, judged.end).bytes());
    said.extend(record.column(Column::Attributes));
    said.push(b'\n');
    Ok(said)
}
