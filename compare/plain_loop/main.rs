//! The reader and the writer of noodles-gff in a plain loop, as a program over that crate would have them; tools/race times it.
//!
//!     plain_loop check FILE
//!     plain_loop rewrite FILE
//!
//! `check` reads start, end, score, strand and phase of each record and walks over its attributes, and prints how many lines of each
//! kind there are. `rewrite` writes each record again, and every other line as it is; a record that is refused becomes `! `. FILE may be
//! /dev/stdin. The status is 0, also where records are refused, or 2 where FILE cannot be read or the output not be written.

use std::{
    env,
    fs::File,
    io::{self, BufReader, BufWriter, Write},
    process::ExitCode,
};

use oracle::{
    Line,
    io::{Reader, api::writing::rewrite_record},
    line::Kind,
};

fn main() -> ExitCode {
    let words: Vec<String> = env::args().skip(1).collect();
    let words: Vec<&str> = words.iter().map(String::as_str).collect();
    let done = match *words {
        ["check", file] => check(file),
        ["rewrite", file] => rewrite(file),
        _ => Err(io::Error::other(
            "usage: plain_loop check FILE, or plain_loop rewrite FILE",
        )),
    };

    match done {
        Ok(()) => ExitCode::SUCCESS,
        Err(error) => {
            eprintln!("plain_loop: {error}");
            ExitCode::from(2)
        }
    }
}

fn open(file: &str) -> io::Result<Reader<BufReader<File>>> {
    File::open(file).map(BufReader::new).map(Reader::new)
}

fn check(file: &str) -> io::Result<()> {
    let mut reader = open(file)?;
    let mut line = Line::default();
    let (mut records, mut directives, mut comments, mut refused) = (0_u64, 0_u64, 0_u64, 0_u64);

    while reader.read_line(&mut line)? > 0 {
        match line.kind() {
            Kind::Directive => directives += 1,
            Kind::Comment => comments += 1,
            Kind::Record if read(&line).is_ok() => records += 1,
            Kind::Record => refused += 1,
        }
    }

    writeln!(
        io::stdout(),
        "records {records}, directives {directives}, comments {comments}, refused {refused}"
    )
}

/// Reads every field of a record but its three texts, which are never refused. The walk hands out tags and values decoded: the crate
/// has no other.
fn read(line: &Line) -> io::Result<()> {
    let Some(record) = line.as_record().transpose()? else {
        return Ok(());
    };

    record.start()?;
    record.end()?;
    record.score().transpose()?;
    record.strand()?;
    record.phase().transpose()?;

    for attribute in record.attributes().iter() {
        attribute?;
    }

    Ok(())
}

fn rewrite(file: &str) -> io::Result<()> {
    let mut reader = open(file)?;
    let mut out = BufWriter::new(io::stdout().lock());
    let mut line = Line::default();
    let mut again = Vec::new();

    while reader.read_line(&mut line)? > 0 {
        if line.kind() != Kind::Record {
            out.write_all(line.as_ref())?;
        } else if written(&line, &mut again) {
            out.write_all(&again)?;
        } else {
            out.write_all(b"! ")?;
        }

        out.write_all(b"\n")?;
    }

    out.flush()
}

/// Writes a record in place of what `again` held, and says whether that worked. The record goes to the writer as it was read: to make one
/// that owns its fields, as the crate's `line_bufs` does, would take longer. The writer stops in the middle of a line that it refuses, so
/// that none goes to the output before it is whole.
fn written(line: &Line, again: &mut Vec<u8>) -> bool {
    again.clear();
    rewrite_record(line.as_ref(), again).is_ok()
}
