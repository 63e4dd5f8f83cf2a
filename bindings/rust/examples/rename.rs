//! Renames a reference sequence in a GFF3 file: reads each record, changes its column 1, and writes it again. The name of a
//! `sequence-region` changes likewise; other lines stay as they are.
//!
//! ```sh
//! cargo run --example rename -- annotation.gff3 OLD NEW
//! ```

use std::{
    env, fs,
    io::{self, Write},
    process::ExitCode,
};

use gff3_lines::{Kind, Line, Refusal, Region, Sheet, Value, lines, write_directive_into};

fn main() -> ExitCode {
    let words: Vec<_> = env::args().skip(1).collect();
    let (file, old, new) = match words.as_slice() {
        [file, old, new] => (file, old, new),
        _ => {
            eprintln!("usage: rename FILE OLD NEW");
            return ExitCode::FAILURE;
        }
    };
    let renamed =
        fs::read(file).and_then(|text| rename(&text, old.as_bytes(), new.as_bytes(), &mut io::stdout().lock()));
    match renamed {
        Ok(()) => ExitCode::SUCCESS,
        Err(error) => {
            eprintln!("{file}: {error}");
            ExitCode::FAILURE
        }
    }
}

/// A line that is refused is said so in its place. Blank lines are left out.
fn rename(text: &[u8], old: &[u8], new: &[u8], out: &mut impl Write) -> io::Result<()> {
    let mut written = Vec::new();
    for line in lines(text) {
        written.clear();
        if let Err(refusal) = renamed_into(line, old, new, &mut written) {
            write!(written, "! {refusal}")?;
        }
        written.push(b'\n');
        out.write_all(&written)?;
    }
    Ok(())
}

fn renamed_into(line: Line, old: &[u8], new: &[u8], out: &mut Vec<u8>) -> Result<(), Refusal> {
    if line.kind() == Kind::Record {
        let mut sheet = Sheet::of_line(line.bytes())?;
        if sheet.reference_sequence_name == old {
            sheet.reference_sequence_name = new.to_vec();
        }
        return sheet.line_into(out);
    }
    if let Some(region) = region(line)? {
        if region.name == old {
            return write_directive_into(REGION, Value::Region(Region { name: new, ..region }), out);
        }
    }
    out.extend(line.bytes());
    Ok(())
}

const REGION: &[u8] = b"sequence-region";

/// The region of a line that is one.
fn region(line: Line) -> Result<Option<Region>, Refusal> {
    let directive = line.directive().filter(|directive| directive.key == REGION);
    directive
        .map(|directive| Region::parse(directive.value.unwrap_or_default()))
        .transpose()
}
