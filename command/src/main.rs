//! GFF3 files of any size, checked, rewritten and counted: the library reads, judges and writes each line, and this adds files, pipes,
//! words and pictures.

mod check;
mod count;
mod counts;
mod fasta;
mod findings;
mod input;
mod judge;
mod lines;
mod long_line;
mod manual;
mod notes;
mod options;
mod output;
mod packing;
mod reporter;
mod rewrite;
mod shown;
mod source;
mod streams;
mod target;

use std::{
    io::{self, Write},
    process::ExitCode,
};

use anyhow::Result;
use clap::{CommandFactory, Parser};
use console::Term;
use gff3_lines::Refusal;

use options::{Color, Command, Format, Options};
use output::{Output, Unwritten};
use reporter::Reporter;
use shown::Look;
use source::Source;

/// How the command ends, as `options::STATUS` says it; and as a command does that a closed pipe ends.
const FINE: u8 = 0;
const REFUSED: u8 = 1;
const TROUBLE: u8 = 2;
const CLOSED: u8 = 141;

fn main() -> ExitCode {
    let options = Options::parse();
    let mut status = FINE;
    let done = run(options, &mut status);
    ExitCode::from(match done {
        Ok(is_refused) => status.max(if is_refused { REFUSED } else { FINE }),
        Err(error) => end(&error),
    })
}

/// The status for an error that ends the command, which is said unless nobody listens.
fn end(error: &anyhow::Error) -> u8 {
    match error.downcast_ref::<Unwritten>() {
        Some(unwritten) if unwritten.is_closed() => CLOSED,
        _ => {
            say(&format!("{error:#}"));
            TROUBLE
        }
    }
}

/// Where standard error is closed, too, there is nobody to be told.
fn say(words: &str) {
    let _ = writeln!(io::stderr(), "gff3: {words}");
}

fn run(options: Options, status: &mut u8) -> Result<bool> {
    // A source that cannot be read is no end: the next one may be.
    let mut trouble = |source: &Source, error: anyhow::Error| -> Result<()> {
        if error.is::<Unwritten>() {
            return Err(error);
        }
        *status = if error.is::<Refusal>() { *status } else { TROUBLE };
        say(&format!("{source}: {error:#}"));
        Ok(())
    };
    let out = look(options.color, &Term::stdout(), console::colors_enabled());
    let err = look(options.color, &Term::stderr(), console::colors_enabled_stderr());
    match options.command {
        Command::Check(check) => {
            let mut reporter = Reporter::new(Output::standard()?, check.format, check.limits, out);
            check::check(&Source::all(&check.files), &check.off, &mut reporter, &mut trouble)
        }
        Command::Rewrite(rewrite) => {
            let mut reporter = Reporter::new(Output::error()?, Format::Text, rewrite.limits, err);
            let source = rewrite.file.as_deref().map_or(Source::Standard, Source::new);
            rewrite::rewrite(&source, &rewrite, &mut reporter)
        }
        Command::Count(count) => {
            let sources = Source::all(&count.files);
            count::count(&sources, count.format, &mut Output::standard()?, &mut trouble)
        }
        Command::Completions { shell } => print(|out| {
            clap_complete::generate(shell, &mut Options::command(), "gff3", out);
        }),
        Command::Manual => print(|out| out.extend(manual::manual(&mut Options::command()).into_bytes())),
    }
}

fn look(color: Color, term: &Term, auto: bool) -> Look {
    Look {
        width: usize::from(term.size().1),
        colors: match color {
            Color::Auto => auto,
            Color::Always => true,
            Color::Never => false,
        },
    }
}

fn print(write: impl FnOnce(&mut Vec<u8>)) -> Result<bool> {
    let mut out = Output::standard()?;
    write(&mut out.pending);
    out.spill()?;
    Ok(false)
}
