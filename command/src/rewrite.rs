//! `gff3 rewrite`: each record unfolded and written again, every other line as it is.

use std::mem;

use anyhow::{Context, Result};
use gff3_lines::{Column, Kind, Line, Refusal, rewrite_into};
use indicatif::ProgressDrawTarget;

use crate::{
    counts::Counts,
    fasta::Fasta,
    input::Input,
    judge::{self, Refused},
    lines::{Ended, Visitor, each_line},
    long_line::LongLine,
    notes::{self, Note},
    options::{self, Fate, Warning},
    output::{Output, Unwritten},
    reporter::Reporter,
    source::Source,
    target::Target,
};

/// The room that the rewriting program has for the sheet of a record, and for its line (RULES 13.3).
const ROOM: usize = 65_536;

/// Rewrites the source, and answers whether a line was refused.
pub fn rewrite(source: &Source, options: &options::Rewrite, reporter: &mut Reporter) -> Result<bool> {
    let input = Input::open(source).with_context(|| source.to_string())?;
    let mut target = Target::open(options.output.as_deref())?;
    target
        .refuse_source(&input.metadata)
        .with_context(|| source.to_string())?;
    if target.is_terminal() {
        input.bar.set_draw_target(ProgressDrawTarget::hidden());
    }
    reporter.begin(source, &input.bar);
    let mut rewriter = Rewriter {
        out: target.output(),
        reporter,
        refused: options.refused,
        sheet: Vec::new(),
        long_line: LongLine::default(),
        counts: Counts::default(),
        fasta: Fasta::default(),
        is_sequence_said: false,
    };
    let ended = each_line(input, &mut rewriter);
    let mut counts = rewriter.counts;
    reporter.spill()?;
    match ended {
        Ok(ended) => warn_of_end(&ended, &mut counts, reporter)?,
        Err(error) if error.is::<Unwritten>() => return Err(error),
        Err(error) => return Err(unread(source, error, target.output())?),
    }
    target.finish()?;
    if counts.refused_lines() > 0 {
        reporter.say_counts(&source.shown_name(), &counts)?;
    }
    reporter.spill()?;
    Ok(counts.refused_lines() > 0)
}

/// What is written has an end, whether or not what was read has one: so it is said now or never.
fn warn_of_end(ended: &Ended, counts: &mut Counts, reporter: &mut Reporter) -> Result<()> {
    match notes::end(ended) {
        Some(note) => {
            counts.warn(note.warning);
            reporter.say(&note.finding(ended.last, b""))
        }
        None => Ok(()),
    }
}

/// An error in the input: what came before it is written, however far the writing was behind the reading.
fn unread(source: &Source, error: anyhow::Error, out: &mut Output) -> Result<anyhow::Error> {
    out.spill()?;
    Ok(error.context(source.to_string()))
}

struct Rewriter<'a> {
    out: &'a mut Output,
    reporter: &'a mut Reporter,
    refused: Fate,
    sheet: Vec<u8>,
    long_line: LongLine,
    counts: Counts,
    fasta: Fasta,
    is_sequence_said: bool,
}

impl Visitor for Rewriter<'_> {
    fn line(&mut self, number: u64, line: Result<Line<'_>, Refusal>) -> Result<()> {
        match line {
            Ok(line) if line.kind() == Kind::Record => self.record(number, line.bytes())?,
            Ok(line) => self.other(line),
            Err(refusal) => self.refuse(number, b"", Refused::new(refusal))?,
        }
        self.long_line.end();
        self.spill_if_full()
    }

    fn taken(&mut self, bytes: &[u8]) -> Result<()> {
        if self.refused == Fate::Keep {
            self.long_line.take(bytes, &mut self.out.pending);
            self.spill_if_full()?;
        }
        Ok(())
    }

    fn pause(&mut self) -> Result<()> {
        self.reporter.spill()?;
        self.out.spill()
    }
}

impl Rewriter<'_> {
    /// A directive or a comment.
    fn other(&mut self, line: Line) {
        match line.kind() {
            Kind::Directive => {
                self.counts.directives += 1;
                self.fasta.see_directive(line);
            }
            _ => self.counts.comments += 1,
        }
        self.write_line(line.bytes());
    }

    fn record(&mut self, number: u64, line: &[u8]) -> Result<()> {
        let before = self.out.pending.len();
        let written = rewrite_into(line, &mut self.sheet, &mut self.out.pending);
        let is_long = self.sheet.len() > ROOM || self.out.pending.len() - before > ROOM;
        let refusal = match written {
            _ if is_long => Refusal::Room,
            Err(refusal) => refusal,
            Ok(()) => {
                self.counts.records += 1;
                self.out.pending.push(b'\n');
                return Ok(());
            }
        };
        self.out.pending.truncate(before);
        let column = match judge::record(line, &mut Vec::new()) {
            Err(refused) => refused.column,
            Ok(()) => (refusal == Refusal::PhaseMissing).then_some(Column::Phase),
        };
        self.refuse(number, line, Refused { refusal, column })
    }

    /// Keeps, drops or marks a refused line, and says it. Of the lines of a sequence the first is said.
    fn refuse(&mut self, number: u64, line: &[u8], refused: Refused) -> Result<()> {
        self.counts.refuse(refused.refusal);
        match self.refused {
            Fate::Mark => self.write_line(format!("! {}", refused.refusal.number()).as_bytes()),
            Fate::Keep if refused.refusal == Refusal::LineTooLong => {
                self.long_line.finish(&mut self.out.pending);
                self.out.pending.push(b'\n');
            }
            Fate::Keep => self.write_line(line),
            Fate::Drop => {}
        }
        if !self.fasta.is_sequence(line, refused.refusal) {
            return self.reporter.say(&refused.finding(number, line));
        }
        if mem::replace(&mut self.is_sequence_said, true) {
            return Ok(());
        }
        let note = Note::new(Warning::Fasta, None, String::new());
        self.counts.warn(note.warning);
        self.reporter.say(&note.finding(number, line))
    }

    fn write_line(&mut self, line: &[u8]) {
        self.out.pending.extend_from_slice(line);
        self.out.pending.push(b'\n');
    }

    fn spill_if_full(&mut self) -> Result<()> {
        if self.out.is_full() { self.out.spill() } else { Ok(()) }
    }
}
