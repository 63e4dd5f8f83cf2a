//! `gff3 check`: which lines are refused, and what a person would want to know of the others.

use anyhow::Result;
use gff3_lines::{Kind, Line, Refusal};

use crate::{
    counts::{Counts, Summary},
    fasta::Fasta,
    input::Input,
    judge::{self, Refused},
    lines::{Ended, Visitor, each_line},
    notes::{self, Note},
    options::{Format, Warning},
    reporter::{Reporter, TSV_HEAD},
    source::Source,
};

/// Checks each source, and answers whether a line was refused. A source that cannot be read is handed to `trouble`.
pub fn check(
    sources: &[Source],
    off: &[Warning],
    reporter: &mut Reporter,
    trouble: &mut impl FnMut(&Source, anyhow::Error) -> Result<()>,
) -> Result<bool> {
    let mut all = Counts::default();
    let mut count = 0;
    if reporter.format() == Format::Tsv {
        reporter.say_line(TSV_HEAD)?;
    }
    for source in sources {
        match check_one(source, off, reporter) {
            Ok(counts) => {
                all.add(&counts);
                count += 1;
            }
            Err(error) => {
                reporter.spill()?;
                trouble(source, error)?;
            }
        }
    }
    if count > 1 && reporter.format() == Format::Text {
        reporter.say_counts(format!("all {count} files").as_bytes(), &all)?;
    }
    reporter.spill()?;
    Ok(all.refused_lines() > 0)
}

fn check_one(source: &Source, off: &[Warning], reporter: &mut Reporter) -> Result<Counts> {
    let input = Input::open(source)?;
    reporter.begin(source, &input.bar);
    let mut checker = Checker {
        reporter,
        off,
        counts: Counts::default(),
        notes: Vec::new(),
        gtf: Gtf::Unknown,
        fasta: Fasta::default(),
    };
    let ended = each_line(input, &mut checker)?;
    checker.end(&ended)?;
    let Checker { counts, reporter, .. } = checker;
    match reporter.format() {
        Format::Text => reporter.say_counts(&source.shown_name(), &counts)?,
        Format::Json => reporter.say_json(&Summary::new(source, &counts, reporter.unsaid()))?,
        Format::Tsv => {}
    }
    reporter.spill()?;
    Ok(counts)
}

/// Whether the records of a file look like GTF: all so far, or not all.
#[derive(Clone, Copy, PartialEq, Eq)]
enum Gtf {
    Unknown,
    All,
    NotAll,
}

struct Checker<'a> {
    reporter: &'a mut Reporter,
    off: &'a [Warning],
    counts: Counts,
    /// What is to be said of the line at hand.
    notes: Vec<Note>,
    gtf: Gtf,
    fasta: Fasta,
}

impl Visitor for Checker<'_> {
    fn line(&mut self, number: u64, line: Result<Line<'_>, Refusal>) -> Result<()> {
        let line = match line {
            Ok(line) => line,
            Err(refusal) => return self.refuse(number, b"", Refused::new(refusal)),
        };
        match line.kind() {
            Kind::Record => return self.record(number, line.bytes()),
            Kind::Comment => self.counts.comments += 1,
            Kind::Directive => {
                self.counts.directives += 1;
                self.fasta.see_directive(line);
                notes::directive(line, &mut self.notes);
            }
        }
        notes::utf8(line.bytes(), &mut self.notes);
        self.warn_all(number, line.bytes())
    }

    fn pause(&mut self) -> Result<()> {
        self.reporter.spill()
    }
}

impl Checker<'_> {
    fn is_on(&self, warning: Warning) -> bool {
        !self.off.contains(&warning)
    }

    fn record(&mut self, number: u64, line: &[u8]) -> Result<()> {
        let judged = judge::record(line, &mut self.notes);
        self.counts.records += u64::from(judged.is_ok());
        let is_gtf = !self.notes.is_empty() && self.fold_tags_into_gtf();
        match judged {
            _ if is_gtf && self.gtf != Gtf::NotAll => self.gtf_record(number, line, judged),
            Ok(()) => {
                self.gtf = Gtf::NotAll;
                self.warn_all(number, line)
            }
            Err(refused) => {
                self.notes.clear();
                self.refuse(number, line, refused)
            }
        }
    }

    /// Whether the record looks like GTF, which then stands for all that is strange in its tags.
    fn fold_tags_into_gtf(&mut self) -> bool {
        let is_gtf = self.is_on(Warning::Gtf) && self.notes.iter().any(|note| note.warning == Warning::Gtf);
        if is_gtf {
            self.notes
                .retain(|note| !matches!(note.warning, Warning::TagSemicolon | Warning::TagSpace));
        }
        is_gtf
    }

    /// A record of a file whose records all look like GTF so far, which is said of the first.
    fn gtf_record(&mut self, number: u64, line: &[u8], judged: Result<(), Refused>) -> Result<()> {
        let is_first = self.gtf == Gtf::Unknown;
        self.gtf = Gtf::All;
        if let Err(refused) = judged {
            self.counts.refuse(refused.refusal);
        }
        self.notes.retain(|note| note.warning != Warning::Gtf || is_first);
        self.warn_all(number, line)
    }

    fn refuse(&mut self, number: u64, line: &[u8], refused: Refused) -> Result<()> {
        if self.is_on(Warning::Fasta) && self.fasta.is_sequence(line, refused.refusal) {
            return self.sequence(number, line);
        }
        self.counts.refuse(refused.refusal);
        self.reporter.say(&refused.finding(number, line))
    }

    /// A line of sequence, of which the first is said.
    fn sequence(&mut self, number: u64, line: &[u8]) -> Result<()> {
        self.counts.sequence += 1;
        if self.counts.sequence == 1 {
            self.notes.push(Note::new(Warning::Fasta, None, String::new()));
        }
        self.warn_all(number, line)
    }

    fn end(&mut self, ended: &Ended) -> Result<()> {
        self.notes.extend(notes::end(ended));
        self.warn_all(ended.last, b"")
    }

    /// Says what is noted, but for what is switched off.
    fn warn_all(&mut self, number: u64, line: &[u8]) -> Result<()> {
        for note in self.notes.drain(..) {
            if self.off.contains(&note.warning) {
                continue;
            }
            self.counts.warn(note.warning);
            self.reporter.say(&note.finding(number, line))?;
        }
        Ok(())
    }
}
