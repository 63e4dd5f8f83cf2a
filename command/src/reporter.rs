//! What is found, said for people or for machines.

use std::{borrow::Cow, mem};

use anyhow::Result;
use indicatif::ProgressBar;
use serde::Serialize;

use crate::{
    counts::{Counts, counted},
    findings::{Finding, Matter},
    options::{Format, Limits},
    output::Output,
    shown::{Look, cut_line},
    source::Source,
};

/// What stands before the text of a line.
const MARGIN: &str = "    ";

/// The columns of `--format tsv`.
pub const TSV_HEAD: &str = "file\tline\tkind\tname\tcolumn\treason\ttext";

/// A finding as a machine reads it.
#[derive(Serialize)]
struct Row<'a> {
    file: String,
    line: u64,
    kind: &'static str,
    name: String,
    column: Option<u8>,
    reason: String,
    text: Cow<'a, str>,
}

/// Says findings, as many as are asked for, and counts those that it does not say.
pub struct Reporter {
    out: Output,
    format: Format,
    limits: Limits,
    look: Look,
    source: Source,
    bar: ProgressBar,
    said: u64,
    unsaid: u64,
}

impl Reporter {
    pub fn new(out: Output, format: Format, limits: Limits, look: Look) -> Self {
        Reporter {
            out,
            format,
            limits,
            look,
            source: Source::Standard,
            bar: ProgressBar::hidden(),
            said: 0,
            unsaid: 0,
        }
    }

    /// From now on this source is spoken of, and its bar stands aside for what is said.
    pub fn begin(&mut self, source: &Source, bar: &ProgressBar) {
        self.source = source.clone();
        self.bar = bar.clone();
        self.said = 0;
        self.unsaid = 0;
    }

    pub fn say(&mut self, finding: &Finding) -> Result<()> {
        if self.said == self.limits.max {
            self.unsaid += 1;
            return Ok(());
        }
        self.said += 1;
        if self.limits.quiet {
            return Ok(());
        }
        match self.format {
            Format::Text => self.say_text(finding),
            Format::Tsv => self.say_tsv(finding),
            Format::Json => self.say_row(finding)?,
        }
        self.spill_if_full()
    }

    /// A line of words.
    pub fn say_line(&mut self, line: &str) -> Result<()> {
        if !self.limits.quiet {
            self.out.pending.extend_from_slice(line.as_bytes());
            self.out.pending.push(b'\n');
        }
        self.spill_if_full()
    }

    /// The counts of what has this name.
    pub fn say_counts(&mut self, name: &[u8], counts: &Counts) -> Result<()> {
        if self.limits.quiet {
            return Ok(());
        }
        match mem::take(&mut self.unsaid) {
            0 => {}
            unsaid => self.say_line(&counted(
                unsaid,
                "more is counted and not said",
                "more are counted and not said",
            ))?,
        }
        self.out.pending.extend_from_slice(name);
        self.say_line(&format!(": {}", self.look.bold().apply_to(counts.sentence())))?;
        counts.reasons().try_for_each(|reason| self.say_line(&reason))
    }

    /// A JSON object on a line of its own.
    pub fn say_json(&mut self, object: &impl Serialize) -> Result<()> {
        if !self.limits.quiet {
            serde_json::to_writer(&mut self.out.pending, object)?;
            self.out.pending.push(b'\n');
        }
        self.spill_if_full()
    }

    pub fn unsaid(&self) -> u64 {
        self.unsaid
    }

    pub fn format(&self) -> Format {
        self.format
    }

    pub fn spill(&mut self) -> Result<()> {
        if self.out.pending.is_empty() {
            return Ok(());
        }
        let out = &mut self.out;
        self.bar.suspend(|| out.spill())
    }

    fn spill_if_full(&mut self) -> Result<()> {
        if self.out.is_full() { self.spill() } else { Ok(()) }
    }

    fn say_text(&mut self, finding: &Finding) {
        let is_refused = matches!(finding.matter, Matter::Refused(_));
        let style = if is_refused {
            self.look.red()
        } else {
            self.look.yellow()
        };
        let column = finding
            .column
            .map(|column| format!("column {} ({column}): ", u8::from(column)));
        let words = format!(
            ":{}: {}: {}{}\n",
            finding.number,
            style.apply_to(finding.matter.title()),
            column.unwrap_or_default(),
            finding.reason()
        );
        self.out.pending.extend(self.source.shown_name());
        self.out.pending.extend_from_slice(words.as_bytes());
        if is_refused && !finding.line.is_empty() {
            let text = cut_line(finding.line, finding.place(), self.look.narrower(MARGIN.len()));
            let text = format!("{MARGIN}{text}\n");
            self.out.pending.extend_from_slice(text.as_bytes());
        }
    }

    fn say_tsv(&mut self, finding: &Finding) {
        let column = finding.column.map(|column| u8::from(column).to_string());
        let fields = [
            self.source.name(),
            finding.number.to_string().as_bytes(),
            finding.matter.kind().as_bytes(),
            finding.matter.name().as_bytes(),
            column.as_deref().unwrap_or(".").as_bytes(),
            finding.reason().as_bytes(),
            finding.line,
        ]
        .map(escaped);
        self.out.pending.extend_from_slice(&fields.join(&b'\t'));
        self.out.pending.push(b'\n');
    }

    fn say_row(&mut self, finding: &Finding) -> Result<()> {
        self.say_json(&Row {
            file: self.source.text(),
            line: finding.number,
            kind: finding.matter.kind(),
            name: finding.matter.name(),
            column: finding.column.map(u8::from),
            reason: finding.reason(),
            text: String::from_utf8_lossy(finding.line),
        })
    }
}

/// A text in a column of its own: what would end it is written with a backslash, and so is a backslash.
pub fn escaped(text: &[u8]) -> Vec<u8> {
    let mut out = Vec::with_capacity(text.len());
    for &byte in text {
        match byte {
            b'\t' => out.extend(b"\\t"),
            b'\n' => out.extend(b"\\n"),
            b'\r' => out.extend(b"\\r"),
            b'\\' => out.extend(b"\\\\"),
            _ => out.push(byte),
        }
    }
    out
}
