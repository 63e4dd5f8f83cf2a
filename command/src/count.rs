//! `gff3 count`: the morning's sheet of a file, by the library's report.

use std::{collections::BTreeMap, mem};

use anyhow::Result;
use gff3_lines::{Line, Refusal, Report, report};
use serde::Serialize;

use crate::{
    input::Input,
    lines::{Visitor, each_line},
    options::Format,
    output::Output,
    reporter::escaped,
    source::Source,
};

/// Lines are counted so many bytes at a time.
const BLOCK: usize = 128 << 10;

/// Counts each source, and answers whether anything was refused. A source that cannot be counted is handed to `trouble`.
pub fn count(
    sources: &[Source],
    format: Format,
    out: &mut Output,
    trouble: &mut impl FnMut(&Source, anyhow::Error) -> Result<()>,
) -> Result<bool> {
    let mut is_refused = false;
    if format == Format::Tsv {
        out.pending.extend_from_slice(tsv_head()?.as_bytes());
    }
    let mut is_first = true;
    for source in sources {
        match count_one(source) {
            Ok(report) => {
                is_refused |= report.refused_lines() > 0;
                if format == Format::Text && !mem::take(&mut is_first) {
                    out.pending.push(b'\n');
                }
                print(source, &report, format, &mut out.pending)?;
            }
            Err(error) => {
                is_refused |= error.is::<Refusal>();
                out.spill()?;
                trouble(source, error)?;
            }
        }
        out.spill()?;
    }
    Ok(is_refused)
}

fn count_one(source: &Source) -> Result<Report> {
    let mut counter = Counter {
        report: report(b"")?,
        block: Vec::new(),
    };
    each_line(Input::open(source)?, &mut counter)?;
    counter.count_block()?;
    Ok(counter.report)
}

/// The report of the lines that are counted, and those that are not counted yet.
struct Counter {
    report: Report,
    block: Vec<u8>,
}

impl Visitor for Counter {
    fn line(&mut self, _number: u64, line: Result<Line<'_>, Refusal>) -> Result<()> {
        match line {
            Ok(line) => self.put(line.bytes()),
            Err(_) => self.report.refused_line_too_long += 1,
        }
        if self.block.len() >= BLOCK {
            self.count_block()
        } else {
            Ok(())
        }
    }
}

impl Counter {
    /// A line that ends with a carriage return has had another behind it, or no line feed. It gets one, so that it is read as it is.
    fn put(&mut self, line: &[u8]) {
        self.block.extend_from_slice(line);
        if line.ends_with(b"\r") {
            self.block.push(b'\r');
        }
        self.block.push(b'\n');
    }

    fn count_block(&mut self) -> Result<()> {
        self.report.add(&report(&self.block)?)?;
        self.block.clear();
        Ok(())
    }
}

/// A sheet as a machine reads it.
#[derive(Serialize)]
struct Sheet {
    file: String,
    records: u64,
    reversed: u64,
    directives: u64,
    comments: u64,
    refused: u64,
    refused_by: BTreeMap<u32, u64>,
    lines: u64,
    sum: u64,
    lengths: Vec<u64>,
}

impl Sheet {
    fn new(source: &Source, report: &Report) -> Self {
        let by_number = report.refused().map(|(refusal, count)| (refusal.number(), count));
        Sheet {
            file: source.text(),
            records: report.records,
            reversed: report.reversed,
            directives: report.directives,
            comments: report.comments,
            refused: report.refused_lines(),
            refused_by: by_number.into_iter().collect(),
            lines: report.lines(),
            sum: report.sum,
            lengths: report.lengths.to_vec(),
        }
    }

    /// The name and the count of each column of `--format tsv`, behind that of the file.
    fn columns(&self) -> Vec<(String, u64)> {
        let named = |name: &str, count| (name.to_owned(), count);
        let mut columns = vec![
            named("records", self.records),
            named("reversed", self.reversed),
            named("directives", self.directives),
            named("comments", self.comments),
            named("refused", self.refused),
        ];
        let by_number = self.refused_by.iter();
        columns.extend(by_number.map(|(number, &count)| (format!("refused_{number}"), count)));
        columns.extend([named("lines", self.lines), named("sum", self.sum)]);
        let lengths = self.lengths.iter().enumerate();
        columns.extend(lengths.map(|(power, &count)| (format!("lengths_{power}"), count)));
        columns
    }
}

fn print(source: &Source, report: &Report, format: Format, out: &mut Vec<u8>) -> Result<()> {
    let sheet = Sheet::new(source, report);
    match format {
        Format::Text => {
            out.extend(source.shown_name());
            out.extend_from_slice(format!("\n{report}").as_bytes());
        }
        Format::Tsv => {
            out.extend(escaped(source.name()));
            sheet
                .columns()
                .iter()
                .for_each(|(_, count)| out.extend_from_slice(format!("\t{count}").as_bytes()));
            out.push(b'\n');
        }
        Format::Json => {
            serde_json::to_writer(&mut *out, &sheet)?;
            out.push(b'\n');
        }
    }
    Ok(())
}

fn tsv_head() -> Result<String> {
    let names = Sheet::new(&Source::Standard, &report(b"")?)
        .columns()
        .into_iter()
        .map(|(name, _)| format!("\t{name}"));
    Ok(format!("file{}\n", names.collect::<String>()))
}
