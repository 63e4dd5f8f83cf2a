//! How many lines of a file are what, and what was found in them.

use std::collections::BTreeMap;

use gff3_lines::Refusal;
use serde::Serialize;

use crate::{findings::Matter, options::Warning, source::Source};

/// The counts of a file, or of several.
#[derive(Clone, Default)]
pub struct Counts {
    pub records: u64,
    pub directives: u64,
    pub comments: u64,
    /// Lines behind `##FASTA` that are no records.
    pub sequence: u64,
    /// By the number of the refusal.
    refused: BTreeMap<u32, u64>,
    warnings: [u64; Warning::ALL.len()],
}

impl Counts {
    pub fn refuse(&mut self, refusal: Refusal) {
        *self.refused.entry(refusal.number()).or_default() += 1;
    }

    pub fn warn(&mut self, warning: Warning) {
        self.warnings[warning as usize] += 1;
    }

    pub fn add(&mut self, other: &Counts) {
        self.records += other.records;
        self.directives += other.directives;
        self.comments += other.comments;
        self.sequence += other.sequence;
        for (&number, count) in &other.refused {
            *self.refused.entry(number).or_default() += count;
        }
        for (count, more) in self.warnings.iter_mut().zip(other.warnings) {
            *count += more;
        }
    }

    pub fn refused_lines(&self) -> u64 {
        self.refused.values().sum()
    }

    fn lines(&self) -> u64 {
        self.records + self.directives + self.comments + self.sequence + self.refused_lines()
    }

    /// What was refused and what was warned of, each with its count.
    fn matters(&self) -> impl Iterator<Item = (Matter, u64)> + '_ {
        let refused = self
            .refused
            .iter()
            .filter_map(|(&number, &count)| Some((Matter::Refused(Refusal::from_number(number)?), count)));
        let warnings = Warning::ALL.into_iter().map(Matter::Warning).zip(self.warnings);
        refused.chain(warnings.filter(|&(_, count)| count > 0))
    }

    /// How many lines are what, in a sentence.
    pub fn sentence(&self) -> String {
        let kinds = [
            (self.records, "record", "records"),
            (self.directives, "directive", "directives"),
            (self.comments, "comment", "comments"),
            (self.sequence, "line of sequence", "lines of sequence"),
        ];
        let kinds = kinds.iter().filter(|(count, ..)| *count > 0);
        let mut all: Vec<_> = kinds.map(|&(count, one, many)| counted(count, one, many)).collect();
        all.push(format!("{} refused", self.refused_lines()));
        let lines = counted(self.lines(), "line", "lines");
        let warnings = counted(self.warnings.iter().sum(), "warning", "warnings");
        format!("{lines}: {}; {warnings}", all.join(", "))
    }

    /// A line for each reason, with its count.
    pub fn reasons(&self) -> impl Iterator<Item = String> + '_ {
        self.matters()
            .map(|(matter, count)| format!("{count:>8}  {}: {}", matter.title(), matter.words()))
    }
}

pub fn counted(count: u64, one: &str, many: &str) -> String {
    format!("{count} {}", if count == 1 { one } else { many })
}

/// The counts of a file as a machine reads them.
#[derive(Serialize)]
pub struct Summary {
    file: String,
    kind: &'static str,
    lines: u64,
    records: u64,
    directives: u64,
    comments: u64,
    sequence: u64,
    refused: u64,
    refused_by: BTreeMap<String, u64>,
    warnings: BTreeMap<String, u64>,
    unsaid: u64,
}

impl Summary {
    pub fn new(source: &Source, counts: &Counts, unsaid: u64) -> Self {
        let by_name = |is_refused: bool| {
            let matters = counts.matters();
            let matters = matters.filter(|(matter, _)| matches!(matter, Matter::Refused(_)) == is_refused);
            matters.map(|(matter, count)| (matter.name(), count)).collect()
        };
        Summary {
            file: source.text(),
            kind: "summary",
            lines: counts.lines(),
            records: counts.records,
            directives: counts.directives,
            comments: counts.comments,
            sequence: counts.sequence,
            refused: counts.refused_lines(),
            refused_by: by_name(true),
            warnings: by_name(false),
            unsaid,
        }
    }
}
