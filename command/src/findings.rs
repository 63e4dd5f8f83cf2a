//! What is found in a line.

use std::ops::Range;

use gff3_lines::{Column, Refusal};

use crate::options::Warning;

/// What is the matter with a line.
#[derive(Clone, Copy, PartialEq, Eq)]
pub enum Matter {
    Refused(Refusal),
    Warning(Warning),
}

impl Matter {
    pub fn kind(self) -> &'static str {
        match self {
            Matter::Refused(_) => "refused",
            Matter::Warning(_) => "warning",
        }
    }

    /// The number of a refusal, the name of a warning.
    pub fn name(self) -> String {
        match self {
            Matter::Refused(refusal) => refusal.number().to_string(),
            Matter::Warning(warning) => warning.name().to_owned(),
        }
    }

    /// Both in a few words.
    pub fn title(self) -> String {
        match self {
            Matter::Refused(refusal) => format!("refused by {}", refusal.number()),
            Matter::Warning(warning) => format!("warning {}", warning.name()),
        }
    }

    /// The reason in words.
    pub fn words(self) -> &'static str {
        match self {
            // The library's words also name what cannot be here: bounds and columns that a caller handed in.
            Matter::Refused(Refusal::Columns) => "fewer than eight tabs, so not nine columns",
            Matter::Refused(Refusal::Room) => "too long to be written: its texts, or the line, pass 65,536 bytes",
            Matter::Refused(refusal) => refusal.reason(),
            Matter::Warning(warning) => warning.words(),
        }
    }
}

/// Something that is found in a line.
pub struct Finding<'a> {
    pub matter: Matter,
    pub number: u64,
    pub column: Option<Column>,
    /// What it is about: a short text of the line.
    pub what: Option<String>,
    pub line: &'a [u8],
}

impl Finding<'_> {
    pub fn reason(&self) -> String {
        match &self.what {
            Some(what) => format!("{}: {what}", self.matter.words()),
            None => self.matter.words().to_owned(),
        }
    }

    /// Where the column stands in the line.
    pub fn place(&self) -> Range<usize> {
        let before = match self.column {
            Some(column) => usize::from(u8::from(column)) - 1,
            None => return 0..0,
        };
        let mut tabs = memchr::memchr_iter(b'\t', self.line);
        let start = match before {
            0 => 0,
            _ => tabs.nth(before - 1).map_or(self.line.len(), |tab| tab + 1),
        };
        match self.column {
            Some(Column::Attributes) => start..self.line.len(),
            _ => start..tabs.next().unwrap_or(self.line.len()),
        }
    }
}
