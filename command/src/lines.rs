//! The lines of a source, with their numbers, by the library's reading in parts.

use anyhow::Result;
use gff3_lines::{Line, Parts, Refusal};

use crate::input::{Input, Sink};

/// One that is shown each line of a text.
pub trait Visitor {
    /// A line, by its number, or the refusal of one that is too long to be held.
    fn line(&mut self, number: u64, line: Result<Line<'_>, Refusal>) -> Result<()>;

    /// The bytes that were taken from the text: up to the end of the line that is shown next, or of what has come of it.
    fn taken(&mut self, _bytes: &[u8]) -> Result<()> {
        Ok(())
    }

    /// Nothing is there to be read, and more may be long in coming.
    fn pause(&mut self) -> Result<()> {
        Ok(())
    }
}

/// How a text has ended.
pub struct Ended {
    /// The number of its last line, 0 where it has none.
    pub last: u64,
    /// That line has no line feed.
    pub is_unended: bool,
    /// What marks the end of a bgzip file is missing.
    pub is_cut: bool,
}

struct Lines<'a, V> {
    parts: Parts,
    visitor: &'a mut V,
}

/// Shows each line of a source, and goes on behind those that are refused.
pub fn each_line(input: Input, visitor: &mut impl Visitor) -> Result<Ended> {
    let parts = Parts::new();
    let mut lines = Lines { parts, visitor };
    let is_cut = input.pour(&mut lines)?;
    let is_unended = lines.end()?;
    let last = lines.parts.number();
    Ok(Ended {
        last,
        is_unended,
        is_cut,
    })
}

impl<V: Visitor> Sink for Lines<'_, V> {
    fn chunk(&mut self, chunk: &[u8]) -> Result<()> {
        let mut left = chunk;
        loop {
            let before = left;
            let taken = self.parts.take(&mut left).map(|line| line.map(drop));
            self.visitor.taken(&before[..before.len() - left.len()])?;
            match taken {
                Some(taken) => self.show(taken)?,
                None => return Ok(()),
            }
        }
    }

    fn pause(&mut self) -> Result<()> {
        self.visitor.pause()
    }
}

impl<V: Visitor> Lines<'_, V> {
    fn show(&mut self, taken: Result<(), Refusal>) -> Result<()> {
        let line = taken.map(|()| self.parts.line());
        self.visitor.line(self.parts.number(), line)
    }

    /// Shows the last line where it has no line feed, and answers whether that is so.
    fn end(&mut self) -> Result<bool> {
        let ended = self.parts.end().map(|line| line.map(drop));
        ended.map_or(Ok(false), |ended| self.show(ended).map(|()| true))
    }
}
