//! A line that is too long to be held, and is kept all the same: it is passed on while it comes.

use gff3_lines::Parts;

/// What has come of the line at hand and was not passed on.
#[derive(Default)]
pub struct LongLine {
    raw: Vec<u8>,
}

/// A line ending, which is held back, since it is no part of the line.
const ENDING: usize = 2;

impl LongLine {
    /// Takes the next bytes of a line. Where it has come to more than a hold takes, they are passed on, but for the last two.
    pub fn take(&mut self, bytes: &[u8], out: &mut Vec<u8>) {
        self.raw.extend_from_slice(bytes);
        let blank = blank_lines(&self.raw);
        self.raw.drain(..blank);
        if self.raw.len() > Parts::HOLD_LENGTH + ENDING {
            let passed = self.raw.len() - ENDING;
            out.extend(self.raw.drain(..passed));
        }
    }

    /// Passes on what is left of a line that has ended, without its line ending.
    pub fn finish(&mut self, out: &mut Vec<u8>) {
        let line = match self.raw.strip_suffix(b"\n") {
            Some(line) => line.strip_suffix(b"\r").unwrap_or(line),
            None => &self.raw,
        };
        out.extend_from_slice(line);
        self.raw.clear();
    }

    /// The line has ended, and was not too long.
    pub fn end(&mut self) {
        self.raw.clear();
    }
}

/// The bytes of the blank lines that a text begins with.
fn blank_lines(text: &[u8]) -> usize {
    let mut left = text;
    while let Some(rest) = left.strip_prefix(b"\n").or_else(|| left.strip_prefix(b"\r\n")) {
        left = rest;
    }
    text.len() - left.len()
}
