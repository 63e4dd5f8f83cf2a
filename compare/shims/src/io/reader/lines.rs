//! Stands in for io/reader/lines.rs, lines one by one; no answer rests on it, but it is the door to the inner `read_line`.

use std::io::{self, BufRead};

use super::Reader;
use crate::{Line, io::api::Door};

/// Lines one by one.
pub struct Lines<'a, R> {
    inner: &'a mut Reader<R>,
    line: Line,
}

impl<'a, R> Lines<'a, R>
where
    R: BufRead,
{
    pub(super) fn new(inner: &'a mut Reader<R>) -> Self {
        Self {
            inner,
            line: Line::default(),
        }
    }
}

impl<R> Iterator for Lines<'_, R>
where
    R: BufRead,
{
    type Item = io::Result<Line>;

    fn next(&mut self) -> Option<Self::Item> {
        match self.inner.read_line(&mut self.line) {
            Ok(0) => None,
            Ok(_) => Some(Ok(self.line.clone())),
            Err(e) => Some(Err(e)),
        }
    }
}

impl Door {
    /// The inner `read_line` of io/reader.rs.
    #[inline]
    pub(crate) fn read_line<R>(reader: &mut R, buf: &mut Vec<u8>) -> io::Result<usize>
    where
        R: BufRead,
    {
        super::read_line(reader, buf)
    }
}
