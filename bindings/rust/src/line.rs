//! The lines of a text, and what each is.

use std::{fmt, iter::FusedIterator};

use crate::{Record, Refusal, ffi};

/// The lines of a text, in order.
///
/// A line feed ends a line, and one carriage return just before it is removed; a last line without a line feed keeps a carriage return.
/// Blank lines, which have no byte then, are skipped. Every other line is handed out, one of spaces too.
///
/// ```
/// let lines: Vec<_> = gff3_lines::lines(b"a\r\n\n\r\n \nb").map(|line| line.bytes()).collect();
///
/// assert_eq!(lines, [b"a", b" ", b"b"]);
/// ```
pub fn lines(text: &[u8]) -> Lines<'_> {
    Lines::starting_at(text, 0)
}

/// The iterator of [`lines`].
///
/// ```
/// let mut lines = gff3_lines::lines(b"a\nb\n");
///
/// assert_eq!(lines.next(), Some(gff3_lines::Line(b"a")));
/// assert_eq!(lines.at(), 2);
/// assert_eq!(lines.count(), 1);
/// ```
#[derive(Clone, Debug)]
pub struct Lines<'a> {
    text: &'a [u8],
    at: usize,
}

impl<'a> Lines<'a> {
    /// The lines from a byte of the text on. A byte beyond the text counts as its end.
    ///
    /// ```
    /// let mut lines = gff3_lines::Lines::starting_at(b"a\nb\n", 2);
    ///
    /// assert_eq!(lines.next().map(|line| line.bytes()), Some(&b"b"[..]));
    /// assert!(gff3_lines::Lines::starting_at(b"a\nb\n", 9).next().is_none());
    /// ```
    pub fn starting_at(text: &'a [u8], at: usize) -> Self {
        Lines {
            text,
            at: at.min(text.len()),
        }
    }

    /// The place behind the line that was handed out last, where blank lines may stand before the next; behind `None`, the text's end.
    ///
    /// ```
    /// let mut lines = gff3_lines::lines(b"a\n\nb\n\n");
    ///
    /// assert_eq!((lines.next(), lines.at()), (Some(gff3_lines::Line(b"a")), 2));
    /// assert_eq!((lines.next(), lines.at()), (Some(gff3_lines::Line(b"b")), 5));
    /// assert_eq!((lines.next(), lines.at()), (None, 6));
    /// ```
    pub fn at(&self) -> usize {
        self.at
    }
}

impl<'a> Iterator for Lines<'a> {
    type Item = Line<'a>;

    fn next(&mut self) -> Option<Line<'a>> {
        // SAFETY: the text is a slice.
        let line = unsafe { ffi::gff3_next_line(self.text.as_ptr(), self.text.len(), self.at) };
        self.at = line.next;
        if line.done != 0 {
            return None;
        }
        Some(Line(&self.text[line.start..line.end]))
    }
}

impl FusedIterator for Lines<'_> {}

/// A line, without its line feed.
///
/// ```
/// use gff3_lines::{Kind, Line};
///
/// assert_eq!(Line(b"").kind(), Kind::Record);
/// ```
#[derive(Clone, Copy, Debug, PartialEq, Eq, Hash)]
pub struct Line<'a>(pub &'a [u8]);

/// What a line is.
///
/// ```
/// use gff3_lines::{Kind, Line};
///
/// assert_eq!(Line(b"##gff-version 3").kind(), Kind::Directive);
/// assert_eq!(Line(b"#gff").kind(), Kind::Comment);
/// assert_eq!(Line(b"sq0").kind(), Kind::Record);
/// ```
#[derive(Clone, Copy, Debug, PartialEq, Eq, Hash)]
pub enum Kind {
    /// It begins with `##`.
    Directive,
    /// It begins with one `#`.
    Comment,
    /// Every other line, the empty one included.
    Record,
}

impl fmt::Display for Kind {
    fn fmt(&self, f: &mut fmt::Formatter<'_>) -> fmt::Result {
        f.pad(match self {
            Kind::Directive => "directive",
            Kind::Comment => "comment",
            Kind::Record => "record",
        })
    }
}

/// The key and the value of a directive.
///
/// ```
/// use gff3_lines::{Directive, Line};
///
/// let directive = |key, value| Some(Directive { key, value });
///
/// assert_eq!(Line(b"##gff-version 3").directive(), directive(b"gff-version", Some(b"3")));
/// assert_eq!(Line(b"##FASTA").directive(), directive(b"FASTA", None));
/// assert_eq!(Line(b"## ").directive(), directive(b"", Some(b"")));
/// ```
#[derive(Clone, Copy, Debug, PartialEq, Eq, Hash)]
pub struct Directive<'a> {
    /// What stands behind `##`, up to the first ASCII white space.
    pub key: &'a [u8],
    /// What follows that byte; `None` where there is no such byte.
    pub value: Option<&'a [u8]>,
}

impl<'a> Line<'a> {
    /// The bytes of the line.
    ///
    /// ```
    /// assert_eq!(gff3_lines::Line(b"#a").bytes(), b"#a");
    /// ```
    pub fn bytes(self) -> &'a [u8] {
        self.0
    }

    /// What the line is.
    ///
    /// ```
    /// assert_eq!(gff3_lines::Line(b"#a").kind(), gff3_lines::Kind::Comment);
    /// ```
    pub fn kind(self) -> Kind {
        // SAFETY: the line is a slice.
        match unsafe { ffi::gff3_kind(self.0.as_ptr(), self.0.len()) } {
            0 => Kind::Directive,
            1 => Kind::Comment,
            _ => Kind::Record,
        }
    }

    /// The text of a comment, behind its `#`; `None` where the line is none.
    ///
    /// ```
    /// use gff3_lines::Line;
    ///
    /// assert_eq!(Line(b"# a").comment(), Some(&b" a"[..]));
    /// assert_eq!(Line(b"## a").comment(), None);
    /// ```
    pub fn comment(self) -> Option<&'a [u8]> {
        // SAFETY: the line is a slice.
        let text = unsafe { ffi::gff3_comment(self.0.as_ptr(), self.0.len()) };
        (text.is != 0).then(|| &self.0[text.start..text.end])
    }

    /// The key and the value of a directive; `None` where the line is none.
    ///
    /// ```
    /// use gff3_lines::Line;
    ///
    /// assert_eq!(Line(b"##species human").directive().map(|d| d.key), Some(&b"species"[..]));
    /// assert_eq!(Line(b"#species human").directive(), None);
    /// ```
    pub fn directive(self) -> Option<Directive<'a>> {
        // SAFETY: the line is a slice.
        let text = unsafe { ffi::gff3_directive(self.0.as_ptr(), self.0.len()) };
        (text.is != 0).then(|| Directive {
            key: &self.0[text.key_start..text.key_end],
            value: (text.has_value != 0).then(|| &self.0[text.value_start..text.value_end]),
        })
    }

    /// The columns of the line, taken as a record without a look at its kind. Refusal: [`Columns`](Refusal::Columns), it has fewer
    /// than eight tabs.
    ///
    /// ```
    /// use gff3_lines::{Line, Refusal};
    ///
    /// assert!(Line(b"\t\t\t\t\t\t\t\t").record().is_ok());
    /// assert_eq!(Line(b"\t\t\t\t\t\t\t").record(), Err(Refusal::Columns));
    /// ```
    pub fn record(self) -> Result<Record<'a>, Refusal> {
        Record::new(self.0)
    }
}
