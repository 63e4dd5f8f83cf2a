//! The lines of a text that comes in parts.

use std::{fmt, mem};

use crate::{Line, Refusal, ffi};

/// The lines of a text that comes in parts of any length, which are pushed in.
///
/// They are those that [`lines`](crate::lines) gives of the whole text, wherever the parts are cut, and each is handed out as soon as its
/// line feed has come. One rule is added: a line of more than [`Parts::HOLD_LENGTH`] bytes is not handed out but refused, once, by
/// [`Refusal::LineTooLong`], when it ends. The lines behind it are handed out as ever.
///
/// Where the text comes from something that can be read, [`Reader`](crate::Reader) does the pushing.
///
/// ```
/// use gff3_lines::{Parts, Refusal};
///
/// let mut parts = Parts::new();
/// let mut seen = Vec::new();
///
/// for mut part in [&b"##gff-ver"[..], b"sion 3\r", b"\n# a\n#", b" b"] {
///     while let Some(line) = parts.take(&mut part) {
///         seen.push(line?.bytes().to_vec());
///     }
/// }
/// if let Some(line) = parts.end() {
///     seen.push(line?.bytes().to_vec());
/// }
/// assert_eq!(seen, [&b"##gff-version 3"[..], b"# a", b"# b"]);
/// # Ok::<(), Refusal>(())
/// ```
#[derive(Clone)]
pub struct Parts {
    hold: Box<[u8]>,
    state: ffi::State,
    /// The line feeds of the text so far.
    feeds: u64,
    /// The number of the line that was handed out or refused last, and its length in the hold.
    number: u64,
    length: usize,
}

impl Parts {
    /// The most bytes of a line, without its line ending: the length of the hold that keeps a line while it comes.
    ///
    /// ```
    /// assert_eq!(gff3_lines::Parts::HOLD_LENGTH, 65_536);
    /// ```
    pub const HOLD_LENGTH: usize = 65_536;

    /// Before the first part of a text. It takes 64 KiB of memory, and no more later.
    ///
    /// ```
    /// assert!(!gff3_lines::Parts::new().is_begun());
    /// ```
    pub fn new() -> Self {
        Parts {
            hold: vec![0; Self::HOLD_LENGTH].into_boxed_slice(),
            state: ffi::State::default(),
            feeds: 0,
            number: 0,
            length: 0,
        }
    }

    /// The next line that ends in the part, which is moved on past what was taken; `None` where all of it is taken and no further line
    /// has ended. What is left of the part is to be handed in again: a loop up to `None` does that. Refusal:
    /// [`LineTooLong`](Refusal::LineTooLong). The line is then passed over, and the next call goes on behind it.
    ///
    /// ```
    /// use gff3_lines::{Line, Parts};
    ///
    /// let mut parts = Parts::new();
    /// let mut part = &b"a\r\nb"[..];
    ///
    /// assert_eq!(parts.take(&mut part), Some(Ok(Line(b"a"))));
    /// assert_eq!(part, b"b");
    /// assert_eq!(parts.take(&mut part), None);
    /// assert_eq!(part, b"");
    /// assert_eq!(parts.take(&mut &b"c\n"[..]), Some(Ok(Line(b"bc"))));
    /// ```
    pub fn take(&mut self, part: &mut &[u8]) -> Option<Result<Line<'_>, Refusal>> {
        let taken = self.advance(part)?;
        Some(taken.map(|()| self.line()))
    }

    /// Ends the text: the line that is begun, with a carriage return at its end if it has one; `None` where none is. What is taken next is
    /// the first part of another text. Refusal: [`LineTooLong`](Refusal::LineTooLong).
    ///
    /// ```
    /// use gff3_lines::{Line, Parts};
    ///
    /// let mut parts = Parts::new();
    ///
    /// assert_eq!(parts.take(&mut &b"a\r"[..]), None);
    /// assert_eq!(parts.end(), Some(Ok(Line(b"a\r"))));
    /// assert_eq!(parts.end(), None);
    /// ```
    pub fn end(&mut self) -> Option<Result<Line<'_>, Refusal>> {
        let taken = self.advance_to_end()?;
        Some(taken.map(|()| self.line()))
    }

    /// Whether a line is begun and not ended: the text, if it ended here, would have a last line without a line feed.
    ///
    /// ```
    /// let mut parts = gff3_lines::Parts::new();
    ///
    /// parts.take(&mut &b"a"[..]);
    /// assert!(parts.is_begun());
    /// parts.take(&mut &b"\n"[..]);
    /// assert!(!parts.is_begun());
    /// ```
    pub fn is_begun(&self) -> bool {
        self.state != ffi::State::default()
    }

    /// The line that the last call has handed out, once more; without a byte where it has handed out none. What [`Parts::take`] lends keeps
    /// the parts from being asked for anything else; this does not.
    ///
    /// ```
    /// use gff3_lines::{Line, Parts};
    ///
    /// let mut parts = Parts::new();
    ///
    /// assert!(parts.take(&mut &b"\na\n"[..]).is_some());
    /// assert_eq!((parts.number(), parts.line()), (2, Line(b"a")));
    /// ```
    pub fn line(&self) -> Line<'_> {
        Line(&self.hold[..self.length])
    }

    /// The number of the line that was handed out or refused last, from 1 on, with blank lines counted; 0 before the first.
    ///
    /// ```
    /// let mut parts = gff3_lines::Parts::new();
    ///
    /// assert!(parts.take(&mut &b"\n\r\na\n"[..]).is_some());
    /// assert_eq!(parts.number(), 3);
    /// ```
    pub fn number(&self) -> u64 {
        self.number
    }

    /// As [`Parts::take`], with the line left in its place. It borrows nothing, so that it can be called in a loop.
    pub(crate) fn advance(&mut self, part: &mut &[u8]) -> Option<Result<(), Refusal>> {
        let (hold, hold_len) = (self.hold.as_mut_ptr(), self.hold.len());
        // SAFETY: the hold and the part are slices, and the hold is this struct's own, so that they do not overlap.
        let answer = unsafe { ffi::gff3_take_part(self.state, hold, hold_len, part.as_ptr(), part.len()) };
        let (taken, left) = part.split_at(answer.taken);
        *part = left;
        let line = self.answered(answer);
        self.feeds += line_feeds(taken, line.is_some());
        if line.is_some() {
            self.number = self.feeds;
        }
        line
    }

    /// As [`Parts::end`], with the line left in its place.
    pub(crate) fn advance_to_end(&mut self) -> Option<Result<(), Refusal>> {
        // SAFETY: the hold is a slice.
        let answer = unsafe { ffi::gff3_end_parts(self.state, self.hold.as_mut_ptr(), self.hold.len()) };
        let line = self.answered(answer);
        let feeds = mem::take(&mut self.feeds);
        if line.is_some() {
            self.number = feeds + 1;
        }
        line
    }

    fn answered(&mut self, answer: ffi::Part) -> Option<Result<(), Refusal>> {
        self.state = answer.state;
        self.length = answer.length;
        match Refusal::check(answer.refused) {
            Ok(()) => (answer.has_line != 0).then_some(Ok(())),
            Err(refusal) => Some(Err(refusal)),
        }
    }
}

/// The line feeds of what one call has taken: one where a line has ended, and before it those of blank lines, which begin with a line end.
fn line_feeds(taken: &[u8], ended: bool) -> u64 {
    match taken.first() {
        Some(b'\r' | b'\n') => taken.iter().filter(|&&byte| byte == b'\n').count() as u64,
        _ => u64::from(ended),
    }
}

impl Default for Parts {
    fn default() -> Self {
        Self::new()
    }
}

impl fmt::Debug for Parts {
    fn fmt(&self, f: &mut fmt::Formatter<'_>) -> fmt::Result {
        f.debug_struct("Parts")
            .field("state", &self.state)
            .finish_non_exhaustive()
    }
}
