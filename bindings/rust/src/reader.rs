//! The lines of a text that is read while it comes.

use std::{
    error, fmt,
    io::{self, Read},
    mem,
};

use crate::{Line, Parts, Refusal};

/// The lines of a text that is read while it comes: from a file of any length, a pipe or a socket.
///
/// They are those of [`Parts`], each handed out as soon as its line feed has come: nothing is read before the bytes at hand are used up.
/// The memory is 64 KiB for a buffer and 64 KiB for a line, so that the input needs no buffer of its own.
///
/// Neither an error nor a refused line ends the reading, and nothing is lost by an error: the next call goes on where it was. So an input
/// that says [`WouldBlock`](io::ErrorKind::WouldBlock) or [`TimedOut`](io::ErrorKind::TimedOut) can be asked again. A loop that passes
/// over every error has no end where the input fails each time, as a folder does.
///
/// A last line without a line feed is handed out like any other. It may be all that came of a line when a transfer broke off:
/// [`Reader::is_cut`] tells.
///
/// ```
/// use gff3_lines::{Kind, Reader};
///
/// let input = &b"##gff-version 3\nsq0\tlab\tgene\t8\t13\t.\t+\t.\tID=a\n"[..]; // or File::open(..)?, or io::stdin().lock()
/// let mut reader = Reader::new(input);
/// let mut starts = Vec::new();
///
/// while let Some(line) = reader.next_line() {
///     let line = line?;
///     if line.kind() == Kind::Record {
///         starts.push(line.record()?.start()?);
///     }
/// }
/// assert_eq!(starts, [8]);
/// # Ok::<(), gff3_lines::ReadError>(())
/// ```
pub struct Reader<R> {
    input: R,
    parts: Parts,
    buffer: Box<[u8]>,
    /// Where the bytes at hand begin and end in the buffer.
    at: usize,
    end: usize,
    /// The input has ended, and the text's last line is handed out or refused: the next call answers `None`.
    ended: bool,
}

impl<R> Reader<R> {
    /// A reader with a buffer of 64 KiB.
    ///
    /// ```
    /// let mut reader = gff3_lines::Reader::new(&b"a\n"[..]);
    ///
    /// assert_eq!(reader.next_line().transpose()?, Some(gff3_lines::Line(b"a")));
    /// assert!(reader.next_line().is_none());
    /// # Ok::<(), gff3_lines::ReadError>(())
    /// ```
    pub fn new(input: R) -> Self {
        Self::with_capacity(64 << 10, input)
    }

    /// A reader with a buffer of so many bytes; 0 counts as 1. A line may be longer than the buffer.
    ///
    /// ```
    /// let mut reader = gff3_lines::Reader::with_capacity(1, &b"abc\n"[..]);
    ///
    /// assert_eq!(reader.next_line().transpose()?, Some(gff3_lines::Line(b"abc")));
    /// # Ok::<(), gff3_lines::ReadError>(())
    /// ```
    pub fn with_capacity(bytes: usize, input: R) -> Self {
        Reader {
            input,
            parts: Parts::new(),
            buffer: vec![0; bytes.max(1)].into_boxed_slice(),
            at: 0,
            end: 0,
            ended: false,
        }
    }

    /// The bytes that are read and not yet taken. Behind a line they are what follows its line feed, as far as it has come.
    ///
    /// The sequences behind `##FASTA`, for another reader:
    ///
    /// ```
    /// use std::io::Read;
    ///
    /// let mut reader = gff3_lines::Reader::with_capacity(10, &b"##FASTA\n>sq0\nACGT\n"[..]);
    /// reader.next_line().transpose()?;
    ///
    /// let mut fasta = Vec::new();
    /// fasta.extend(reader.buffer());
    /// reader.into_inner().read_to_end(&mut fasta)?;
    /// assert_eq!(fasta, b">sq0\nACGT\n");
    /// # Ok::<(), gff3_lines::ReadError>(())
    /// ```
    pub fn buffer(&self) -> &[u8] {
        &self.buffer[self.at..self.end]
    }

    /// Whether the line that was answered last was ended by the end of the input, and not by a line feed.
    ///
    /// ```
    /// let mut reader = gff3_lines::Reader::new(&b"a\nb"[..]);
    ///
    /// assert_eq!(reader.next_line().transpose()?, Some(gff3_lines::Line(b"a")));
    /// assert!(!reader.is_cut());
    /// assert_eq!(reader.next_line().transpose()?, Some(gff3_lines::Line(b"b")));
    /// assert!(reader.is_cut());
    /// # Ok::<(), gff3_lines::ReadError>(())
    /// ```
    pub fn is_cut(&self) -> bool {
        self.ended
    }

    /// The line that the last call has handed out, once more; without a byte where it has handed out none. What [`Reader::next_line`] lends
    /// keeps the reader from being asked for anything else; this does not.
    ///
    /// ```
    /// use gff3_lines::{Line, Reader};
    ///
    /// let mut reader = Reader::new(&b"a\nb"[..]);
    ///
    /// while reader.next_line().transpose()?.is_some() {
    ///     println!("{}: {:?}, {}", reader.number(), reader.line(), reader.is_cut());
    /// }
    /// # Ok::<(), gff3_lines::ReadError>(())
    /// ```
    pub fn line(&self) -> Line<'_> {
        self.parts.line()
    }

    /// The number of the line that was answered last, from 1 on, with blank lines counted; 0 before the first.
    ///
    /// ```
    /// let mut reader = gff3_lines::Reader::new(&b"\n\na\n"[..]);
    ///
    /// assert_eq!(reader.next_line().transpose()?, Some(gff3_lines::Line(b"a")));
    /// assert_eq!(reader.number(), 3);
    /// # Ok::<(), gff3_lines::ReadError>(())
    /// ```
    pub fn number(&self) -> u64 {
        self.parts.number()
    }

    /// The input.
    ///
    /// ```
    /// assert_eq!(gff3_lines::Reader::new(&b"a\n"[..]).get_ref(), &b"a\n");
    /// ```
    pub fn get_ref(&self) -> &R {
        &self.input
    }

    /// The input, to be changed: a time limit, say. What is read from it here is missing from the lines.
    ///
    /// ```
    /// use std::io::{Cursor, Read};
    ///
    /// let mut reader = gff3_lines::Reader::new(Cursor::new(b"a\nb\n"));
    /// reader.get_mut().set_position(2);
    ///
    /// assert_eq!(reader.next_line().transpose()?, Some(gff3_lines::Line(b"b")));
    /// # Ok::<(), gff3_lines::ReadError>(())
    /// ```
    pub fn get_mut(&mut self) -> &mut R {
        &mut self.input
    }

    /// The input, back. The bytes of [`Reader::buffer`] are lost, and so is a line that is begun.
    ///
    /// ```
    /// assert_eq!(gff3_lines::Reader::new(&b"a\n"[..]).into_inner(), b"a\n");
    /// ```
    pub fn into_inner(self) -> R {
        self.input
    }
}

impl<R: Read> Reader<R> {
    /// The next line, lent until the next call; `None` at the end of the input. A read that is interrupted is made again. Refusal:
    /// [`LineTooLong`](Refusal::LineTooLong).
    ///
    /// The end of an input need not last: a call behind `None` reads again, and what then comes is another text.
    ///
    /// ```
    /// use gff3_lines::{Line, Parts, ReadError, Reader, Refusal};
    ///
    /// let text = [&[b'a'; Parts::HOLD_LENGTH + 1][..], b"\nb"].concat();
    /// let mut reader = Reader::new(&text[..]);
    ///
    /// assert!(matches!(reader.next_line(), Some(Err(ReadError::Refused(Refusal::LineTooLong)))));
    /// assert!(matches!(reader.next_line(), Some(Ok(Line(b"b")))));
    /// assert!(reader.next_line().is_none());
    /// ```
    pub fn next_line(&mut self) -> Option<Result<Line<'_>, ReadError>> {
        let next = self.advance()?;
        Some(next.map(|()| self.parts.line()))
    }

    /// The lines as an iterator, each in a `Vec` of its own. It is no end of the iterator where an error comes: a loop that goes on
    /// behind errors goes on for as long as the input fails.
    ///
    /// ```
    /// let lines: Result<Vec<_>, _> = gff3_lines::Reader::new(&b"a\r\nb"[..]).into_lines().collect();
    ///
    /// assert_eq!(lines?, [b"a", b"b"]);
    /// # Ok::<(), gff3_lines::ReadError>(())
    /// ```
    pub fn into_lines(self) -> IntoLines<R> {
        IntoLines { reader: self }
    }

    /// As [`Reader::next_line`], with the line left in its place: one that is borrowed in a loop could not be handed out of it.
    fn advance(&mut self) -> Option<Result<(), ReadError>> {
        if mem::take(&mut self.ended) {
            return None;
        }
        loop {
            let mut part = &self.buffer[self.at..self.end];
            let line = self.parts.advance(&mut part);
            self.at = self.end - part.len();
            if let Some(taken) = line {
                return Some(taken.map_err(ReadError::from));
            }
            match self.fill() {
                Ok(true) => {}
                Ok(false) => return self.advance_to_end(),
                Err(error) if error.kind() == io::ErrorKind::Interrupted => {}
                Err(error) => return Some(Err(error.into())),
            }
        }
    }

    /// Reads once, all at hand being taken; `false` at the end of the input.
    fn fill(&mut self) -> io::Result<bool> {
        let count = self.input.read(&mut self.buffer)?;
        assert!(
            count <= self.buffer.len(),
            "an input reads no more than it is asked for"
        );
        self.at = 0;
        self.end = count;
        Ok(count > 0)
    }

    fn advance_to_end(&mut self) -> Option<Result<(), ReadError>> {
        let line = self.parts.advance_to_end();
        self.ended = line.is_some();
        line.map(|taken| taken.map_err(ReadError::from))
    }
}

impl<R: fmt::Debug> fmt::Debug for Reader<R> {
    fn fmt(&self, f: &mut fmt::Formatter<'_>) -> fmt::Result {
        f.debug_struct("Reader")
            .field("input", &self.input)
            .field("parts", &self.parts)
            .field("buffer", &format_args!("{}/{}", self.end - self.at, self.buffer.len()))
            .finish_non_exhaustive()
    }
}

/// The iterator of [`Reader::into_lines`].
///
/// ```
/// use gff3_lines::{Line, ReadError, Reader};
///
/// for line in Reader::new(&b"# a\n"[..]).into_lines() {
///     assert_eq!(Line(&line?).comment(), Some(&b" a"[..]));
/// }
/// # Ok::<(), ReadError>(())
/// ```
#[derive(Debug)]
pub struct IntoLines<R> {
    reader: Reader<R>,
}

impl<R: Read> Iterator for IntoLines<R> {
    type Item = Result<Vec<u8>, ReadError>;

    fn next(&mut self) -> Option<Self::Item> {
        let line = self.reader.next_line()?;
        Some(line.map(|line| line.bytes().to_vec()))
    }
}

/// Why a [`Reader`] does not hand out a line. It shows as the error or the refusal that it holds.
///
/// ```
/// use std::io;
/// use gff3_lines::{ReadError, Refusal};
///
/// let error = ReadError::from(Refusal::LineTooLong);
///
/// assert_eq!(error.to_string(), "the line has more than 65,536 bytes (refusal 25)");
/// assert_eq!(io::Error::from(error).kind(), io::ErrorKind::InvalidData);
/// ```
#[derive(Debug)]
pub enum ReadError {
    /// The input could not be read. No byte is lost by it.
    Io(io::Error),
    /// The line is refused, and passed over. From a reader that is [`Refusal::LineTooLong`]; the other refusals are there for a `?` in the
    /// code that reads the line.
    Refused(Refusal),
}

impl fmt::Display for ReadError {
    fn fmt(&self, f: &mut fmt::Formatter<'_>) -> fmt::Result {
        match self {
            ReadError::Io(error) => error.fmt(f),
            ReadError::Refused(refusal) => refusal.fmt(f),
        }
    }
}

/// The source is that of what it holds, whose words it has already.
impl error::Error for ReadError {
    fn source(&self) -> Option<&(dyn error::Error + 'static)> {
        match self {
            ReadError::Io(error) => error.source(),
            ReadError::Refused(refusal) => refusal.source(),
        }
    }
}

impl From<io::Error> for ReadError {
    fn from(error: io::Error) -> Self {
        ReadError::Io(error)
    }
}

impl From<Refusal> for ReadError {
    fn from(refusal: Refusal) -> Self {
        ReadError::Refused(refusal)
    }
}

/// A refusal becomes an error of the kind [`InvalidData`](io::ErrorKind::InvalidData) that holds it.
impl From<ReadError> for io::Error {
    fn from(error: ReadError) -> Self {
        match error {
            ReadError::Io(error) => error,
            ReadError::Refused(refusal) => io::Error::new(io::ErrorKind::InvalidData, refusal),
        }
    }
}
