//! How a file is compressed: by its first bytes. And whether a bgzip file has its end.

use std::io::{self, Read};

/// The packer whose files are read.
pub const GZIP: &str = "gzip";

/// What a packer writes first, with a `#` for a digit from 1 to 9.
const PACKERS: [(&str, &[u8]); 5] = [
    (GZIP, b"\x1f\x8b"),
    ("bzip2", b"BZh#1AY&SY"),
    ("xz", b"\xfd7zXZ\x00"),
    ("zstd", b"\x28\xb5\x2f\xfd"),
    ("zip", b"PK\x03\x04"),
];

/// The first bytes of a text: no more than are those of a packer, so that a short line from a pipe waits for nothing. And whether the text
/// has ended with them: a terminal whose end was read is not to be read again.
pub fn first_bytes(text: &mut impl Read) -> io::Result<(Vec<u8>, bool)> {
    let mut first = Vec::new();
    while PACKERS
        .iter()
        .any(|(_, bytes)| bytes.len() > first.len() && agrees(bytes, &first))
    {
        if text.by_ref().take(1).read_to_end(&mut first)? == 0 {
            return Ok((first, true));
        }
    }
    Ok((first, false))
}

pub fn packer(first: &[u8]) -> Option<&'static str> {
    let packed = PACKERS
        .iter()
        .find(|(_, bytes)| bytes.len() <= first.len() && agrees(bytes, first));
    packed.map(|(name, _)| *name)
}

/// Whether bytes are those of a packer, as far as both go.
fn agrees(packer: &[u8], first: &[u8]) -> bool {
    let is_one = |(packer, byte): (&u8, &u8)| packer == byte || (*packer == b'#' && matches!(byte, b'1'..=b'9'));
    packer.iter().zip(first).all(is_one)
}

/// What is wrong with gzip data, for a person. Where the unpacker asked for more than there is, the data is cut off.
pub fn in_words(error: io::Error, is_ended: bool) -> io::Error {
    use io::ErrorKind::{InvalidData, InvalidInput, UnexpectedEof};
    match error.kind() {
        UnexpectedEof => io::Error::new(UnexpectedEof, CUT),
        InvalidInput | InvalidData if is_ended => io::Error::new(UnexpectedEof, CUT),
        InvalidInput | InvalidData => io::Error::new(InvalidData, "the gzip data is damaged"),
        _ => error,
    }
}

const CUT: &str = "the gzip data ends too early: the file is cut off";

/// A bgzip file begins with a gzip header that has an extra field by the name of BC, and ends with this empty block (SAM specification,
/// 4.1).
const BGZIP_NAME: (usize, &[u8]) = (12, b"BC\x02\x00");
const BGZIP_END: [u8; 28] = *b"\x1f\x8b\x08\x04\0\0\0\0\0\xff\x06\0BC\x02\0\x1b\0\x03\0\0\0\0\0\0\0\0\0";

/// Passes bytes on, and keeps the first and the last of them.
pub struct Ends<R> {
    bytes: R,
    first: Vec<u8>,
    last: Vec<u8>,
    /// It was asked for more than there is.
    pub is_ended: bool,
}

impl<R> Ends<R> {
    pub fn new(bytes: R) -> Self {
        Ends {
            bytes,
            first: Vec::new(),
            last: Vec::new(),
            is_ended: false,
        }
    }

    /// Whether this is a bgzip file that does not end as one.
    pub fn is_cut(&self) -> bool {
        let (at, name) = BGZIP_NAME;
        self.first.get(at..at + name.len()) == Some(name) && self.last != BGZIP_END
    }
}

impl<R: Read> Read for Ends<R> {
    fn read(&mut self, out: &mut [u8]) -> io::Result<usize> {
        let count = self.bytes.read(out)?;
        self.is_ended |= count == 0;
        let read = &out[..count];
        let missing = (BGZIP_NAME.0 + BGZIP_NAME.1.len()).saturating_sub(self.first.len());
        self.first.extend(&read[..missing.min(count)]);
        self.last.extend(&read[count.saturating_sub(BGZIP_END.len())..]);
        let spare = self.last.len().saturating_sub(BGZIP_END.len());
        self.last.drain(..spare);
        Ok(count)
    }
}
