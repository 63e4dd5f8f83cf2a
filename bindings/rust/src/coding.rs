//! Percent coding, and positions.

use crate::{
    Refusal,
    buffer::{append, made},
    ffi,
    record::number,
};

/// The text, percent-decoded, once: `%` and two hex digits of either case give a byte, and any other `%` stays. `+` is no space.
///
/// ```
/// assert_eq!(gff3_lines::decode(b"a%2cb+c%"), b"a,b+c%");
/// assert_eq!(gff3_lines::decode(b"%2541"), b"%41");
/// ```
pub fn decode(text: &[u8]) -> Vec<u8> {
    let mut out = Vec::new();
    decode_into(text, &mut out);
    out
}

/// [`decode`], appended to a buffer.
///
/// ```
/// let mut out = b"a".to_vec();
/// gff3_lines::decode_into(b"%2Cb", &mut out);
///
/// assert_eq!(out, b"a,b");
/// ```
pub fn decode_into(text: &[u8], out: &mut Vec<u8>) {
    // SAFETY: the text is a slice, and the buffer another.
    let decoded = append(out, text.len(), |out| unsafe {
        ffi::gff3_decode(text.as_ptr(), text.len(), out.as_mut_ptr().cast(), out.len())
    });
    debug_assert_eq!(decoded, Ok(()), "no text is refused");
}

/// Which bytes are escaped.
///
/// ```
/// use gff3_lines::{Set, encode};
///
/// assert_eq!(encode(Set::Name, b"a b;")?, b"a%20b%3B");
/// assert_eq!(encode(Set::Column, b"a b;")?, b"a b;");
/// assert_eq!(encode(Set::Attribute, b"a b;")?, b"a b%3B");
/// # Ok::<(), gff3_lines::Refusal>(())
/// ```
#[derive(Clone, Copy, Debug, PartialEq, Eq, Hash)]
pub enum Set {
    /// In column 1: all but ASCII letters, digits and `.:^*$@!+_?-|`.
    Name = 1,
    /// In columns 2 and 3: control bytes, `%`, and every byte from 0x80.
    Column = 2,
    /// In a tag or a value of column 9: those of `Column`, and `;=&,`.
    Attribute = 3,
}

/// The text, percent-encoded, with capital hex digits. Refusal: [`TooLong`](Refusal::TooLong), it has over 1,048,576 bytes.
///
/// ```
/// use gff3_lines::{Refusal, Set, encode};
///
/// assert_eq!(encode(Set::Attribute, b"a,b%")?, b"a%2Cb%25");
/// assert_eq!(encode(Set::Attribute, &[0; 1_048_577]), Err(Refusal::TooLong));
/// # Ok::<(), Refusal>(())
/// ```
pub fn encode(set: Set, text: &[u8]) -> Result<Vec<u8>, Refusal> {
    made(|out| encode_into(set, text, out))
}

/// [`encode`], appended to a buffer.
///
/// ```
/// use gff3_lines::{Set, encode_into};
///
/// let mut out = b"Note=".to_vec();
/// encode_into(Set::Attribute, b"a,b", &mut out)?;
///
/// assert_eq!(out, b"Note=a%2Cb");
/// # Ok::<(), gff3_lines::Refusal>(())
/// ```
pub fn encode_into(set: Set, text: &[u8], out: &mut Vec<u8>) -> Result<(), Refusal> {
    // At most three bytes for each: with so much room the text is laid at once, and not measured first.
    let guess = text.len().saturating_mul(3);
    // SAFETY: the text is a slice, and the buffer another.
    append(out, guess, |out| unsafe {
        ffi::gff3_encode(
            set as u32,
            text.as_ptr(),
            text.len(),
            out.as_mut_ptr().cast(),
            out.len(),
        )
    })
}

/// A position, as columns 4 and 5 have it: one or more digits, from 1 to 18446744073709551615. Refusal:
/// [`Position`](Refusal::Position), it is none.
///
/// ```
/// use gff3_lines::{Refusal, position};
///
/// assert_eq!(position(b"18446744073709551615"), Ok(u64::MAX));
/// assert_eq!(position(b"18446744073709551616"), Err(Refusal::Position));
/// assert_eq!(position(b"+8"), Err(Refusal::Position));
/// ```
pub fn position(text: &[u8]) -> Result<u64, Refusal> {
    // SAFETY: the text is a slice.
    number(unsafe { ffi::gff3_position(text.as_ptr(), text.len()) })
}
