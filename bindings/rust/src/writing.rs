//! Comments and directives written.

use crate::{
    Build, Refusal, Region, Version,
    buffer::{append, made},
    ffi,
};

/// The value of a directive to write.
///
/// ```
/// use gff3_lines::{Region, Value, write_directive};
///
/// let region = Value::Region(Region { name: b"sq0", start: 8, end: 13 });
///
/// assert_eq!(write_directive(b"sequence-region", region)?, b"##sequence-region sq0 8 13");
/// # Ok::<(), gff3_lines::Refusal>(())
/// ```
#[derive(Clone, Copy, Debug, PartialEq, Eq, Hash)]
pub enum Value<'a> {
    /// There is none.
    None,
    /// A text, under any key.
    Text(&'a [u8]),
    /// Under the key `gff-version`.
    Version(Version),
    /// Under the key `sequence-region`.
    Region(Region<'a>),
    /// Under the key `genome-build`.
    Build(Build<'a>),
}

/// The line of a directive, without a line feed: `##`, the key, and a space and the value where there is one.
///
/// Refusals, in order:
/// - [`TooLong`](Refusal::TooLong): a text has over 1,048,576 bytes;
/// - [`ValueKey`](Refusal::ValueKey): a version, region or build under another key than its own;
/// - [`Key`](Refusal::Key): the key holds ASCII white space;
/// - [`Text`](Refusal::Text): the text holds CR or LF, or a name or source is empty or holds ASCII white space;
/// - [`Patch`](Refusal::Patch): a patch without a minor;
/// - [`Position`](Refusal::Position): a position of zero.
///
/// ```
/// use gff3_lines::{Refusal, Value, Version, write_directive};
///
/// let version = Value::Version(Version { major: 3, minor: Some(1), patch: None });
///
/// assert_eq!(write_directive(b"gff-version", version)?, b"##gff-version 3.1");
/// assert_eq!(write_directive(b"FASTA", Value::None)?, b"##FASTA");
/// assert_eq!(write_directive(b"species", version), Err(Refusal::ValueKey));
/// assert_eq!(write_directive(b"a b", Value::Text(b"c")), Err(Refusal::Key));
/// # Ok::<(), Refusal>(())
/// ```
pub fn write_directive(key: &[u8], value: Value<'_>) -> Result<Vec<u8>, Refusal> {
    made(|out| write_directive_into(key, value, out))
}

/// [`write_directive`], appended to a buffer.
///
/// ```
/// let mut out = Vec::new();
/// gff3_lines::write_directive_into(b"FASTA", gff3_lines::Value::None, &mut out)?;
/// out.push(b'\n');
///
/// assert_eq!(out, b"##FASTA\n");
/// # Ok::<(), gff3_lines::Refusal>(())
/// ```
pub fn write_directive_into(key: &[u8], value: Value<'_>, out: &mut Vec<u8>) -> Result<(), Refusal> {
    let (value, first, second) = parts(value);
    // Beside the texts there are at most two numbers of twenty digits and five other bytes.
    let guess = key.len() + first.len() + second.len() + 45;
    // SAFETY: the texts are slices, and the buffer another.
    append(out, guess, |out| unsafe {
        ffi::gff3_write_directive(
            key.as_ptr(),
            key.len(),
            value,
            first.as_ptr(),
            first.len(),
            second.as_ptr(),
            second.len(),
            out.as_mut_ptr().cast(),
            out.len(),
        )
    })
}

/// The value as C has it, and the two texts beside it.
fn parts(value: Value<'_>) -> (ffi::DirectiveValue, &[u8], &[u8]) {
    let of = |kind| ffi::DirectiveValue {
        kind,
        ..Default::default()
    };

    match value {
        Value::None => (of(0), b"", b""),
        Value::Text(text) => (of(1), text, b""),
        Value::Version(version) => {
            let value = ffi::DirectiveValue {
                major: version.major,
                has_minor: version.minor.is_some().into(),
                minor: version.minor.unwrap_or_default(),
                has_patch: version.patch.is_some().into(),
                patch: version.patch.unwrap_or_default(),
                ..of(2)
            };
            (value, b"", b"")
        }
        Value::Region(region) => {
            let value = ffi::DirectiveValue {
                start: region.start,
                end: region.end,
                ..of(3)
            };
            (value, region.name, b"")
        }
        Value::Build(build) => (of(4), build.source, build.name),
    }
}

/// The line of a comment, without a line feed: `#` and the text. Refusals, in order: [`TooLong`](Refusal::TooLong), the text has over
/// 1,048,576 bytes; [`Text`](Refusal::Text), it holds CR or LF, or begins with `#`, which would make it a directive.
///
/// ```
/// use gff3_lines::{Refusal, write_comment};
///
/// assert_eq!(write_comment(b" two exons")?, b"# two exons");
/// assert_eq!(write_comment(b"#"), Err(Refusal::Text));
/// # Ok::<(), Refusal>(())
/// ```
pub fn write_comment(text: &[u8]) -> Result<Vec<u8>, Refusal> {
    made(|out| write_comment_into(text, out))
}

/// [`write_comment`], appended to a buffer.
///
/// ```
/// let mut out = b"##gff-version 3\n".to_vec();
/// gff3_lines::write_comment_into(b" two exons", &mut out)?;
///
/// assert_eq!(out, b"##gff-version 3\n# two exons");
/// # Ok::<(), gff3_lines::Refusal>(())
/// ```
pub fn write_comment_into(text: &[u8], out: &mut Vec<u8>) -> Result<(), Refusal> {
    // SAFETY: the text is a slice, and the buffer another.
    append(out, text.len() + 1, |out| unsafe {
        ffi::gff3_write_comment(text.as_ptr(), text.len(), out.as_mut_ptr().cast(), out.len())
    })
}
