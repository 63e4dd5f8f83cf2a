//! A record taken apart, and written again.

use crate::{
    Phase, Refusal, Strand,
    buffer::{append, made},
    ffi,
};

/// The field sheet of a record: its fields, which own their texts, decoded.
///
/// ```
/// use gff3_lines::{Sheet, Strand};
///
/// let mut sheet = Sheet::of_line(b"sq0\tlab\tgene\t8\t13\t.\t+\t.\tID=a%2Cb")?;
/// assert_eq!(sheet.attributes, [(b"ID".to_vec(), vec![b"a,b".to_vec()])]);
///
/// sheet.reference_sequence_name = b"sq 1".to_vec();
/// sheet.strand = Strand::Reverse;
/// assert_eq!(sheet.line()?, b"sq%201\tlab\tgene\t8\t13\t.\t-\t.\tID=a%2Cb");
/// # Ok::<(), gff3_lines::Refusal>(())
/// ```
#[derive(Clone, Debug, PartialEq, Eq, Hash)]
pub struct Sheet {
    /// Column 1.
    pub reference_sequence_name: Vec<u8>,
    /// Column 2.
    pub source: Vec<u8>,
    /// Column 3.
    pub ty: Vec<u8>,
    /// Column 4, from 1 on.
    pub start: u64,
    /// Column 5, from 1 on; it may lie before the start.
    pub end: u64,
    /// Column 6: the token as it stands. A score without a byte is written as none.
    pub score: Option<Vec<u8>>,
    /// Column 7.
    pub strand: Strand,
    /// Column 8.
    pub phase: Option<Phase>,
    /// Column 9: each tag and its values, of which there is one at least.
    pub attributes: Vec<(Vec<u8>, Vec<Vec<u8>>)>,
}

impl Sheet {
    /// The fields of a line without its line feed, taken as a record without a look at its kind.
    ///
    /// Refusals, in order:
    /// - [`TooLong`](Refusal::TooLong): the line has over 4,194,304 bytes;
    /// - [`Columns`](Refusal::Columns): it has fewer than eight tabs;
    /// - [`Position`](Refusal::Position): the start or the end is no position;
    /// - [`Score`](Refusal::Score), [`Strand`](Refusal::Strand), [`Phase`](Refusal::Phase): not one of these;
    /// - [`Attribute`](Refusal::Attribute): text is left in column 9 without `=`.
    ///
    /// ```
    /// use gff3_lines::{Sheet, Refusal};
    ///
    /// assert_eq!(Sheet::of_line(b"sq0"), Err(Refusal::Columns));
    /// assert_eq!(Sheet::of_line(b"sq0\t\t\t0\t\t\t\t\t"), Err(Refusal::Position));
    /// ```
    pub fn of_line(line: &[u8]) -> Result<Self, Refusal> {
        let mut sheet = Vec::new();
        let unfolded = unfold_into(line, &mut sheet)?;
        let rest = &mut &sheet[..];
        let [reference_sequence_name, source, ty, score] = std::array::from_fn(|_| take_text(rest));
        let attributes = (0..take_count(rest))
            .map(|_| {
                (
                    take_text(rest),
                    (0..take_count(rest)).map(|_| take_text(rest)).collect(),
                )
            })
            .collect();
        Ok(Sheet {
            reference_sequence_name,
            source,
            ty,
            start: unfolded.start,
            end: unfolded.end,
            score: (!score.is_empty()).then_some(score),
            strand: Strand::of(unfolded.strand.into()),
            phase: Phase::of(unfolded.phase.into()),
            attributes,
        })
    }

    /// The line of the fields, without a line feed.
    ///
    /// Refusals, in order:
    /// - [`TooLong`](Refusal::TooLong): the fields come to over 1,048,576 bytes, with four for each text and each count;
    /// - [`Sheet`](Refusal::Sheet): an attribute has no value;
    /// - [`Position`](Refusal::Position): the start or the end is zero;
    /// - [`Score`](Refusal::Score): not a score;
    /// - [`PhaseMissing`](Refusal::PhaseMissing): the type is `CDS`, and there is no phase.
    ///
    /// ```
    /// use gff3_lines::{Sheet, Refusal};
    ///
    /// let mut sheet = Sheet::of_line(b"sq0\tlab\tgene\t8\t13\t.\t+\t.\tID=a")?;
    /// sheet.ty = b"CDS".to_vec();
    ///
    /// assert_eq!(sheet.line(), Err(Refusal::PhaseMissing));
    /// # Ok::<(), Refusal>(())
    /// ```
    pub fn line(&self) -> Result<Vec<u8>, Refusal> {
        made(|out| self.line_into(out))
    }

    /// [`line`](Self::line), appended to a buffer.
    ///
    /// ```
    /// let line = b"sq0\tlab\tgene\t8\t13\t.\t+\t.\tID=a";
    /// let mut out = b"##gff-version 3\n".to_vec();
    /// gff3_lines::Sheet::of_line(line)?.line_into(&mut out)?;
    ///
    /// assert_eq!(out, b"##gff-version 3\nsq0\tlab\tgene\t8\t13\t.\t+\t.\tID=a");
    /// # Ok::<(), gff3_lines::Refusal>(())
    /// ```
    pub fn line_into(&self, out: &mut Vec<u8>) -> Result<(), Refusal> {
        let numbers = ffi::Unfolded {
            start: self.start,
            end: self.end,
            strand: self.strand as u32,
            phase: self.phase.map_or(3, |phase| phase as u32),
            ..ffi::Unfolded::default()
        };
        write_into(&self.bytes(), &numbers, out)
    }

    /// The bytes of the sheet, as `bindings/c/gff3_lines.h` says it.
    fn bytes(&self) -> Vec<u8> {
        let score = self.score.as_deref().unwrap_or_default();
        let mut sheet = Vec::new();
        for text in [&self.reference_sequence_name, &self.source, &self.ty, score] {
            put_text(&mut sheet, text);
        }
        put_count(&mut sheet, self.attributes.len());
        for (tag, values) in &self.attributes {
            put_text(&mut sheet, tag);
            put_count(&mut sheet, values.len());
            for value in values {
                put_text(&mut sheet, value);
            }
        }
        sheet
    }
}

/// What [`judge`] says of a line that is not refused.
///
/// ```
/// let judged = gff3_lines::judge(b"sq0\tlab\tgene\t8\t13\t.\t+\t.\tID=a")?;
///
/// assert_eq!((judged.start, judged.end), (8, 13));
/// # Ok::<(), gff3_lines::Refusal>(())
/// ```
#[derive(Clone, Copy, Debug, PartialEq, Eq, Hash)]
pub struct Judged {
    /// Column 4.
    pub start: u64,
    /// Column 5.
    pub end: u64,
    /// Column 7.
    pub strand: Strand,
    /// Column 8.
    pub phase: Option<Phase>,
    /// The bytes of the sheet that the line unfolds into.
    pub length: usize,
}

/// Whether a line can be taken apart into [`Sheet`], with its numbers and nothing allocated. The refusals are those of
/// [`Sheet::of_line`].
///
/// ```
/// use gff3_lines::{Refusal, judge};
///
/// assert_eq!(judge(b"sq0\tlab\tgene\t8\t13\t.\t+\t.\tID"), Err(Refusal::Attribute));
/// ```
pub fn judge(line: &[u8]) -> Result<Judged, Refusal> {
    // SAFETY: the line is a slice.
    let judged = unsafe { ffi::gff3_judge(line.as_ptr(), line.len()) };
    Refusal::check(judged.refused)?;
    Ok(Judged {
        start: judged.start,
        end: judged.end,
        strand: Strand::of(judged.strand.into()),
        phase: Phase::of(judged.phase.into()),
        length: judged.length,
    })
}

/// The line of a record, unfolded and written again, appended to a buffer: what [`Sheet::of_line`] and [`Sheet::line_into`] give one after
/// the other, with their refusals, without a field in memory of its own. Nothing is appended where it is refused.
///
/// `sheet` lends its memory: afterwards it holds the bytes of the field sheet, or none where the line is refused before it is written.
///
/// ```
/// let (mut sheet, mut out) = (Vec::new(), Vec::new());
/// gff3_lines::rewrite_into(b"sq0\t.\tgene\t08\t13\t.\t+\t.\tID=%61", &mut sheet, &mut out)?;
///
/// assert_eq!(out, b"sq0\t.\tgene\t8\t13\t.\t+\t.\tID=a");
/// # Ok::<(), gff3_lines::Refusal>(())
/// ```
pub fn rewrite_into(line: &[u8], sheet: &mut Vec<u8>, out: &mut Vec<u8>) -> Result<(), Refusal> {
    sheet.clear();
    let unfolded = unfold_into(line, sheet)?;
    write_into(sheet, &unfolded, out)
}

/// Appends the bytes of a line's sheet, and answers the numbers beside them.
fn unfold_into(line: &[u8], sheet: &mut Vec<u8>) -> Result<ffi::Unfolded, Refusal> {
    let mut unfolded = ffi::Unfolded::default();
    // The sheet has at most ten bytes for each of the line's, and 26: with so much room it is laid at once, and not measured first.
    let guess = line.len().saturating_mul(10).saturating_add(26);
    append(sheet, guess, |out| {
        // SAFETY: the line is a slice, and the buffer another.
        unfolded = unsafe { ffi::gff3_unfold(line.as_ptr(), line.len(), out.as_mut_ptr().cast(), out.len()) };
        ffi::Written {
            refused: unfolded.refused,
            length: unfolded.length,
        }
    })?;
    Ok(unfolded)
}

/// Appends the line of a sheet and the numbers beside it.
fn write_into(sheet: &[u8], numbers: &ffi::Unfolded, out: &mut Vec<u8>) -> Result<(), Refusal> {
    // The line has at most three bytes for each of the sheet's: with so much room it is laid at once, and not measured first.
    let guess = 3 * sheet.len();
    // SAFETY: the sheet is a slice, and the buffer another.
    append(out, guess, |out| unsafe {
        ffi::gff3_write_record(
            sheet.as_ptr(),
            sheet.len(),
            numbers.start,
            numbers.end,
            numbers.strand,
            numbers.phase,
            out.as_mut_ptr().cast(),
            out.len(),
        )
    })
}

/// A count of four bytes. Where the count is greater, the sheet is too long to be written.
fn put_count(sheet: &mut Vec<u8>, n: usize) {
    sheet.extend((n as u32).to_le_bytes());
}

fn put_text(sheet: &mut Vec<u8>, text: &[u8]) {
    put_count(sheet, text.len());
    sheet.extend(text);
}

/// The next count of a sheet that the library laid.
fn take_count(rest: &mut &[u8]) -> usize {
    let count = take(rest, 4).try_into().unwrap_or_default();
    u32::from_le_bytes(count) as usize
}

/// The next text of a sheet that the library laid.
fn take_text(rest: &mut &[u8]) -> Vec<u8> {
    let n = take_count(rest);
    take(rest, n).to_vec()
}

/// The next `n` bytes.
fn take<'a>(rest: &mut &'a [u8], n: usize) -> &'a [u8] {
    let (taken, left) = rest.split_at(n);
    *rest = left;
    taken
}
