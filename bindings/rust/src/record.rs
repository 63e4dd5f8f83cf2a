//! The columns of a record.

use crate::{Attributes, Column, Phase, Refusal, Strand, buffer::append, ffi};

/// Where columns 1 to 8 end: one past each of the first eight tabs. Column 9 is the rest.
///
/// ```
/// let record = gff3_lines::Record::new(b"a\tb\tc\t1\t2\t.\t.\t.\td=e")?;
///
/// assert_eq!(record.bounds().source_end, 4);
/// # Ok::<(), gff3_lines::Refusal>(())
/// ```
#[repr(C)]
#[derive(Clone, Copy, Debug, PartialEq, Eq, Hash)]
pub struct Bounds {
    /// Behind column 1.
    pub reference_sequence_name_end: usize,
    /// Behind column 2.
    pub source_end: usize,
    /// Behind column 3.
    pub type_end: usize,
    /// Behind column 4.
    pub start_end: usize,
    /// Behind column 5.
    pub end_end: usize,
    /// Behind column 6.
    pub score_end: usize,
    /// Behind column 7.
    pub strand_end: usize,
    /// Behind column 8.
    pub phase_end: usize,
}

/// A line of nine columns, and where they end.
///
/// Columns 4 to 8 are read when it is made. Where none of them is refused, the methods read none of them again; else each reads its own.
///
/// ```
/// let record = gff3_lines::Record::new(b"sq%200\tlab\tgene\t8\t13\t0.5\t+\t.\tID=a")?;
///
/// assert_eq!(record.reference_sequence_name(), b"sq 0");
/// assert_eq!((record.start()?, record.end()?), (8, 13));
/// assert_eq!(record.score()?, Some(&b"0.5"[..]));
/// # Ok::<(), gff3_lines::Refusal>(())
/// ```
#[derive(Clone, Copy, Debug, PartialEq, Eq, Hash)]
pub struct Record<'a> {
    line: &'a [u8],
    bounds: Bounds,
    read: Option<Read<'a>>,
}

/// Columns 4 to 8 of a record where none of them is refused.
#[derive(Clone, Copy, Debug, PartialEq, Eq, Hash)]
struct Read<'a> {
    start: u64,
    end: u64,
    score: Option<&'a [u8]>,
    strand: Strand,
    phase: Option<Phase>,
}

impl<'a> Record<'a> {
    /// The record of a line without its line feed. Refusal: [`Columns`](Refusal::Columns), it has fewer than eight tabs.
    ///
    /// ```
    /// use gff3_lines::{Record, Refusal};
    ///
    /// assert_eq!(Record::new(b"sq0"), Err(Refusal::Columns));
    /// ```
    pub fn new(line: &'a [u8]) -> Result<Self, Refusal> {
        // SAFETY: the line is a slice.
        let fields = unsafe { ffi::gff3_record(line.as_ptr(), line.len()) };
        match Refusal::check(fields.refused) {
            Ok(()) => Ok(Record {
                line,
                bounds: fields.bounds,
                read: Some(Read {
                    start: fields.start,
                    end: fields.end,
                    score: (fields.score_missing == 0).then(|| &line[fields.score_start..fields.score_end]),
                    strand: Strand::of(fields.strand.into()),
                    phase: Phase::of(fields.phase.into()),
                }),
            }),
            Err(Refusal::Columns) => Err(Refusal::Columns),
            Err(_) => Record::indexed(line),
        }
    }

    /// The record of a line that has a refused column among 4 to 8: the others can still be asked for.
    fn indexed(line: &'a [u8]) -> Result<Self, Refusal> {
        // SAFETY: the line is a slice.
        let indexed = unsafe { ffi::gff3_index(line.as_ptr(), line.len()) };
        Refusal::check(indexed.refused)?;
        Ok(Record {
            line,
            bounds: indexed.bounds,
            read: None,
        })
    }

    /// The record of a line whose bounds were kept. Refusal: [`Columns`](Refusal::Columns), they are not the line's own.
    ///
    /// ```
    /// use gff3_lines::{Record, Refusal};
    ///
    /// let bounds = Record::new(b"a\tb\tc\t1\t2\t.\t.\t.\t.")?.bounds();
    ///
    /// assert!(Record::with_bounds(b"x\ty\tz\t3\t4\t.\t.\t.\t.", bounds).is_ok());
    /// assert_eq!(Record::with_bounds(b"xy\tz\tw\t3\t4\t.\t.\t.\t.", bounds), Err(Refusal::Columns));
    /// # Ok::<(), Refusal>(())
    /// ```
    pub fn with_bounds(line: &'a [u8], bounds: Bounds) -> Result<Self, Refusal> {
        let record = Record::new(line)?;
        if record.bounds != bounds {
            return Err(Refusal::Columns);
        }
        Ok(record)
    }

    /// The line.
    ///
    /// ```
    /// assert_eq!(gff3_lines::Record::new(b"\t\t\t\t\t\t\t\t")?.line(), b"\t\t\t\t\t\t\t\t");
    /// # Ok::<(), gff3_lines::Refusal>(())
    /// ```
    pub fn line(&self) -> &'a [u8] {
        self.line
    }

    /// Where its columns end.
    ///
    /// ```
    /// assert_eq!(gff3_lines::Record::new(b"\t\t\t\t\t\t\t\t")?.bounds().phase_end, 8);
    /// # Ok::<(), gff3_lines::Refusal>(())
    /// ```
    pub fn bounds(&self) -> Bounds {
        self.bounds
    }

    /// A column as it stands. Column 9 holds what is left of the line, further tabs included.
    ///
    /// ```
    /// use gff3_lines::{Column, Record};
    ///
    /// let record = Record::new(b"sq%200\tb\tc\t1\t2\t.\t.\t.\td=e\tf")?;
    ///
    /// assert_eq!(record.column(Column::ReferenceSequenceName), b"sq%200");
    /// assert_eq!(record.column(Column::Attributes), b"d=e\tf");
    /// # Ok::<(), gff3_lines::Refusal>(())
    /// ```
    pub fn column(&self, column: Column) -> &'a [u8] {
        // SAFETY: the line is a slice. The bounds are its own, so that it is not refused.
        let place = unsafe { ffi::gff3_column(self.line.as_ptr(), self.line.len(), self.bounds, column as u32) };
        &self.line[place.start..place.end]
    }

    /// Column 1, decoded.
    ///
    /// ```
    /// let record = gff3_lines::Record::new(b"sq%200\tb\tc\t1\t2\t.\t.\t.\t.")?;
    ///
    /// assert_eq!(record.reference_sequence_name(), b"sq 0");
    /// # Ok::<(), gff3_lines::Refusal>(())
    /// ```
    pub fn reference_sequence_name(&self) -> Vec<u8> {
        let mut out = Vec::new();
        self.reference_sequence_name_into(&mut out);
        out
    }

    /// [`reference_sequence_name`](Self::reference_sequence_name), appended to a buffer.
    ///
    /// ```
    /// let mut out = Vec::new();
    /// gff3_lines::Record::new(b"%61\t%62\t%63\t1\t2\t.\t.\t.\t.")?.reference_sequence_name_into(&mut out);
    ///
    /// assert_eq!(out, b"a");
    /// # Ok::<(), gff3_lines::Refusal>(())
    /// ```
    pub fn reference_sequence_name_into(&self, out: &mut Vec<u8>) {
        self.text_into(Column::ReferenceSequenceName, out);
    }

    /// Column 2, decoded. A dot is plain text.
    ///
    /// ```
    /// assert_eq!(gff3_lines::Record::new(b"a\t.\tc\t1\t2\t.\t.\t.\t.")?.source(), b".");
    /// # Ok::<(), gff3_lines::Refusal>(())
    /// ```
    pub fn source(&self) -> Vec<u8> {
        let mut out = Vec::new();
        self.source_into(&mut out);
        out
    }

    /// [`source`](Self::source), appended to a buffer.
    ///
    /// ```
    /// let mut out = Vec::new();
    /// gff3_lines::Record::new(b"%61\t%62\t%63\t1\t2\t.\t.\t.\t.")?.source_into(&mut out);
    ///
    /// assert_eq!(out, b"b");
    /// # Ok::<(), gff3_lines::Refusal>(())
    /// ```
    pub fn source_into(&self, out: &mut Vec<u8>) {
        self.text_into(Column::Source, out);
    }

    /// Column 3, decoded.
    ///
    /// ```
    /// assert_eq!(gff3_lines::Record::new(b"a\tb\texon\t1\t2\t.\t.\t.\t.")?.ty(), b"exon");
    /// # Ok::<(), gff3_lines::Refusal>(())
    /// ```
    pub fn ty(&self) -> Vec<u8> {
        let mut out = Vec::new();
        self.ty_into(&mut out);
        out
    }

    /// [`ty`](Self::ty), appended to a buffer.
    ///
    /// ```
    /// let mut out = Vec::new();
    /// gff3_lines::Record::new(b"%61\t%62\t%63\t1\t2\t.\t.\t.\t.")?.ty_into(&mut out);
    ///
    /// assert_eq!(out, b"c");
    /// # Ok::<(), gff3_lines::Refusal>(())
    /// ```
    pub fn ty_into(&self, out: &mut Vec<u8>) {
        self.text_into(Column::Type, out);
    }

    /// One of columns 1 to 3, decoded, which is no longer than the three of them.
    fn text_into(&self, column: Column, out: &mut Vec<u8>) {
        // SAFETY: the line is a slice, and the buffer another.
        let text = append(out, self.bounds.type_end, |out| unsafe {
            ffi::gff3_text(
                self.line.as_ptr(),
                self.line.len(),
                self.bounds,
                column as u32,
                out.as_mut_ptr().cast(),
                out.len(),
            )
        });
        debug_assert_eq!(text, Ok(()), "the bounds are the line's own");
    }

    /// Column 4, from 1 on. Refusal: [`Position`](Refusal::Position).
    ///
    /// ```
    /// use gff3_lines::{Record, Refusal};
    ///
    /// assert_eq!(Record::new(b"a\tb\tc\t008\t2\t.\t.\t.\t.")?.start(), Ok(8));
    /// assert_eq!(Record::new(b"a\tb\tc\t0\t2\t.\t.\t.\t.")?.start(), Err(Refusal::Position));
    /// # Ok::<(), Refusal>(())
    /// ```
    pub fn start(&self) -> Result<u64, Refusal> {
        if let Some(read) = self.read {
            return Ok(read.start);
        }
        // SAFETY: the line is a slice.
        number(unsafe { ffi::gff3_start(self.line.as_ptr(), self.line.len(), self.bounds) })
    }

    /// Column 5, likewise. It may lie before the start.
    ///
    /// ```
    /// assert_eq!(gff3_lines::Record::new(b"a\tb\tc\t8\t2\t.\t.\t.\t.")?.end(), Ok(2));
    /// # Ok::<(), gff3_lines::Refusal>(())
    /// ```
    pub fn end(&self) -> Result<u64, Refusal> {
        if let Some(read) = self.read {
            return Ok(read.end);
        }
        // SAFETY: the line is a slice.
        number(unsafe { ffi::gff3_end(self.line.as_ptr(), self.line.len(), self.bounds) })
    }

    /// Column 6: the token as it stands, and `None` for a dot. Refusal: [`Score`](Refusal::Score).
    ///
    /// ```
    /// use gff3_lines::{Record, Refusal};
    ///
    /// assert_eq!(Record::new(b"a\tb\tc\t1\t2\t-1.5e3\t.\t.\t.")?.score(), Ok(Some(&b"-1.5e3"[..])));
    /// assert_eq!(Record::new(b"a\tb\tc\t1\t2\t.\t.\t.\t.")?.score(), Ok(None));
    /// assert_eq!(Record::new(b"a\tb\tc\t1\t2\t\t.\t.\t.")?.score(), Err(Refusal::Score));
    /// # Ok::<(), Refusal>(())
    /// ```
    pub fn score(&self) -> Result<Option<&'a [u8]>, Refusal> {
        if let Some(read) = self.read {
            return Ok(read.score);
        }
        // SAFETY: the line is a slice.
        let score = unsafe { ffi::gff3_score(self.line.as_ptr(), self.line.len(), self.bounds) };
        Refusal::check(score.refused)?;
        Ok((score.missing == 0).then(|| &self.line[score.start..score.end]))
    }

    /// Column 7. Refusal: [`Strand`](Refusal::Strand).
    ///
    /// ```
    /// use gff3_lines::{Record, Refusal};
    ///
    /// assert_eq!(Record::new(b"a\tb\tc\t1\t2\t.\t++\t.\t.")?.strand(), Err(Refusal::Strand));
    /// # Ok::<(), Refusal>(())
    /// ```
    pub fn strand(&self) -> Result<Strand, Refusal> {
        if let Some(read) = self.read {
            return Ok(read.strand);
        }
        // SAFETY: the line is a slice.
        let strand = unsafe { ffi::gff3_strand(self.line.as_ptr(), self.line.len(), self.bounds) };
        Ok(Strand::of(number(strand)?))
    }

    /// Column 8, and `None` for a dot. Refusal: [`Phase`](Refusal::Phase).
    ///
    /// ```
    /// use gff3_lines::{Record, Refusal};
    ///
    /// assert_eq!(Record::new(b"a\tb\tc\t1\t2\t.\t.\t.\t.")?.phase(), Ok(None));
    /// assert_eq!(Record::new(b"a\tb\tc\t1\t2\t.\t.\t3\t.")?.phase(), Err(Refusal::Phase));
    /// # Ok::<(), Refusal>(())
    /// ```
    pub fn phase(&self) -> Result<Option<Phase>, Refusal> {
        if let Some(read) = self.read {
            return Ok(read.phase);
        }
        // SAFETY: the line is a slice.
        let phase = unsafe { ffi::gff3_phase(self.line.as_ptr(), self.line.len(), self.bounds) };
        Ok(Phase::of(number(phase)?))
    }

    /// Column 9.
    ///
    /// ```
    /// let record = gff3_lines::Record::new(b"a\tb\tc\t1\t2\t.\t.\t.\tID=x")?;
    ///
    /// assert_eq!(record.attributes().get(b"ID")?, Some(&b"x"[..]));
    /// # Ok::<(), gff3_lines::Refusal>(())
    /// ```
    pub fn attributes(&self) -> Attributes<'a> {
        Attributes(self.column(Column::Attributes))
    }
}

/// The value, or the refusal.
pub(crate) fn number(number: ffi::Number) -> Result<u64, Refusal> {
    Refusal::check(number.refused).map(|()| number.value)
}
