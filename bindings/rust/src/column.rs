//! The columns by name, and what columns 7 and 8 hold.

use std::fmt;

use crate::Refusal;

/// A column, by its number.
///
/// ```
/// use gff3_lines::{Column, Refusal};
///
/// assert_eq!(Column::try_from(7)?, Column::Strand);
/// assert_eq!(u8::from(Column::Strand), 7);
/// assert_eq!(Column::try_from(10), Err(Refusal::Columns));
/// assert_eq!(Column::ReferenceSequenceName.to_string(), "seqid");
/// # Ok::<(), Refusal>(())
/// ```
#[derive(Clone, Copy, Debug, PartialEq, Eq, PartialOrd, Ord, Hash)]
pub enum Column {
    /// Percent-encoded.
    ReferenceSequenceName = 1,
    /// Percent-encoded.
    Source = 2,
    /// Percent-encoded.
    Type = 3,
    /// A position.
    Start = 4,
    /// A position.
    End = 5,
    /// A token, or a dot.
    Score = 6,
    /// One of `.+-?`.
    Strand = 7,
    /// One of `.012`.
    Phase = 8,
    /// The rest of the line.
    Attributes = 9,
}

impl Column {
    /// The nine columns, from left to right.
    ///
    /// ```
    /// use gff3_lines::{Column, Record};
    ///
    /// let record = Record::new(b"a\tb\tc\t1\t2\t.\t.\t.\td=e")?;
    ///
    /// for column in Column::ALL {
    ///     println!("{column}: {}", record.column(column).escape_ascii());
    /// }
    /// # Ok::<(), gff3_lines::Refusal>(())
    /// ```
    pub const ALL: [Column; 9] = [
        Column::ReferenceSequenceName,
        Column::Source,
        Column::Type,
        Column::Start,
        Column::End,
        Column::Score,
        Column::Strand,
        Column::Phase,
        Column::Attributes,
    ];
}

/// From the number, 1 to 9. Refusal: [`Columns`](Refusal::Columns).
impl TryFrom<u8> for Column {
    type Error = Refusal;

    fn try_from(number: u8) -> Result<Self, Refusal> {
        let column = Column::ALL.into_iter().find(|column| u8::from(*column) == number);
        column.ok_or(Refusal::Columns)
    }
}

/// The number, 1 to 9.
impl From<Column> for u8 {
    fn from(column: Column) -> u8 {
        column as u8
    }
}

/// The name that the GFF3 specification has for it.
impl fmt::Display for Column {
    fn fmt(&self, f: &mut fmt::Formatter<'_>) -> fmt::Result {
        f.pad(match self {
            Column::ReferenceSequenceName => "seqid",
            Column::Source => "source",
            Column::Type => "type",
            Column::Start => "start",
            Column::End => "end",
            Column::Score => "score",
            Column::Strand => "strand",
            Column::Phase => "phase",
            Column::Attributes => "attributes",
        })
    }
}

/// A strand.
///
/// ```
/// use gff3_lines::{Refusal, Strand};
///
/// assert_eq!(Strand::try_from('-')?, Strand::Reverse);
/// assert_eq!(Strand::try_from(b'-')?, Strand::Reverse);
/// assert_eq!(Strand::Reverse.to_string(), "-");
/// assert_eq!(Strand::try_from('*'), Err(Refusal::Strand));
/// # Ok::<(), Refusal>(())
/// ```
#[derive(Clone, Copy, Debug, PartialEq, Eq, PartialOrd, Ord, Hash)]
pub enum Strand {
    /// `.`
    None = 0,
    /// `+`
    Forward = 1,
    /// `-`
    Reverse = 2,
    /// `?`
    Unknown = 3,
}

impl Strand {
    /// The strand of the library's number.
    pub(crate) fn of(number: u64) -> Self {
        match number {
            0 => Strand::None,
            1 => Strand::Forward,
            2 => Strand::Reverse,
            _ => Strand::Unknown,
        }
    }
}

/// From the sign in column 7. Refusal: [`Strand`](Refusal::Strand).
impl TryFrom<char> for Strand {
    type Error = Refusal;

    fn try_from(sign: char) -> Result<Self, Refusal> {
        match sign {
            '.' => Ok(Strand::None),
            '+' => Ok(Strand::Forward),
            '-' => Ok(Strand::Reverse),
            '?' => Ok(Strand::Unknown),
            _ => Err(Refusal::Strand),
        }
    }
}

/// From the byte in column 7. Refusal: [`Strand`](Refusal::Strand).
impl TryFrom<u8> for Strand {
    type Error = Refusal;

    fn try_from(byte: u8) -> Result<Self, Refusal> {
        char::from(byte).try_into()
    }
}

/// The sign in column 7.
impl From<Strand> for char {
    fn from(strand: Strand) -> char {
        match strand {
            Strand::None => '.',
            Strand::Forward => '+',
            Strand::Reverse => '-',
            Strand::Unknown => '?',
        }
    }
}

/// The sign in column 7.
impl fmt::Display for Strand {
    fn fmt(&self, f: &mut fmt::Formatter<'_>) -> fmt::Result {
        char::from(*self).fmt(f)
    }
}

/// A phase: how many bases to pass over to the next codon.
///
/// ```
/// use gff3_lines::{Phase, Refusal};
///
/// assert_eq!(Phase::try_from(2)?, Phase::Two);
/// assert_eq!(u8::from(Phase::Two), 2);
/// assert_eq!(Phase::Two.to_string(), "2");
/// assert_eq!(Phase::try_from(3), Err(Refusal::Phase));
/// # Ok::<(), Refusal>(())
/// ```
#[derive(Clone, Copy, Debug, PartialEq, Eq, PartialOrd, Ord, Hash)]
pub enum Phase {
    /// `0`
    Zero = 0,
    /// `1`
    One = 1,
    /// `2`
    Two = 2,
}

impl Phase {
    /// The phase of the library's number, or none.
    pub(crate) fn of(number: u64) -> Option<Self> {
        match number {
            0 => Some(Phase::Zero),
            1 => Some(Phase::One),
            2 => Some(Phase::Two),
            _ => None,
        }
    }
}

/// From the number of bases, 0 to 2. Refusal: [`Phase`](Refusal::Phase).
impl TryFrom<u8> for Phase {
    type Error = Refusal;

    fn try_from(bases: u8) -> Result<Self, Refusal> {
        Phase::of(bases.into()).ok_or(Refusal::Phase)
    }
}

/// The number of bases.
impl From<Phase> for u8 {
    fn from(phase: Phase) -> u8 {
        phase as u8
    }
}

/// The digit in column 8.
impl fmt::Display for Phase {
    fn fmt(&self, f: &mut fmt::Formatter<'_>) -> fmt::Result {
        u8::from(*self).fmt(f)
    }
}
