//! Why a reader or a writer does not answer.

use std::{error, fmt};

/// The enum as it stands, and what follows from its numbers and from the words of its documentation.
macro_rules! in_words {
    ($(#[$mark:meta])* pub enum Refusal { $($(#[doc = $words:literal])+ $Variant:ident = $number:literal,)+ }) => {
        $(#[$mark])*
        pub enum Refusal {
            $($(#[doc = $words])+ $Variant = $number,)+
        }

        impl Refusal {
            /// The refusal of a number; `None` where there is none.
            ///
            /// ```
            /// use gff3_lines::Refusal;
            ///
            /// assert_eq!(Refusal::from_number(5), Some(Refusal::Attribute));
            /// assert_eq!(Refusal::from_number(0), None);
            /// ```
            pub fn from_number(number: u32) -> Option<Self> {
                match number {
                    $($number => Some(Refusal::$Variant),)+
                    _ => None,
                }
            }

            /// The reason, in words.
            ///
            /// ```
            /// assert_eq!(gff3_lines::Refusal::Strand.reason(), "not a strand");
            /// ```
            pub fn reason(self) -> &'static str {
                match self {
                    $(Refusal::$Variant => concat!($($words),+).trim_start(),)+
                }
            }
        }
    };
}

in_words! {
/// Why a call does not answer, by the numbers of the rules.
///
/// No call here answers [`Refusal::Room`], since a buffer that is too short grows, nor [`Refusal::Hold`], since [`Parts`](crate::Parts)
/// brings its own. The numbers have a gap before the last.
///
/// ```
/// use gff3_lines::{Refusal, position};
///
/// let refusal = position(b"0").unwrap_err();
///
/// assert_eq!(refusal, Refusal::Position);
/// assert_eq!(refusal.to_string(), "not a position, or a position of zero (refusal 2)");
/// ```
#[derive(Clone, Copy, Debug, PartialEq, Eq, Hash)]
#[non_exhaustive]
pub enum Refusal {
    /// the line has fewer than eight tabs, the bounds are not its own, or there is no such column
    Columns = 1,
    /// not a position, or a position of zero
    Position = 2,
    /// not a strand
    Strand = 3,
    /// not a phase
    Phase = 4,
    /// text is left in column 9 without an equals sign
    Attribute = 5,
    /// the text of a version, a region or a build is empty
    Empty = 6,
    /// the version's major part is not a number
    Major = 7,
    /// the version's minor part is not a number
    Minor = 8,
    /// the version's patch part is not a number, or stands without a minor part
    Patch = 9,
    /// the region has no name
    RegionNameMissing = 10,
    /// the region has no start
    RegionStartMissing = 11,
    /// the region's start is not a position
    RegionStart = 12,
    /// the region has no end
    RegionEndMissing = 13,
    /// the region's end is not a position
    RegionEnd = 14,
    /// the build has no source
    BuildSourceMissing = 15,
    /// the build has no name
    BuildNameMissing = 16,
    /// not a score
    Score = 17,
    /// a CDS has no phase
    PhaseMissing = 18,
    /// the directive's key has white space in it
    Key = 19,
    /// a text that would not read back: a line end in it, a comment that begins with #, or a region's or build's name that is
    /// empty or has white space in it
    Text = 20,
    /// a version, a region or a build under another directive's key
    ValueKey = 21,
    /// the buffer is too short
    Room = 22,
    /// not a field sheet
    Sheet = 23,
    /// the line or the text is too long
    TooLong = 24,
    /// the line has more than 65,536 bytes
    LineTooLong = 25,
    /// the lengths add up to more than 18446744073709551615
    Sum = 26,
    /// the hold has not 65,536 bytes, or the state says that it holds more
    Hold = 34,
}
}

impl Refusal {
    /// The number, from 1 on.
    ///
    /// ```
    /// assert_eq!(gff3_lines::Refusal::TooLong.number(), 24);
    /// ```
    pub fn number(self) -> u32 {
        self as u32
    }

    /// `Err` with the refusal of the library's number; 0 is none.
    pub(crate) fn check(refused: u64) -> Result<(), Self> {
        if refused == 0 {
            return Ok(());
        }
        let refusal = u32::try_from(refused).ok().and_then(Refusal::from_number);
        Err(refusal.expect("the library is of this crate's version, and has no other refusals"))
    }
}

impl fmt::Display for Refusal {
    fn fmt(&self, f: &mut fmt::Formatter<'_>) -> fmt::Result {
        write!(f, "{} (refusal {})", self.reason(), self.number())
    }
}

impl error::Error for Refusal {}
