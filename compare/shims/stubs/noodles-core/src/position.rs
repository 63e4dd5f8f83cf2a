//! Stands in for noodles-core's position: a number from 1 up, read from text by the standard integer reader.

use std::{
    fmt,
    num::{NonZero, ParseIntError, TryFromIntError},
    str::FromStr,
};

/// A position, counted from 1.
#[derive(Clone, Copy, Debug, Eq, Hash, Ord, PartialEq, PartialOrd)]
pub struct Position(NonZero<usize>);

impl Position {
    /// The first position.
    pub const MIN: Self = Self(NonZero::<usize>::MIN);
}

impl fmt::Display for Position {
    fn fmt(&self, f: &mut fmt::Formatter<'_>) -> fmt::Result {
        self.0.fmt(f)
    }
}

impl FromStr for Position {
    type Err = ParseIntError;

    fn from_str(s: &str) -> Result<Self, Self::Err> {
        s.parse().map(Self)
    }
}

impl TryFrom<usize> for Position {
    type Error = TryFromIntError;

    fn try_from(n: usize) -> Result<Self, Self::Error> {
        NonZero::try_from(n).map(Self)
    }
}

impl From<Position> for usize {
    fn from(position: Position) -> Self {
        position.0.get()
    }
}
