//! Stands in for noodles-core's region, which only the query by index names; no answer rests on it.

use bstr::{BStr, BString};

/// A part of a reference sequence.
pub struct Region(BString);

/// The positions of a region.
#[derive(Clone, Copy)]
pub struct Interval;

impl Region {
    /// The name of the reference sequence.
    pub fn name(&self) -> &BStr {
        self.0.as_ref()
    }

    /// The positions.
    pub fn interval(&self) -> Interval {
        Interval
    }
}
