//! Stands in for noodles-csi, which only the query by index names; no answer rests on it.

pub mod io;

use std::io::Result;

use bstr::BStr;
use noodles_core::region::Interval;

/// An index by bins.
pub trait BinningIndex {
    /// The header.
    fn header(&self) -> Option<&Header>;

    /// The parts of the file that may hold records of the interval.
    fn query(&self, reference_sequence_id: usize, interval: Interval) -> Result<Vec<Chunk>>;
}

/// A part of a file.
pub struct Chunk;

/// The header of an index.
pub struct Header(Names);

impl Header {
    /// The names of the reference sequences.
    pub fn reference_sequence_names(&self) -> &Names {
        &self.0
    }
}

/// The names of reference sequences. There are none.
pub struct Names;

impl Names {
    /// The place of a name.
    pub fn get_index_of(&self, _name: &BStr) -> Option<usize> {
        None
    }
}
