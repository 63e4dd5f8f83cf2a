//! Stands in for noodles-csi's query, which yields no record here; no answer rests on it.

use std::{io, marker::PhantomData};

use noodles_core::Region;

use crate::{Chunk, Header};

/// A query.
pub struct Query<'r, R>(PhantomData<&'r mut R>);

/// A record found by a query.
pub struct Record(Vec<u8>);

impl AsRef<[u8]> for Record {
    fn as_ref(&self) -> &[u8] {
        &self.0
    }
}

impl<'r, R> Query<'r, R> {
    /// A query over parts of a file.
    pub fn new(_reader: &'r mut R, _chunks: Vec<Chunk>) -> Self {
        Self(PhantomData)
    }

    /// The same, with its records indexed.
    pub fn indexed_records(self, _header: &Header) -> Self {
        self
    }

    /// The records of the region.
    pub fn filter_by_region(self, _region: &'r Region) -> Self {
        self
    }
}

impl<R> Iterator for Query<'_, R> {
    type Item = io::Result<Record>;

    fn next(&mut self) -> Option<Self::Item> {
        None
    }
}
