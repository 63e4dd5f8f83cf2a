//! Stands in for feature/record_buf/builder.rs, which sets the fields one by one; no answer rests on it.

use bstr::BString;
use noodles_core::Position;

use super::{Attributes, RecordBuf};
use crate::feature::record::{Phase, Strand};

/// A builder of records.
#[derive(Default)]
pub struct Builder(RecordBuf);

impl Builder {
    /// Sets column 1.
    pub fn set_reference_sequence_name(mut self, name: BString) -> Self {
        self.0.reference_sequence_name = name;
        self
    }

    /// Sets column 2.
    pub fn set_source(mut self, source: BString) -> Self {
        self.0.source = source;
        self
    }

    /// Sets column 3.
    pub fn set_type(mut self, ty: BString) -> Self {
        self.0.ty = ty;
        self
    }

    /// Sets column 4.
    pub fn set_start(mut self, start: Position) -> Self {
        self.0.start = start;
        self
    }

    /// Sets column 5.
    pub fn set_end(mut self, end: Position) -> Self {
        self.0.end = end;
        self
    }

    /// Sets column 6.
    pub fn set_score(mut self, score: f32) -> Self {
        self.0.score = Some(score);
        self
    }

    /// Sets column 7.
    pub fn set_strand(mut self, strand: Strand) -> Self {
        self.0.strand = strand;
        self
    }

    /// Sets column 8.
    pub fn set_phase(mut self, phase: Phase) -> Self {
        self.0.phase = Some(phase);
        self
    }

    /// Sets column 9.
    pub fn set_attributes(mut self, attributes: Attributes) -> Self {
        self.0.attributes = attributes;
        self
    }

    /// The record.
    pub fn build(self) -> RecordBuf {
        self.0
    }
}
