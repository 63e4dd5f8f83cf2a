//! Stands in for feature/record_buf.rs, a record that owns its fields; a record to be written passes through it.

pub mod attributes;
mod builder;
mod convert;

use std::{borrow::Cow, io};

use bstr::{BStr, BString};
use noodles_core::Position;

pub use self::{attributes::Attributes, builder::Builder};
use super::record::{Attributes as AttributesRef, Phase, Record, Strand};

/// A record that owns its fields.
#[derive(Clone, Debug, PartialEq)]
pub struct RecordBuf {
    reference_sequence_name: BString,
    source: BString,
    ty: BString,
    start: Position,
    end: Position,
    score: Option<f32>,
    strand: Strand,
    phase: Option<Phase>,
    attributes: Attributes,
}

impl RecordBuf {
    /// A builder of records.
    pub fn builder() -> Builder {
        Builder::default()
    }
}

impl Default for RecordBuf {
    fn default() -> Self {
        Self {
            reference_sequence_name: BString::default(),
            source: BString::default(),
            ty: BString::default(),
            start: Position::MIN,
            end: Position::MIN,
            score: None,
            strand: Strand::default(),
            phase: None,
            attributes: Attributes::default(),
        }
    }
}

impl Record for RecordBuf {
    fn reference_sequence_name(&self) -> Cow<'_, BStr> {
        Cow::Borrowed(self.reference_sequence_name.as_ref())
    }

    fn source(&self) -> Cow<'_, BStr> {
        Cow::Borrowed(self.source.as_ref())
    }

    fn ty(&self) -> Cow<'_, BStr> {
        Cow::Borrowed(self.ty.as_ref())
    }

    fn feature_start(&self) -> io::Result<Position> {
        Ok(self.start)
    }

    fn feature_end(&self) -> io::Result<Position> {
        Ok(self.end)
    }

    fn score(&self) -> Option<io::Result<f32>> {
        self.score.map(Ok)
    }

    fn strand(&self) -> io::Result<Strand> {
        Ok(self.strand)
    }

    fn phase(&self) -> Option<io::Result<Phase>> {
        self.phase.map(Ok)
    }

    fn attributes(&self) -> Box<dyn AttributesRef + '_> {
        Box::new(&self.attributes)
    }
}
