//! Stands in for directive_buf/value.rs, the four kinds of a directive's value; no answer rests on it.

pub mod genome_build;
pub mod gff_version;
pub mod sequence_region;

use bstr::BString;

pub use self::{genome_build::GenomeBuild, gff_version::GffVersion, sequence_region::SequenceRegion};

/// A directive's value.
#[derive(Clone, Debug, Eq, PartialEq)]
pub enum Value {
    /// A version.
    GffVersion(GffVersion),
    /// A region.
    SequenceRegion(SequenceRegion),
    /// A build.
    GenomeBuild(GenomeBuild),
    /// Any other text.
    String(BString),
}
