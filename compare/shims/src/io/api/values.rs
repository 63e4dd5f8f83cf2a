//! The three typed values of directives, read from UTF-8 text.

use crate::directive_buf::value::{
    GenomeBuild, GffVersion, SequenceRegion, genome_build, gff_version, sequence_region,
};

/// Major, minor, patch.
pub type Version = (u32, Option<u32>, Option<u32>);

/// Major, minor and patch; 6, 7, 8 or 9. Calls `GffVersion::from_str` of directive_buf/value/gff_version.rs.
pub fn parse_version(text: &str) -> Result<Version, u8> {
    use gff_version::ParseError as E;

    match text.parse::<GffVersion>() {
        Ok(version) => Ok((version.major(), version.minor(), version.patch())),
        Err(E::Empty) => Err(6),
        Err(E::MissingMajorVersion | E::InvalidMajorVersion(_)) => Err(7),
        Err(E::InvalidMinorVersion(_)) => Err(8),
        Err(E::InvalidPatchVersion(_)) => Err(9),
    }
}

/// Name, start and end; 6, or 10 to 14. Calls `SequenceRegion::from_str` of directive_buf/value/sequence_region.rs.
pub fn parse_region(text: &str) -> Result<(Vec<u8>, u64, u64), u8> {
    use sequence_region::ParseError as E;

    match text.parse::<SequenceRegion>() {
        Ok(region) => Ok((
            region.reference_sequence_name().to_vec(),
            usize::from(region.start()) as u64,
            usize::from(region.end()) as u64,
        )),
        Err(E::Empty) => Err(6),
        Err(E::MissingReferenceSequenceName) => Err(10),
        Err(E::MissingStart) => Err(11),
        Err(E::InvalidStart(_)) => Err(12),
        Err(E::MissingEnd) => Err(13),
        Err(E::InvalidEnd(_)) => Err(14),
    }
}

/// Source and name; 6, 15 or 16. Calls `GenomeBuild::from_str` of directive_buf/value/genome_build.rs.
pub fn parse_build(text: &str) -> Result<(Vec<u8>, Vec<u8>), u8> {
    use genome_build::ParseError as E;

    match text.parse::<GenomeBuild>() {
        Ok(build) => Ok((build.source().to_vec(), build.name().to_vec())),
        Err(E::Empty) => Err(6),
        Err(E::MissingSource) => Err(15),
        Err(E::MissingName) => Err(16),
    }
}
