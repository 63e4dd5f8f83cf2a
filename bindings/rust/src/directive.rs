//! The typed values of three directives.

use std::{fmt, str::FromStr};

use crate::{Refusal, ffi};

/// The value of `gff-version`.
///
/// ```
/// use gff3_lines::Version;
///
/// assert_eq!(Version::parse(b"3.1"), Ok(Version { major: 3, minor: Some(1), patch: None }));
/// ```
#[derive(Clone, Copy, Debug, PartialEq, Eq, Hash)]
pub struct Version {
    /// It need not be 3.
    pub major: u32,
    /// Behind the first dot, if there is one.
    pub minor: Option<u32>,
    /// Behind the second dot, if there is one.
    pub patch: Option<u32>,
}

impl Version {
    /// At most three parts, cut at the first two dots; each may begin with one `+`. Refusals, from left to right:
    /// [`Empty`](Refusal::Empty), [`Major`](Refusal::Major), [`Minor`](Refusal::Minor), [`Patch`](Refusal::Patch).
    ///
    /// ```
    /// use gff3_lines::{Refusal, Version};
    ///
    /// assert_eq!(Version::parse(b"+3").map(|version| version.major), Ok(3));
    /// assert_eq!(Version::parse(b"3."), Err(Refusal::Minor));
    /// assert_eq!(Version::parse(b"3.1.26.4"), Err(Refusal::Patch));
    /// ```
    pub fn parse(text: &[u8]) -> Result<Self, Refusal> {
        // SAFETY: the text is a slice.
        let version = unsafe { ffi::gff3_version(text.as_ptr(), text.len()) };
        Refusal::check(version.refused)?;
        Ok(Version {
            major: version.major as u32,
            minor: (version.parts > 1).then_some(version.minor as u32),
            patch: (version.parts > 2).then_some(version.patch as u32),
        })
    }
}

impl TryFrom<&[u8]> for Version {
    type Error = Refusal;

    fn try_from(text: &[u8]) -> Result<Self, Refusal> {
        Version::parse(text)
    }
}

impl FromStr for Version {
    type Err = Refusal;

    fn from_str(text: &str) -> Result<Self, Refusal> {
        Version::parse(text.as_bytes())
    }
}

/// The parts with dots between them; a patch without a minor is left out.
impl fmt::Display for Version {
    fn fmt(&self, f: &mut fmt::Formatter<'_>) -> fmt::Result {
        match (self.minor, self.patch) {
            (None, _) => write!(f, "{}", self.major),
            (Some(minor), None) => write!(f, "{}.{minor}", self.major),
            (Some(minor), Some(patch)) => write!(f, "{}.{minor}.{patch}", self.major),
        }
    }
}

/// The value of `sequence-region`.
///
/// ```
/// use gff3_lines::Region;
///
/// assert_eq!(Region::parse(b"sq0 8 13"), Ok(Region { name: b"sq0", start: 8, end: 13 }));
/// ```
#[derive(Clone, Copy, Debug, PartialEq, Eq, Hash)]
pub struct Region<'a> {
    /// As it stands: it is not percent-decoded.
    pub name: &'a [u8],
    /// From 1 on.
    pub start: u64,
    /// From 1 on; it may lie before the start.
    pub end: u64,
}

impl<'a> Region<'a> {
    /// Three words between ASCII white space; more are ignored. Refusals, from left to right: [`Empty`](Refusal::Empty),
    /// [`RegionNameMissing`](Refusal::RegionNameMissing), [`RegionStartMissing`](Refusal::RegionStartMissing),
    /// [`RegionStart`](Refusal::RegionStart), [`RegionEndMissing`](Refusal::RegionEndMissing), [`RegionEnd`](Refusal::RegionEnd).
    ///
    /// ```
    /// use gff3_lines::{Refusal, Region};
    ///
    /// assert_eq!(Region::parse(b"sq0 8"), Err(Refusal::RegionEndMissing));
    /// assert_eq!(Region::parse(b"sq0 0 9"), Err(Refusal::RegionStart));
    /// ```
    pub fn parse(text: &'a [u8]) -> Result<Self, Refusal> {
        // SAFETY: the text is a slice.
        let region = unsafe { ffi::gff3_region(text.as_ptr(), text.len()) };
        Refusal::check(region.refused)?;
        Ok(Region {
            name: &text[region.name_start..region.name_end],
            start: region.start,
            end: region.end,
        })
    }
}

impl<'a> TryFrom<&'a [u8]> for Region<'a> {
    type Error = Refusal;

    fn try_from(text: &'a [u8]) -> Result<Self, Refusal> {
        Region::parse(text)
    }
}

/// The value of `genome-build`.
///
/// ```
/// use gff3_lines::Build;
///
/// assert_eq!(Build::parse(b"NCBI B36"), Ok(Build { source: b"NCBI", name: b"B36" }));
/// ```
#[derive(Clone, Copy, Debug, PartialEq, Eq, Hash)]
pub struct Build<'a> {
    /// The first word, as it stands.
    pub source: &'a [u8],
    /// The second word, as it stands.
    pub name: &'a [u8],
}

impl<'a> Build<'a> {
    /// Two words between ASCII white space; more are ignored. Refusals, from left to right: [`Empty`](Refusal::Empty),
    /// [`BuildSourceMissing`](Refusal::BuildSourceMissing), [`BuildNameMissing`](Refusal::BuildNameMissing).
    ///
    /// ```
    /// use gff3_lines::{Build, Refusal};
    ///
    /// assert_eq!(Build::parse(b" "), Err(Refusal::BuildSourceMissing));
    /// assert_eq!(Build::parse(b"NCBI"), Err(Refusal::BuildNameMissing));
    /// ```
    pub fn parse(text: &'a [u8]) -> Result<Self, Refusal> {
        // SAFETY: the text is a slice.
        let build = unsafe { ffi::gff3_build(text.as_ptr(), text.len()) };
        Refusal::check(build.refused)?;
        Ok(Build {
            source: &text[build.source_start..build.source_end],
            name: &text[build.name_start..build.name_end],
        })
    }
}

impl<'a> TryFrom<&'a [u8]> for Build<'a> {
    type Error = Refusal;

    fn try_from(text: &'a [u8]) -> Result<Self, Refusal> {
        Build::parse(text)
    }
}
