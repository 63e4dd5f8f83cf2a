//! Stands in for record/attributes/field/tag.rs: a tag is percent-decoded; decoded tags, also in lookups, rest on it.

use std::{borrow::Cow, io};

use bstr::BStr;

use super::Value;
use crate::{io::api::Door, record::percent_decode};

pub(crate) fn parse_tag(src: &[u8]) -> Cow<'_, BStr> {
    percent_decode(src)
}

impl Door {
    /// `next` of record/attributes/field.rs.
    pub(crate) fn next<'a>(src: &mut &'a [u8]) -> Option<io::Result<(&'a [u8], &'a [u8])>> {
        super::next(src)
    }

    /// `parse_tag` above.
    pub(crate) fn parse_tag(src: &[u8]) -> Cow<'_, BStr> {
        parse_tag(src)
    }

    /// `parse_value` of record/attributes/field/value.rs.
    pub(crate) fn parse_value(src: &[u8]) -> Value<'_> {
        super::parse_value(src)
    }

    /// `percent_decode` of record.rs.
    pub(crate) fn percent_decode(src: &[u8]) -> Cow<'_, BStr> {
        percent_decode(src)
    }
}
