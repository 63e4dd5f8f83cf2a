//! Stands in for line_buf.rs, a line that owns its parts; no answer rests on it.

use bstr::BString;

use crate::{DirectiveBuf, feature::RecordBuf};

/// A line that owns its parts.
#[derive(Clone, Debug, PartialEq)]
pub enum LineBuf {
    /// A directive.
    Directive(DirectiveBuf),
    /// A comment's text.
    Comment(BString),
    /// A record.
    Record(RecordBuf),
}
