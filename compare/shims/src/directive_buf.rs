//! Stands in for directive_buf.rs, a key and perhaps a value; a directive to be written passes through it.

pub mod key;
pub mod value;

use bstr::{BStr, BString};

pub use self::value::Value;
use crate::Directive;

/// A directive that owns its parts.
#[derive(Clone, Debug, Eq, PartialEq)]
pub struct DirectiveBuf {
    key: BString,
    value: Option<Value>,
}

impl DirectiveBuf {
    /// A directive of a key and perhaps a value.
    pub fn new(key: &[u8], value: Option<Value>) -> Self {
        Self { key: key.into(), value }
    }

    /// The key.
    pub fn key(&self) -> &BStr {
        self.key.as_ref()
    }

    /// The value.
    pub fn value(&self) -> Option<&Value> {
        self.value.as_ref()
    }
}

impl From<Directive<'_>> for DirectiveBuf {
    fn from(directive: Directive<'_>) -> Self {
        Self {
            key: directive.key().into(),
            value: directive.value().map(|s| Value::String(s.into())),
        }
    }
}
