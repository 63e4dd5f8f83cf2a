//! Stands in for feature/record_buf/attributes/field.rs: one string or several; values to be written pass through it.

use std::{borrow::Cow, io};

use bstr::{BStr, BString};

use crate::feature::record::attributes::field::{Value as ValueRef, value::Array};

/// An attribute's value.
#[derive(Clone, Debug, Eq, PartialEq)]
pub enum Value {
    /// One string.
    String(BString),
    /// Several.
    Array(Vec<BString>),
}

impl<'a> From<&'a Value> for ValueRef<'a> {
    fn from(value: &'a Value) -> Self {
        match value {
            Value::String(s) => Self::String(Cow::Borrowed(s.as_ref())),
            Value::Array(values) => Self::Array(Box::new(Elements(values))),
        }
    }
}

struct Elements<'a>(&'a [BString]);

impl<'a> Array<'a> for Elements<'a> {
    fn iter(&self) -> Box<dyn Iterator<Item = io::Result<Cow<'a, BStr>>> + 'a> {
        Box::new(self.0.iter().map(|s| Ok(Cow::Borrowed(s.as_ref()))))
    }
}
