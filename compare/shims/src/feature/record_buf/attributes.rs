//! Stands in for feature/record_buf/attributes.rs: attributes in order, equal tags kept; those to be written pass through it.

pub mod field;

use std::{borrow::Cow, io};

use bstr::{BStr, BString};

use self::field::Value;
use crate::feature::record::attributes::{self, field::Value as ValueRef};

/// Attributes that own their parts.
#[derive(Clone, Debug, Default, Eq, PartialEq)]
pub struct Attributes(Vec<(BString, Value)>);

impl FromIterator<(BString, Value)> for Attributes {
    fn from_iter<T: IntoIterator<Item = (BString, Value)>>(iter: T) -> Self {
        Self(iter.into_iter().collect())
    }
}

impl attributes::Attributes for &Attributes {
    fn is_empty(&self) -> bool {
        self.0.is_empty()
    }

    fn get(&self, tag: &[u8]) -> Option<io::Result<ValueRef<'_>>> {
        let (_, value) = self.0.iter().find(|(t, _)| t == tag)?;
        Some(Ok(value.into()))
    }

    fn iter(&self) -> Box<dyn Iterator<Item = io::Result<(Cow<'_, BStr>, ValueRef<'_>)>> + '_> {
        Box::new(self.0.iter().map(|(t, v)| Ok((Cow::Borrowed(t.as_ref()), v.into()))))
    }
}
