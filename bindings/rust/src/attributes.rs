//! Column 9.

use std::iter::FusedIterator;

use crate::{Refusal, ffi};

/// The text of column 9.
///
/// A tag runs to the next `=`, and its value to the next `;` or the end. So `a=1;b;c=2` has the tags `a` and `b;c`.
///
/// ```
/// let attributes = gff3_lines::Attributes(b"ID=a;Parent=b,c");
///
/// assert_eq!(attributes.get(b"Parent")?, Some(&b"b,c"[..]));
/// for field in &attributes {
///     let field = field?;
///     println!("{} has {} values", field.tag.escape_ascii(), field.values().count());
/// }
/// # Ok::<(), gff3_lines::Refusal>(())
/// ```
#[derive(Clone, Copy, Debug, PartialEq, Eq, Hash)]
pub struct Attributes<'a>(pub &'a [u8]);

impl<'a> Attributes<'a> {
    /// Whether there are none: the column is a dot or has no byte.
    ///
    /// ```
    /// assert!(gff3_lines::Attributes(b".").is_empty());
    /// assert!(!gff3_lines::Attributes(b"..").is_empty());
    /// ```
    pub fn is_empty(self) -> bool {
        // SAFETY: the column is a slice.
        unsafe { ffi::gff3_no_attributes(self.0.as_ptr(), self.0.len()) != 0 }
    }

    /// The attributes in order, as they stand. [`Refusal::Attribute`], where text is left without `=`, is the last that the iterator
    /// gives. A loop over the column itself is a loop over these.
    ///
    /// ```
    /// use gff3_lines::{Attributes, Field, Refusal};
    ///
    /// let mut fields = Attributes(b"a=1;b").fields();
    ///
    /// assert_eq!(fields.next(), Some(Ok(Field { tag: b"a", value: b"1" })));
    /// assert_eq!(fields.next(), Some(Err(Refusal::Attribute)));
    /// assert_eq!(fields.next(), None);
    /// ```
    pub fn fields(self) -> Fields<'a> {
        Fields {
            column: self.0,
            at: Some(0),
        }
    }

    /// The value, as it stands, of the first attribute whose decoded tag is `tag`; `None` where there is none. Refusal:
    /// [`Attribute`](Refusal::Attribute), text is left without `=` and no match comes before it.
    ///
    /// ```
    /// use gff3_lines::{Attributes, Refusal};
    ///
    /// assert_eq!(Attributes(b"a%3D=1;a%3D=2;b").get(b"a="), Ok(Some(&b"1"[..])));
    /// assert_eq!(Attributes(b"a=1;").get(b"b"), Ok(None));
    /// assert_eq!(Attributes(b"a=1;b").get(b"b"), Err(Refusal::Attribute));
    /// ```
    pub fn get(self, tag: &[u8]) -> Result<Option<&'a [u8]>, Refusal> {
        // SAFETY: the column and the tag are slices.
        let found = unsafe { ffi::gff3_find_tag(self.0.as_ptr(), self.0.len(), tag.as_ptr(), tag.len()) };
        Refusal::check(found.refused)?;
        Ok((found.found != 0).then(|| &self.0[found.start..found.end]))
    }
}

impl<'a> IntoIterator for Attributes<'a> {
    type Item = Result<Field<'a>, Refusal>;
    type IntoIter = Fields<'a>;

    fn into_iter(self) -> Fields<'a> {
        self.fields()
    }
}

impl<'a> IntoIterator for &Attributes<'a> {
    type Item = Result<Field<'a>, Refusal>;
    type IntoIter = Fields<'a>;

    fn into_iter(self) -> Fields<'a> {
        self.fields()
    }
}

/// An attribute as it stands, percent-encoded.
///
/// ```
/// let field = gff3_lines::Field { tag: b"No%74e", value: b"a%2Cb,c" };
///
/// assert_eq!(gff3_lines::decode(field.tag), b"Note");
/// assert_eq!(field.values().map(gff3_lines::decode).collect::<Vec<_>>(), [&b"a,b"[..], b"c"]);
/// ```
#[derive(Clone, Copy, Debug, PartialEq, Eq, Hash)]
pub struct Field<'a> {
    /// What stands before `=`.
    pub tag: &'a [u8],
    /// What stands behind it.
    pub value: &'a [u8],
}

impl<'a> Field<'a> {
    /// The values, cut at each comma, as they stand.
    ///
    /// ```
    /// assert_eq!(gff3_lines::Field { tag: b"a", value: b"1,2" }.values().count(), 2);
    /// ```
    pub fn values(self) -> Values<'a> {
        Values::new(self.value)
    }
}

/// The iterator of [`Attributes::fields`].
///
/// ```
/// let tags: Result<Vec<_>, _> = gff3_lines::Attributes(b"a=1;b;c=2").fields().map(|field| Ok(field?.tag)).collect();
///
/// assert_eq!(tags?, [&b"a"[..], b"b;c"]);
/// # Ok::<(), gff3_lines::Refusal>(())
/// ```
#[derive(Clone, Debug)]
pub struct Fields<'a> {
    column: &'a [u8],
    /// The cursor, and `None` behind a refusal.
    at: Option<usize>,
}

impl<'a> Iterator for Fields<'a> {
    type Item = Result<Field<'a>, Refusal>;

    fn next(&mut self) -> Option<Self::Item> {
        // SAFETY: the column is a slice.
        let field = unsafe { ffi::gff3_next_field(self.column.as_ptr(), self.column.len(), self.at?) };
        if let Err(refusal) = Refusal::check(field.refused) {
            self.at = None;
            return Some(Err(refusal));
        }
        if field.done != 0 {
            return None;
        }
        self.at = Some(field.next);
        Some(Ok(Field {
            tag: &self.column[field.tag_start..field.tag_end],
            value: &self.column[field.value_start..field.value_end],
        }))
    }
}

impl FusedIterator for Fields<'_> {}

/// The values of an attribute, cut at each comma, as they stand. There is one at least: an empty text is one empty value.
///
/// ```
/// let values: Vec<_> = gff3_lines::Values::new(b"a,").collect();
///
/// assert_eq!(values, [&b"a"[..], b""]);
/// ```
#[derive(Clone, Debug)]
pub struct Values<'a> {
    value: &'a [u8],
    at: usize,
    out: u64,
}

impl<'a> Values<'a> {
    /// The values of a value's text.
    ///
    /// ```
    /// assert_eq!(gff3_lines::Values::new(b"").count(), 1);
    /// ```
    pub fn new(value: &'a [u8]) -> Self {
        Values { value, at: 0, out: 0 }
    }
}

impl<'a> Iterator for Values<'a> {
    type Item = &'a [u8];

    fn next(&mut self) -> Option<&'a [u8]> {
        // SAFETY: the value is a slice.
        let value = unsafe { ffi::gff3_next_value(self.value.as_ptr(), self.value.len(), self.at, self.out) };
        if value.done != 0 {
            return None;
        }
        self.at = value.next;
        self.out = value.out;
        Some(&self.value[value.start..value.end])
    }
}

impl FusedIterator for Values<'_> {}
