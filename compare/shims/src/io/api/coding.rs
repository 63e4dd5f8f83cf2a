//! Percent-decoding, and percent-encoding with each of the three sets.

use std::io;

use bstr::{BStr, BString, ByteSlice};

use super::Door;
use crate::feature::record_buf::{Attributes, attributes::field::Value};

/// The text decoded once. Calls `percent_decode` of record.rs.
pub fn percent_decode(text: &[u8]) -> Vec<u8> {
    Door::percent_decode(text).to_vec()
}

/// The text escaped for column 1. Calls `write_reference_sequence_name` of
/// io/writer/line/record/reference_sequence_name.rs.
pub fn encode_reference_sequence_name(text: &[u8]) -> Vec<u8> {
    written(text, Door::write_reference_sequence_name)
}

/// The text escaped for column 2. Calls the shim `write_source`, and so `percent_encode` of io/writer/line/record.rs.
pub fn encode_source(text: &[u8]) -> Vec<u8> {
    written(text, Door::write_source)
}

/// The text escaped for column 3. Calls the shim `write_type`, and so `percent_encode` of io/writer/line/record.rs.
pub fn encode_type(text: &[u8]) -> Vec<u8> {
    written(text, Door::write_type)
}

/// The text escaped as a tag. Calls `write_attributes` of io/writer/line/record/attributes.rs on this tag with an empty
/// value, and so `write_tag` of attributes/field/tag.rs; the `=` after it is taken off.
pub fn encode_tag(text: &[u8]) -> Vec<u8> {
    let mut dst = attribute(text, b"");
    assert_eq!(dst.pop(), Some(b'='));
    dst
}

/// The text escaped as a value. Calls `write_attributes` of io/writer/line/record/attributes.rs on an empty tag with this
/// value, and so `write_value` of attributes/field/value.rs; the `=` before it is taken off.
pub fn encode_value(text: &[u8]) -> Vec<u8> {
    let mut dst = attribute(b"", text);
    assert_eq!(dst.remove(0), b'=');
    dst
}

fn attribute(tag: &[u8], value: &[u8]) -> Vec<u8> {
    let field = (BString::from(tag), Value::String(value.into()));
    let attributes = Attributes::from_iter([field]);
    written(b"", |dst, _| Door::write_attributes(dst, &&attributes))
}

fn written(text: &[u8], write: impl Fn(&mut Vec<u8>, &BStr) -> io::Result<()>) -> Vec<u8> {
    let mut dst = Vec::new();
    write(&mut dst, text.as_bstr()).expect("bytes at hand are written without fail");
    dst
}
