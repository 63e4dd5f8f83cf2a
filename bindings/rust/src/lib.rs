#![doc = include_str!("../README.md")]
#![deny(missing_docs, unsafe_op_in_unsafe_fn)]

mod attributes;
mod buffer;
mod coding;
mod column;
mod directive;
mod ffi;
mod line;
mod parts;
mod reader;
mod record;
mod refusal;
mod report;
mod sheet;
mod writing;

pub use attributes::{Attributes, Field, Fields, Values};
pub use coding::{Set, decode, decode_into, encode, encode_into, position};
pub use column::{Column, Phase, Strand};
pub use directive::{Build, Region, Version};
pub use line::{Directive, Kind, Line, Lines, lines};
pub use parts::Parts;
pub use reader::{IntoLines, ReadError, Reader};
pub use record::{Bounds, Record};
pub use refusal::Refusal;
pub use report::{Report, report};
pub use sheet::{Judged, Sheet, judge, rewrite_into};
pub use writing::{Value, write_comment, write_comment_into, write_directive, write_directive_into};
