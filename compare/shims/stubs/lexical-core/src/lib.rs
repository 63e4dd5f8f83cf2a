//! Stands in for lexical-core 1 with Debian's 0.7; positions in columns 4 and 5 and scores, read and written, rest on it.

pub use debian::{Number as FormattedSize, parse, write};
