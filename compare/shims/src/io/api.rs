//! The oracle's API: the original functions on plain bytes and numbers, none written anew.
//!
//! A refusal is answered by the number that the port gives to its reason: 1 fewer than eight tabs, 2 position, 3 strand,
//! 4 phase, 5 attribute text without `=`, 6 to 16 typed directive values, 17 score.

pub mod attributes;
pub mod bench;
pub mod coding;
pub mod lines;
pub mod record;
pub mod values;
pub mod writing;

/// What shims inside private modules hang their doors on, so that the API reaches the originals there.
pub(crate) struct Door;
