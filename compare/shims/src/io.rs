//! Stands in for io.rs, names alone, and mounts the oracle's API as `oracle::io::api`; no answer rests on it.

pub mod api;
pub mod reader;
pub mod writer;

pub use self::{reader::Reader, writer::Writer};
