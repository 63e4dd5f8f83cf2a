//! Stands in for feature.rs, names alone; no answer rests on it.

pub mod record;
pub mod record_buf;

pub use self::{record::Record, record_buf::RecordBuf};
