//! Stands in for feature/record/attributes/field.rs, names alone; no answer rests on it.

pub mod value;

pub use self::value::Value;
