//! Stands in for noodles-core; every position's range (1 and up), and a region's positions as text, rest on `Position`.

pub mod position;
pub mod region;

pub use self::{position::Position, region::Region};
