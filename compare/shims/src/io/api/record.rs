//! Columns and fields of a record. No function here looks at the line's kind.

#[path = "../../record/fields/bounds.rs"]
mod bounds;

use self::bounds::Bounds;
use crate::{
    Record,
    feature::record::{Phase, Strand},
};

/// The eight ends, each one past its tab; nothing where there are fewer than eight tabs.
/// Calls `Bounds::index` of record/fields/bounds.rs, mounted here once more since its own parent keeps it private.
pub fn bounds(line: &[u8]) -> Option<[usize; 8]> {
    let bounds = Bounds::index(line).ok()?;

    Some([
        bounds.reference_sequence_name_range().end + 1,
        bounds.source_range().end + 1,
        bounds.type_range().end + 1,
        bounds.start_range().end + 1,
        bounds.end_range().end + 1,
        bounds.score_range().end + 1,
        bounds.strand_range().end + 1,
        bounds.phase_range().end + 1,
    ])
}

/// The nine raw columns. Calls `Bounds::index` and the ranges of record/fields/bounds.rs.
pub fn columns(line: &[u8]) -> Option<[&[u8]; 9]> {
    let bounds = Bounds::index(line).ok()?;

    Some([
        &line[bounds.reference_sequence_name_range()],
        &line[bounds.source_range()],
        &line[bounds.type_range()],
        &line[bounds.start_range()],
        &line[bounds.end_range()],
        &line[bounds.score_range()],
        &line[bounds.strand_range()],
        &line[bounds.phase_range()],
        &line[bounds.attributes_range()],
    ])
}

/// Column 1, decoded; 1. Calls `Record::reference_sequence_name` of record.rs.
pub fn reference_sequence_name(line: &[u8]) -> Result<Vec<u8>, u8> {
    Ok(record(line)?.reference_sequence_name().to_vec())
}

/// Column 2, decoded; 1. Calls `Record::source` of record.rs.
pub fn source(line: &[u8]) -> Result<Vec<u8>, u8> {
    Ok(record(line)?.source().to_vec())
}

/// Column 3, decoded; 1. Calls `Record::ty` of record.rs.
pub fn ty(line: &[u8]) -> Result<Vec<u8>, u8> {
    Ok(record(line)?.ty().to_vec())
}

/// Column 4; 1 or 2. Calls `Record::start` of record.rs, and so `parse_position` of record/fields.rs.
pub fn start(line: &[u8]) -> Result<u64, u8> {
    let position = record(line)?.start().map_err(|_| 2)?;
    Ok(usize::from(position) as u64)
}

/// Column 5; 1 or 2. Calls `Record::end` of record.rs, and so `parse_position` of record/fields.rs.
pub fn end(line: &[u8]) -> Result<u64, u8> {
    let position = record(line)?.end().map_err(|_| 2)?;
    Ok(usize::from(position) as u64)
}

/// Column 6, nothing if missing; 1 or 17. Calls `Record::score` of record.rs.
pub fn score(line: &[u8]) -> Result<Option<f32>, u8> {
    record(line)?.score().transpose().map_err(|_| 17)
}

/// Column 7, 0 to 3 for `.` `+` `-` `?`; 1 or 3. Calls `Record::strand` of record.rs.
pub fn strand(line: &[u8]) -> Result<u8, u8> {
    match record(line)?.strand() {
        Ok(Strand::None) => Ok(0),
        Ok(Strand::Forward) => Ok(1),
        Ok(Strand::Reverse) => Ok(2),
        Ok(Strand::Unknown) => Ok(3),
        Err(_) => Err(3),
    }
}

/// Column 8, 0 to 2, and 3 for none; 1 or 4. Calls `Record::phase` of record.rs.
pub fn phase(line: &[u8]) -> Result<u8, u8> {
    match record(line)?.phase() {
        Some(Ok(Phase::Zero)) => Ok(0),
        Some(Ok(Phase::One)) => Ok(1),
        Some(Ok(Phase::Two)) => Ok(2),
        None => Ok(3),
        Some(Err(_)) => Err(4),
    }
}

/// Start, end, strand and phase of one record, or nothing where one of them is refused. Calls `Record::try_new`, and `Record::start`,
/// `end`, `strand` and `phase` of record.rs.
pub fn numbers(line: &[u8]) -> Option<[u64; 4]> {
    let record = record(line).ok()?;
    let (start, end) = (record.start().ok()?, record.end().ok()?);
    let phase = record.phase().transpose().ok()?;

    Some([
        usize::from(start) as u64,
        usize::from(end) as u64,
        record.strand().ok()? as u64,
        phase.map_or(3, |phase| phase as u64),
    ])
}

/// `Record::try_new` of record.rs; 1.
pub(super) fn record(line: &[u8]) -> Result<Record<'_>, u8> {
    Record::try_new(line).map_err(|_| 1)
}
