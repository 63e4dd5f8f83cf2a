//! A record read by one call: the answers that its columns have when each is read by itself.

use oracle::io::api::record as rust;

use super::score_of;
use crate::{
    case::{By, Case, Verdict},
    desk::Desk,
    numbers,
    ours::{self, Bounds, RecordFields},
};

/// Of a refused record, all but the refusal is 0.
pub fn record(desk: &mut Desk, case: Case<'_>) -> Verdict {
    let mut by = By::Rust;
    let expected = read(case.text, &mut by).unwrap_or_else(|refused| RecordFields {
        refused: refused.into(),
        ..RecordFields::default()
    });
    by.says(desk.answers(case.text, ours::record, expected))
}

/// The columns in their order, up to the first that is refused. `by` stays the Rust where it decided all of them.
fn read(line: &[u8], by: &mut By) -> Result<RecordFields, u8> {
    let (Some(ends), Some(columns)) = (rust::bounds(line), rust::columns(line)) else {
        return Err(1);
    };

    let start = decided(by, numbers::position(columns[3], || rust::start(line)))?;
    let end = decided(by, numbers::position(columns[4], || rust::end(line)))?;
    let score = decided(by, score_of(line, columns[5]))?;
    let strand = rust::strand(line)?;
    let phase = rust::phase(line)?;

    Ok(RecordFields {
        refused: 0,
        bounds: Bounds { ends },
        start,
        end,
        score_missing: score.missing,
        score_start: score.start,
        score_end: score.end,
        strand: strand.into(),
        phase: phase.into(),
    })
}

fn decided<T>(by: &mut By, (one, answer): (By, T)) -> T {
    *by = by.and(one);
    answer
}
