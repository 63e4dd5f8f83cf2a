//! What a call on a text in parts answers and leaves in the hold, byte by byte: the table of RULES 1.6 to 1.12.

use crate::{
    hold::HOLD,
    ours::{Part, State},
};

const FITS: u64 = 0;
const WAITS: u64 = 1;
/// Any greater number counts as this one, and this one is handed back for it.
const LONG: u64 = 2;

pub fn take_part(state: State, hold: &mut [u8], part: &[u8]) -> Part {
    if let Some(refused) = unfit(state, hold) {
        return refused;
    }

    let mut now = state;
    now.tail = now.tail.min(LONG);

    for (at, &byte) in part.iter().enumerate() {
        now = match (byte, now) {
            (b'\n', State { tail: LONG, .. }) => return too_long(at + 1),
            (b'\n', State { held: 0, .. }) => State::default(),
            (b'\n', State { held, .. }) => return line(held, at + 1),
            _ => step(now, hold, byte),
        };
    }

    Part {
        taken: part.len(),
        state: now,
        ..Part::default()
    }
}

pub fn end_parts(state: State, hold: &mut [u8]) -> Part {
    if let Some(refused) = unfit(state, hold) {
        return refused;
    }

    match state {
        State { held: 0, tail: FITS } => Part::default(),
        State { held, tail: FITS } => line(held, 0),
        State { held, tail: WAITS } if held < HOLD => {
            hold[held] = b'\r';
            line(held + 1, 0)
        }
        _ => too_long(0),
    }
}

/// The state behind a byte that is no line feed.
fn step(state: State, hold: &mut [u8], byte: u8) -> State {
    let State { held, tail } = state;

    match (tail, held < HOLD, byte) {
        (FITS, _, b'\r') => State { held, tail: WAITS },
        (FITS, true, _) => stored(hold, held, byte, FITS),
        (WAITS, true, b'\r') => stored(hold, held, b'\r', WAITS),
        (WAITS, true, _) => {
            let behind = stored(hold, held, b'\r', FITS);
            step(behind, hold, byte)
        }
        _ => State { held, tail: LONG },
    }
}

fn stored(hold: &mut [u8], held: usize, byte: u8, tail: u64) -> State {
    hold[held] = byte;
    State { held: held + 1, tail }
}

/// The refusal that comes before all else.
fn unfit(state: State, hold: &[u8]) -> Option<Part> {
    (hold.len() != HOLD || state.held > HOLD).then_some(Part {
        refused: 34,
        state,
        ..Part::default()
    })
}

fn too_long(taken: usize) -> Part {
    Part {
        refused: 25,
        taken,
        ..Part::default()
    }
}

fn line(length: usize, taken: usize) -> Part {
    Part {
        has_line: 1,
        length,
        taken,
        ..Part::default()
    }
}
