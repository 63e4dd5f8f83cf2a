//! Single calls, on any state and any hold.

use super::{CONTENT, HOLD_LEN, MARKS, TAIL, model};
use crate::{
    case::{By, Case, Compared, Verdict, same},
    desk::Desk,
    hold::{HOLD, Hold},
    ours::{self, Part, State},
    report::{Call, Report},
    texts::{self, BYTES, Dice},
};

/// The tails, and numbers that count as the last of them.
const TAILS: [u64; 5] = [0, 1, 2, 3, u64::MAX];

/// What may be held: little, all but little, and more than a hold can have.
const HELD: [usize; 10] = [0, 1, 2, 3, HOLD - 3, HOLD - 2, HOLD - 1, HOLD, HOLD + 1, usize::MAX];

/// Lengths that no hold has.
const UNFIT: [usize; 5] = [0, 1, HOLD - 1, HOLD + 1, 2 * HOLD];

pub fn sweep(report: &mut Report) {
    for content in 0..Hold::CONTENTS {
        single_calls(report, content);
    }

    unfit_holds(report);
    lengths(report);
}

fn states() -> impl Iterator<Item = State> {
    TAILS
        .iter()
        .flat_map(|&tail| HELD.iter().map(move |&held| State { held, tail }))
}

/// Every short part on every state.
fn single_calls(report: &mut Report, content: u64) {
    for state in states() {
        for len in 0..=4 {
            texts::every(MARKS, len, |part| one_call(report, part, state, content, HOLD));
        }
    }
}

fn unfit_holds(report: &mut Report) {
    for hold_len in UNFIT {
        for state in states() {
            for part in [&b""[..], b"a", b"\n", b"a\r\nb", b"\r"] {
                one_call(report, part, state, 0, hold_len);
            }
        }
    }
}

/// Parts of each length, with a line end at each place or none, where all of them fits and where some of it does.
fn lengths(report: &mut Report) {
    for len in 0..=70 {
        let part = texts::turns(b"abcdefghijk", len);
        on_states(report, &part);

        for feed in 0..len {
            let mut part = part.clone();
            part[feed] = b'\n';
            on_states(report, &part);

            if feed > 0 {
                part[feed - 1] = b'\r';
                on_states(report, &part);
            }
        }
    }
}

/// A part on states of each tail.
fn on_states(report: &mut Report, part: &[u8]) {
    for (held, tail) in [(0, 0), (7, 1), (HOLD - 33, 0), (HOLD - 18, 1), (HOLD, 2)] {
        one_call(
            report,
            part,
            State { held, tail },
            part.len() as u64 % Hold::CONTENTS,
            HOLD,
        );
    }
}

/// Both calls on a state; the end call has no part.
fn one_call(report: &mut Report, part: &[u8], state: State, content: u64, hold_len: usize) {
    let numbers = [state.tail, content, hold_len as u64, 0];
    let case = Case {
        numbers,
        ..Case::at(part, state.held)
    };
    report.check(Call::TakePart, case, take_part);

    if part.is_empty() {
        report.check(Call::EndParts, case, end_parts);
    }
}

pub fn random(report: &mut Report, dice: &mut Dice) {
    let state = random_state(dice);
    let len = dice.len();
    let part = match dice.below(3) {
        0 => dice.text(len, MARKS),
        1 => dice.text(len, b"aaaaaaaaaaaaaaaaaaaaaaaaaaaaaaaa\r\n"),
        _ => dice.text(len, &BYTES),
    };
    let content = dice.number() % Hold::CONTENTS;
    let hold_len = if dice.once_in(20) { dice.below(2 * HOLD) } else { HOLD };
    one_call(report, &part, state, content, hold_len);
    one_call(report, b"", state, content, hold_len);
}

fn random_state(dice: &mut Dice) -> State {
    let held = match dice.below(6) {
        0 => dice.one_of(&HELD),
        1 => HOLD - dice.below(300),
        2 => dice.below(HOLD + 1),
        3 if dice.once_in(4) => dice.number() as usize >> dice.below(64),
        _ => dice.below(300),
    };

    State {
        held,
        tail: dice.one_of(&TAILS),
    }
}

fn take_part(desk: &mut Desk, case: Case<'_>) -> Verdict {
    By::Checker.says(called(desk, case, model::take_part, ours::take_part))
}

fn end_parts(desk: &mut Desk, case: Case<'_>) -> Verdict {
    By::Checker.says(called(
        desk,
        case,
        |state, hold, _| model::end_parts(state, hold),
        |state, hold, _| ours::end_parts(state, hold),
    ))
}

type Called = fn(State, &mut [u8], &[u8]) -> Part;

/// One call, held to its model.
fn called(desk: &mut Desk, case: Case<'_>, model: Called, call: Called) -> Compared {
    let state = State {
        held: case.number,
        tail: case.numbers[TAIL],
    };
    let hold_len = case.numbers[HOLD_LEN] as usize;

    if hold_len != HOLD {
        let expected = model(state, &mut vec![0; hold_len], case.text);
        return desk.refuses(case.text, hold_len, |part, hold| call(state, hold, part), expected);
    }

    desk.hold().fill(case.numbers[CONTENT]);
    let expected = model(state, &mut desk.hold().expected, case.text);
    let (part, hold) = desk.part_and_hold(case.text);
    same(call(state, hold, part), expected)?;
    let changed = HOLD.min(case.number.saturating_add(case.text.len() + 1));
    desk.hold().compare_all(changed)
}
