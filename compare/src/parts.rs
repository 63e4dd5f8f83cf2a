//! A text that comes in parts: single calls on any state and hold, and whole runs.
//!
//! A single call is decided by a model that is written from RULES 1.6 to 1.12. Its case has the part as its text, what is held as its
//! number, and as its numbers the tail, the content of the hold, and the length of the hold. A run has a text, its cuts, the content
//! of the hold, and the way that what a call left is offered again.
//!
//! Every byte of the hold is compared behind each single call, and behind each run. Behind each call of a run the first bytes are
//! compared, up to some behind those that have changed.

mod calls;
mod model;
mod run;

use crate::{
    case::Case,
    desk::STRIDE,
    hold::{HOLD, Hold},
    report::{Call, Report},
    texts::{self, BYTES, Dice},
};
use run::{OFFERS, run};

/// The places among the numbers of a case.
const TAIL: usize = 0;
const CONTENT: usize = 1;
const HOLD_LEN: usize = 2;
const OFFER: usize = 3;

/// How a line ends, and a last line.
const ENDINGS: [&[u8]; 7] = [b"\n", b"\r\n", b"\r\r\n", b"\ra\n", b"", b"\r", b"\r\r"];

const MARKS: &[u8] = b"a \r\n";

/// Every short text in all cuts; longer ones, without spaces, cut at each place.
pub fn every(report: &mut Report, len: usize) {
    let alphabet: &[u8] = if len <= 6 { MARKS } else { b"a\r\n" };
    let mut turn = 0;

    if len <= 7 {
        texts::every(alphabet, len, |text| {
            for mask in 0..1_u32 << len.saturating_sub(1) {
                let cuts: Vec<usize> = (1..len).filter(|at| mask >> (at - 1) & 1 != 0).collect();
                turn += 1;
                in_ways(report, text, &cuts, Way::of(turn));
            }
        });
    } else if len <= 9 {
        texts::every(alphabet, len, |text| {
            for at in 1..len {
                turn += 1;
                one_run(report, text, &[at], Way::of(turn));
            }
        });
    }
}

/// What a text and its cuts leave open of a run.
#[derive(Clone, Copy)]
struct Way {
    /// How what a call left is offered again.
    offer: u64,
    /// What is in the hold before the run.
    content: u64,
    /// Whether empty parts stand between the others.
    is_spaced: bool,
}

impl Way {
    /// The ways in no short rhythm, so that each of them meets each cut.
    fn of(turn: u64) -> Self {
        let n = turn.wrapping_mul(STRIDE) >> 32;
        Self {
            offer: n % OFFERS,
            content: n / OFFERS % Hold::CONTENTS,
            is_spaced: n / OFFERS / Hold::CONTENTS % 2 == 1,
        }
    }
}

/// A text of few bytes with and without empty parts, and what is left in all ways that it is offered; another in one way.
fn in_ways(report: &mut Report, text: &[u8], cuts: &[usize], way: Way) {
    if text.len() > 5 {
        return one_run(report, text, cuts, way);
    }

    for n in 0..2 * OFFERS {
        let way = Way {
            offer: n % OFFERS,
            is_spaced: n < OFFERS,
            ..way
        };
        one_run(report, text, cuts, way);
    }
}

/// A run. It is counted for the call that hands out its last line.
fn one_run(report: &mut Report, text: &[u8], cuts: &[usize], way: Way) {
    let mut cuts = cuts.to_vec();

    if way.is_spaced {
        cuts.extend_from_within(..);
        cuts.extend([0, text.len()]);
        cuts.sort_unstable();
    }

    let case = Case {
        numbers: [0, way.content, 0, way.offer],
        cuts: &cuts,
        ..Case::of(text)
    };
    let call = if text.is_empty() || text.ends_with(b"\n") {
        Call::TakePart
    } else {
        Call::EndParts
    };
    report.check(call, case, run);
}

pub fn sweep(report: &mut Report) {
    calls::sweep(report);
    blank_lines(report);
    beside_limit(report);
    overlong(report);
}

/// Blank lines, few and many, alone, before a line and behind one, cut at each place and in parts of one length.
fn blank_lines(report: &mut Report) {
    let mut turn = 0;

    for (before, behind) in [
        (&b""[..], &b""[..]),
        (b"a\r\n", b"b\n"),
        (b" \n", b"\r"),
        (b"\r\r\n", b"\ra"),
    ] {
        for blank in [&b"\n"[..], b"\r\n", b"\n\r\n"] {
            for count in [1, 2, 3, 20, HOLD] {
                let text = [before, &blank.repeat(count), behind].concat();
                let places = (0..=text.len().min(30)).map(|at| vec![at]);
                let lengths = [1 + count / 40, 4096, HOLD - 1, HOLD].map(|len| parts_of(&text, len));

                for cuts in places.chain(lengths) {
                    turn += 1;
                    one_run(report, &text, &cuts, Way::of(turn));
                }
            }
        }
    }
}

/// Lines about as long as a hold, alone and between others.
fn beside_limit(report: &mut Report) {
    let mut turn = 0;

    for len in HOLD - 2..=HOLD + 2 {
        let line = texts::turns(b"abcdefghijk", len);

        for ending in ENDINGS {
            let behind: &[u8] = if ending.ends_with(b"\n") { b"c\n" } else { b"" };
            let alone = [&line[..], ending].concat();
            cut_beside_limit(report, &alone, HOLD, &mut turn);
            let between = [b"b\n", &line[..], ending, behind].concat();
            cut_beside_limit(report, &between, HOLD + 2, &mut turn);
        }
    }
}

/// Cuts at one place and at two around the limit, at all of these, and in parts of one length.
fn cut_beside_limit(report: &mut Report, text: &[u8], limit: usize, turn: &mut u64) {
    let places: Vec<usize> = (limit - 6..=limit + 6).collect();
    let mut run = |cuts: &[usize]| {
        *turn += 1;
        one_run(report, text, cuts, Way::of(*turn));
    };

    for (i, &one) in places.iter().enumerate() {
        run(&[one]);
        places[i + 1..].iter().for_each(|&two| run(&[one, two]));
    }

    run(&[]);
    run(&places);
    [4096, HOLD, HOLD + 1].iter().for_each(|&len| run(&parts_of(text, len)));
}

/// The cuts that make parts of one length.
fn parts_of(text: &[u8], len: usize) -> Vec<usize> {
    (len..text.len()).step_by(len).collect()
}

/// Lines far longer than a hold.
fn overlong(report: &mut Report) {
    let line = texts::turns(b"abcdefg\rhij", 200_000);
    let mut turn = 0;

    for ending in ENDINGS {
        for (before, behind) in [(&b""[..], &b""[..]), (b"b\r\n", b"c"), (b"\n", b"\r\nc\n")] {
            let text = [before, &line, ending, behind].concat();

            for cuts in [
                vec![],
                vec![HOLD],
                vec![HOLD, 2 * HOLD, 3 * HOLD],
                vec![text.len() - behind.len() - 1],
                parts_of(&text, 4096),
                parts_of(&text, HOLD + 1),
            ] {
                turn += 1;
                one_run(report, &text, &cuts, Way::of(turn));
            }
        }
    }
}

pub fn random(report: &mut Report, dice: &mut Dice) {
    let text = random_text(dice);

    for _ in 0..4 {
        let cuts = random_cuts(dice, &text);
        one_run(report, &text, &cuts, Way::of(dice.number()));
    }

    for _ in 0..2 {
        calls::random(report, dice);
    }
}

fn random_text(dice: &mut Dice) -> Vec<u8> {
    let len = dice.len();

    match dice.below(20) {
        0..5 => dice.text(len, b"aaaaaaaaaaaaaaa\r\n"),
        5..10 => dice.text(len, MARKS),
        10 => dice.text(len, &BYTES),
        11..14 => {
            let count = if dice.once_in(50) { 100 } else { 4 };
            texts::lines(dice, count)
        }
        14 if dice.once_in(4) => {
            let mut text = texts::lines(dice, 2);
            let at = dice.below(text.len() + 1);
            let long = texts::turns(b"abcdefg\rhijkl", dice.between(HOLD - 200, HOLD + 20));
            text.splice(at..at, long);
            texts::damage(dice, &mut text, MARKS);
            text
        }
        _ => {
            let mut text = texts::lines(dice, 3);
            texts::damage(dice, &mut text, MARKS);
            text
        }
    }
}

/// Cuts at any places, now and then at one twice; or parts of one length.
fn random_cuts(dice: &mut Dice, text: &[u8]) -> Vec<usize> {
    if dice.once_in(4) {
        let least = 1 + text.len() / 200;
        return parts_of(text, dice.between(least, least + 20));
    }

    let count = dice.below(12);
    let mut cuts: Vec<usize> = (0..count).map(|_| dice.below(text.len() + 1)).collect();
    cuts.sort_unstable();
    cuts
}
