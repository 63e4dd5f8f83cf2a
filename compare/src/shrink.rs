//! Makes a case smaller while its answers still differ.

use std::time::{Duration, Instant};

use crate::case::{Case, Given, Slack};

/// How long a search goes on: a text of a million bytes that has to stay long would take hours.
const PATIENCE: Duration = Duration::from_secs(10);

/// A case that owns its texts.
#[derive(Clone)]
pub struct Owned {
    text: Vec<u8>,
    tag: Vec<u8>,
    second: Vec<u8>,
    number: usize,
    numbers: [u64; 4],
    cuts: Vec<usize>,
    out: u64,
    bounds: Given,
    slack: Slack,
}

impl Owned {
    fn of(case: Case<'_>) -> Self {
        Self {
            text: case.text.to_vec(),
            tag: case.tag.to_vec(),
            second: case.second.to_vec(),
            number: case.number,
            numbers: case.numbers,
            cuts: case.cuts.to_vec(),
            out: case.out,
            bounds: case.bounds,
            slack: case.slack,
        }
    }

    pub fn case(&self) -> Case<'_> {
        Case {
            text: &self.text,
            tag: &self.tag,
            second: &self.second,
            number: self.number,
            numbers: self.numbers,
            cuts: &self.cuts,
            out: self.out,
            bounds: self.bounds,
            slack: self.slack,
        }
    }
}

/// Drops bytes, then takes plainer bytes and smaller numbers, until nothing more can go or the time is over.
pub fn smallest(case: Case<'_>, differs: impl FnMut(Case<'_>) -> bool) -> Owned {
    let mut search = Search {
        least: Owned::of(case),
        differs,
        until: Instant::now() + PATIENCE,
    };

    while search.dropped(|owned| &mut owned.cuts)
        | search.dropped(|owned| &mut owned.text)
        | search.dropped(|owned| &mut owned.tag)
        | search.dropped(|owned| &mut owned.second)
        | search.plainer()
        | search.lower()
    {}

    search.least
}

struct Search<F> {
    least: Owned,
    differs: F,
    until: Instant,
}

impl<F: FnMut(Case<'_>) -> bool> Search<F> {
    fn is_over(&self) -> bool {
        Instant::now() > self.until
    }

    /// Keeps a candidate if it still differs.
    fn keep(&mut self, candidate: Owned) -> bool {
        let kept = (self.differs)(candidate.case());

        if kept {
            self.least = candidate;
        }

        kept
    }

    /// Drops runs of bytes or cuts, long ones first. A cursor behind them may move along, and so may cuts.
    fn dropped<T>(&mut self, part: fn(&mut Owned) -> &mut Vec<T>) -> bool {
        let before = part(&mut self.least).len();
        let mut run = before.div_ceil(2);

        while run > 0 {
            let mut at = 0;

            while at + run <= part(&mut self.least).len() && !self.is_over() {
                let mut candidate = self.least.clone();
                part(&mut candidate).drain(at..at + run);
                let mut moved = candidate.clone();
                moved.number = moved.number.saturating_sub(run);
                moved.cuts.iter_mut().for_each(|cut| *cut = moved_back(*cut, at, run));

                if !self.keep(candidate) && !self.keep(moved) {
                    at += run;
                }
            }

            run /= 2;
        }

        part(&mut self.least).len() < before
    }

    fn plainer(&mut self) -> bool {
        let mut any = false;

        for at in 0..self.least.text.len() {
            if self.is_over() {
                break;
            }

            let mut candidate = self.least.clone();

            if candidate.text[at] > b'a' {
                candidate.text[at] = b'a';
                any |= self.keep(candidate);
            }
        }

        any
    }

    fn lower(&mut self) -> bool {
        let mut any = false;

        for number in [0, self.least.number / 2, self.least.number.saturating_sub(1)] {
            if number < self.least.number {
                let mut candidate = self.least.clone();
                candidate.number = number;
                any |= self.keep(candidate);
            }
        }

        for i in 0..4 {
            for n in [0, 1] {
                if n < self.least.numbers[i] {
                    let mut candidate = self.least.clone();
                    candidate.numbers[i] = n;
                    any |= self.keep(candidate);
                }
            }
        }

        any
    }
}

/// Where a cut comes to stand when `run` bytes go from `at` on.
fn moved_back(cut: usize, at: usize, run: usize) -> usize {
    cut - cut.saturating_sub(at).min(run)
}
