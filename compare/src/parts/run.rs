//! A run: a text that comes in parts, from the first call to the end call.

use oracle::io::api::lines as rust;

use super::model;
use crate::{
    case::{By, Case, Compared, Difference, Verdict, same},
    desk::Desk,
    hold::HOLD,
    ours::{self, Part, State},
};

/// How what a call left of its part is offered to the next: up to the same cut, together with the next part, or its first half and
/// then the other. Any other number counts as the first.
pub const OFFERS: u64 = 3;
const JOINED: u64 = 1;
const HALVED: u64 = 2;

/// How many bytes behind those that a call may change are compared at once. The rest is compared at the end of the run.
const WINDOW: usize = 64;

/// What a run hands out or reports.
#[derive(Debug, PartialEq)]
enum Event {
    Line(Vec<u8>),
    Refused(u64),
}

/// The lines of the text as the Rust reads it whole; but one that is too long is reported, which the Rust does not know.
pub fn run(desk: &mut Desk, case: Case<'_>) -> Verdict {
    let lines = rust::read_lines(case.text);
    let by = By::rust_if(lines.iter().all(|line| line.len() <= HOLD));
    by.says(whole(desk, case, &lines).and_then(|()| in_parts(desk, case, lines)))
}

/// The library's own lines of the whole text.
fn whole(desk: &mut Desk, case: Case<'_>, lines: &[Vec<u8>]) -> Compared {
    let lent = desk.text(case.text);
    let mut at = 0;

    for expected in lines {
        let line = ours::next_line(lent, at);

        if line.done != 0 || lent.get(line.start..line.end) != Some(expected) {
            return Err(Difference {
                ours: format!("gff3_next_line of the whole text, from {at} on: {line:?}"),
                expected: format!("a line of {} bytes", expected.len()),
            });
        }

        at = line.next;
    }

    same(ours::next_line(lent, at).done, 1)
}

fn in_parts(desk: &mut Desk, case: Case<'_>, lines: Vec<Vec<u8>>) -> Compared {
    let mut run = Run::new(desk, case);
    let mut parts = Parts::new(case);

    while let Some(part) = parts.offered() {
        let answer = run.takes(part)?;
        parts.took(answer);
    }

    let last = run.ends()?;
    same(last.state, State::default())?;
    same(parts.at, case.text.len())?;
    let expected = lines.into_iter().map(|line| {
        if line.len() > HOLD {
            Event::Refused(25)
        } else {
            Event::Line(line)
        }
    });
    same_events(&run.events, &expected.collect::<Vec<_>>())?;
    let changed = run.changed;
    desk.hold().compare_all(changed)
}

/// The calls so far.
struct Run<'a> {
    desk: &'a mut Desk,
    state: State,
    calls: usize,
    events: Vec<Event>,
    /// From here on nothing in the hold had to change.
    changed: usize,
}

impl<'a> Run<'a> {
    fn new(desk: &'a mut Desk, case: Case<'_>) -> Self {
        desk.hold().fill(case.numbers[super::CONTENT]);

        Self {
            desk,
            state: State::default(),
            calls: 0,
            events: Vec::new(),
            changed: 0,
        }
    }

    fn takes(&mut self, part: &[u8]) -> Result<Part, Difference> {
        let expected = model::take_part(self.state, &mut self.desk.hold().expected, part);
        let (lent, hold) = self.desk.part_and_hold(part);
        let answer = ours::take_part(self.state, hold, lent);
        self.follows("gff3_take_part", answer, expected, part.len())
    }

    fn ends(&mut self) -> Result<Part, Difference> {
        let expected = model::end_parts(self.state, &mut self.desk.hold().expected);
        let answer = ours::end_parts(self.state, self.desk.hold().lend());
        self.follows("gff3_end_parts", answer, expected, 0)
    }

    /// Holds a call to the model, so that a run ends.
    fn follows(&mut self, name: &str, answer: Part, expected: Part, len: usize) -> Result<Part, Difference> {
        self.calls += 1;
        self.changed = self.changed.max(HOLD.min(self.state.held + len + 1));
        let seen = HOLD.min(self.changed + WINDOW);
        let hold = self.desk.hold();
        let compared = same(answer, expected).and_then(|()| hold.compare(seen));
        compared.map_err(|difference| Difference {
            ours: format!("call {}, {name}: {}", self.calls, difference.ours),
            ..difference
        })?;
        self.state = answer.state;

        if answer.has_line != 0 {
            self.events.push(Event::Line(hold.bytes()[..answer.length].to_vec()));
        } else if answer.refused != 0 {
            self.events.push(Event::Refused(answer.refused));
        }

        Ok(answer)
    }
}

fn same_events(ours: &[Event], expected: &[Event]) -> Compared {
    let first = ours.iter().zip(expected).position(|(one, other)| one != other);
    let first = first.unwrap_or(ours.len().min(expected.len()));
    let shown = |events: &[Event]| match events.get(first) {
        Some(Event::Line(line)) if line.len() > 200 => format!("line {first} of {} bytes", line.len()),
        Some(Event::Line(line)) => format!("line {first} \"{}\"", line.escape_ascii()),
        Some(Event::Refused(number)) => format!("refusal {number} for line {first}"),
        None => format!("no line {first}"),
    };

    if ours == expected {
        return Ok(());
    }

    Err(Difference {
        ours: shown(ours),
        expected: shown(expected),
    })
}

/// The parts of a text that are still to be offered.
struct Parts<'a> {
    text: &'a [u8],
    cuts: &'a [usize],
    offer: u64,
    /// The bytes taken, and the cuts behind which parts were taken.
    at: usize,
    cut: usize,
    /// Whether the last call left something of its part.
    is_rest: bool,
    /// The end of the part that is offered, and the cuts before it.
    end: usize,
    cut_behind: usize,
}

impl<'a> Parts<'a> {
    fn new(case: Case<'a>) -> Self {
        Self {
            text: case.text,
            cuts: case.cuts,
            offer: case.numbers[super::OFFER],
            at: 0,
            cut: 0,
            is_rest: false,
            end: 0,
            cut_behind: 0,
        }
    }

    /// The next part; a place that is named twice makes an empty one.
    fn offered(&mut self) -> Option<&'a [u8]> {
        if self.cut > self.cuts.len() {
            return None;
        }

        let joined = self.is_rest && self.offer == JOINED;
        self.cut_behind = (self.cut + usize::from(joined)).min(self.cuts.len());
        let end = self.cuts.get(self.cut_behind).copied().unwrap_or(usize::MAX);
        self.end = end.clamp(self.at, self.text.len());

        if self.is_rest && self.offer == HALVED {
            let half = self.at + (self.end - self.at) / 2;
            return Some(&self.text[self.at..half]);
        }

        Some(&self.text[self.at..self.end])
    }

    fn took(&mut self, answer: Part) {
        self.at += answer.taken;
        let has_ended = answer.has_line | answer.refused != 0;
        self.is_rest = has_ended && self.at < self.end;

        if self.at == self.end {
            self.cut = self.cut_behind + 1;
        }
    }
}
