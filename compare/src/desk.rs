//! The memory that calls are lent, anew for each.

use std::fmt::Debug;

use crate::{
    case::{By, Case, Compared, Difference, Slack, Verdict, same},
    fence::{Room, Side, Texts},
    hold::{BEFORE, Hold},
    ours::{self, Written},
};

/// Longer than any text here.
const LONGEST: usize = 5 << 20;

/// Longer than any output: a sheet has up to six bytes for a byte of its line.
const WIDEST: usize = 6 * LONGEST;

/// The room beyond its text that a refused call is lent, so that it could write all of its output.
const MORE: usize = 200;

/// Texts shorter than this stand right before the output buffer now and then.
const BESIDE: usize = 4096;

/// What the turns advance by, the golden ratio's share of 64 bits, so that the ways come in no short rhythm and each of them
/// meets each case that a loop makes.
pub const STRIDE: u64 = 0x9e37_79b9_7f4a_7c15;

pub struct Desk {
    texts: Texts,
    tags: Texts,
    seconds: Texts,
    room: Room,
    holds: [Hold; 2],
    turn: u64,
    way: u64,
}

impl Desk {
    /// The ways that memory is lent: on one side of the fences or the other, an output buffer right behind its texts or far
    /// away, and no bytes by a null pointer or another.
    pub const WAYS: u64 = 8;

    pub fn new() -> Self {
        Self {
            texts: Texts::new(LONGEST),
            tags: Texts::new(LONGEST),
            seconds: Texts::new(LONGEST),
            room: Room::new(WIDEST),
            holds: [Hold::new(false), Hold::new(true)],
            turn: 0,
            way: 0,
        }
    }

    /// Goes on to another way.
    pub fn turn(&mut self) {
        self.turn = self.turn.wrapping_add(STRIDE);
        self.take(self.turn / (u64::MAX / Self::WAYS + 1));
    }

    pub fn take(&mut self, way: u64) {
        self.way = way;
        ours::set_empty_is_null(way.is_multiple_of(2));
    }

    fn side(&self) -> Side {
        if self.way < 2 { Side::First } else { Side::Last }
    }

    fn is_behind(&self) -> bool {
        self.way == 2
    }

    pub fn text(&mut self, text: &[u8]) -> &[u8] {
        let side = self.side();
        self.texts.lend(text, side)
    }

    /// Compares a call's answers on a text that begins beside a fence, and on the same text where it ends beside one.
    pub fn answers<A: Copy + Debug + PartialEq>(
        &mut self,
        text: &[u8],
        call: impl Fn(&[u8]) -> A,
        expected: A,
    ) -> Compared {
        let mut sides = [Side::First, Side::Last].into_iter();
        sides.try_for_each(|side| same(call(self.texts.lend(text, side)), expected))
    }

    pub fn text_and_tag(&mut self, case: Case<'_>) -> (&[u8], &[u8]) {
        let side = self.side();
        (self.texts.lend(case.text, side), self.tags.lend(case.tag, side))
    }

    /// The hold of this way: the shifted one where a text may stand right before it.
    pub fn hold(&mut self) -> &mut Hold {
        &mut self.holds[self.which_hold()]
    }

    fn which_hold(&self) -> usize {
        usize::from(self.way / 2 % 2 == 1)
    }

    /// A part and the hold, in which stands what the last call left.
    pub fn part_and_hold(&mut self, part: &[u8]) -> (&[u8], &mut [u8]) {
        if self.is_behind() && part.len() < BEFORE {
            return self.hold().lend_behind(part);
        }

        let (side, which) = (self.side(), self.which_hold());
        (self.texts.lend(part, side), self.holds[which].lend())
    }

    /// A part, and a hold of a length that is refused: nothing in it or beside it may change.
    pub fn refuses<A: Debug + PartialEq>(
        &mut self,
        part: &[u8],
        len: usize,
        call: impl Fn(&[u8], &mut [u8]) -> A,
        answer: A,
    ) -> Compared {
        let case = Case::of(part);
        self.compares(case, len, b"", |[part, ..], hold| call(part, hold), answer)
    }

    /// Compares a writer's answer, and what it left in and beside its buffer, with the text expected or a refusal that comes
    /// before it, and says who decided: `by`, or the checker where the room is too short, which the Rust does not know.
    pub fn writes(
        &mut self,
        case: Case<'_>,
        by: By,
        expected: Result<&[u8], u64>,
        write: impl Fn(&[u8], &mut [u8]) -> Written,
    ) -> Verdict {
        self.lays(
            case,
            by,
            expected,
            |[text, ..], out| write(text, out),
            |written| written,
        )
    }

    /// The same of a call that is given three texts, or answers more than a length: `answer` is what it has to answer where a
    /// writer answers this.
    pub fn lays<A: Debug + PartialEq>(
        &mut self,
        case: Case<'_>,
        by: By,
        expected: Result<&[u8], u64>,
        write: impl Fn([&[u8]; 3], &mut [u8]) -> A,
        answer: impl Fn(Written) -> A,
    ) -> Verdict {
        let texts = case.text.len() + case.tag.len() + case.second.len();
        let need = expected.map_or(texts + MORE, <[u8]>::len);
        let room = case.slack.room(need, texts);
        let written = match expected {
            Err(refused) => Written { refused, length: 0 },
            Ok(_) if room < need => Written {
                refused: 22,
                length: need,
            },
            Ok(_) => Written {
                refused: 0,
                length: need,
            },
        };
        let laid = if written.refused == 0 {
            expected.unwrap_or_default()
        } else {
            b""
        };
        let by = by.and(By::rust_if(written.refused != 22));
        by.says(self.compares(case, room, laid, write, answer(written)))
    }

    /// Makes the call, and compares what it answers and what it leaves in its room and beside it.
    fn compares<A: Debug + PartialEq>(
        &mut self,
        case: Case<'_>,
        room: usize,
        laid: &[u8],
        write: impl Fn([&[u8]; 3], &mut [u8]) -> A,
        answer: A,
    ) -> Compared {
        let texts = case.text.len() + case.tag.len() + case.second.len();
        let side = self.side();
        let given = [case.text, case.tag, case.second];
        let (lent, out) = if self.is_behind() && texts < BESIDE {
            self.room.lend_behind(given, room)
        } else {
            let lent = [
                self.texts.lend(case.text, side),
                self.tags.lend(case.tag, side),
                self.seconds.lend(case.second, side),
            ];
            (lent, self.room.lend(room, side))
        };
        same(write(lent, out), answer)?;

        if self.room.has(laid) {
            return Ok(());
        }

        let left = self.room.left().map(|left| left.escape_ascii().to_string());
        Err(Difference {
            ours: left.map_or("a byte beside the buffer was changed".to_owned(), |left| {
                format!("left \"{left}\"")
            }),
            expected: format!(
                "\"{}\", and the {} bytes behind it kept",
                laid.escape_ascii(),
                room - laid.len()
            ),
        })
    }
}

/// The rooms that a text is written into: all of them for a short one, or some.
pub fn rooms(len: usize) -> &'static [Slack] {
    if len < 300 { &Slack::ALL } else { &Slack::ALL[..4] }
}

/// The same, and for a text that is not too long the least room in which the call lays at once, with nothing measured, and one byte less.
pub fn rooms_and(len: usize, at_once: [Slack; 2]) -> impl Iterator<Item = Slack> {
    let count = if len < BESIDE { 2 } else { 0 };
    rooms(len).iter().copied().chain(at_once.into_iter().take(count))
}
