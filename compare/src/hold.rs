//! A hold that is lent call after call, and what has to stand in it.

use std::{ptr, slice, sync::LazyLock};

use crate::{
    case::{Compared, Difference},
    fence::{MARGIN, PAGE, fenced_pages, pattern},
};

/// The length of a hold.
pub const HOLD: usize = 65_536;

/// How far a shifted hold begins before a page does: an odd number, so that it stands at no even address.
const SHIFT: usize = 27;

/// A part shorter than this may stand right before a shifted hold.
pub const BEFORE: usize = PAGE - SHIFT - MARGIN;

/// What a hold may have before its first call. The third has a CR or an LF at many places and at no regular ones.
static CONTENTS: LazyLock<[Vec<u8>; 4]> = LazyLock::new(|| {
    let mixed = b"\ra\r\nb\r\rcd\n\nef\rghi".iter().copied().cycle();
    [
        vec![0; HOLD],
        vec![0xff; HOLD],
        mixed.take(HOLD).collect(),
        vec![b'\r'; HOLD],
    ]
});

pub struct Hold {
    pages: *mut u8,
    len: usize,
    /// Where the hold begins in the pages.
    at: usize,
    /// What stands right before the hold.
    before: Vec<u8>,
    /// What has to stand in the hold.
    pub expected: Vec<u8>,
    /// The content that the hold was filled with.
    content: usize,
    /// Up to here something else may stand in the hold than its content, as far as it was seen to be as expected.
    changed: usize,
}

impl Hold {
    pub const CONTENTS: u64 = 4;

    /// Either with a fence on each side, or shifted, with bytes on each side that are watched.
    pub fn new(is_shifted: bool) -> Self {
        let (len, at) = if is_shifted {
            (HOLD + PAGE, PAGE - SHIFT)
        } else {
            (HOLD, 0)
        };
        let pages = fenced_pages(len);

        for i in (0..at).chain(at + HOLD..len) {
            unsafe { *pages.add(i) = pattern(i) };
        }

        Self {
            pages,
            len,
            at,
            before: Vec::new(),
            expected: vec![0; HOLD],
            content: 0,
            changed: HOLD,
        }
    }

    /// Fills the hold with one of the contents. What is known to be there already is left.
    pub fn fill(&mut self, content: u64) {
        let content = (content % Self::CONTENTS) as usize;
        let end = if content == self.content { self.changed } else { HOLD };
        let bytes = &CONTENTS[content][..end];
        self.expected[..end].copy_from_slice(bytes);
        self.bytes_mut()[..end].copy_from_slice(bytes);
        self.content = content;
        // Until all of it has been compared.
        self.changed = HOLD;
    }

    pub fn lend(&mut self) -> &mut [u8] {
        self.put_before(b"");
        self.bytes_mut()
    }

    /// The hold, with a part right before it.
    pub fn lend_behind(&mut self, part: &[u8]) -> (&[u8], &mut [u8]) {
        self.put_before(part);
        let part = unsafe { slice::from_raw_parts(self.pages.add(self.at - part.len()), part.len()) };
        (part, self.bytes_mut())
    }

    fn put_before(&mut self, part: &[u8]) {
        let from = self.at.saturating_sub(part.len() + MARGIN);
        self.before.clear();
        self.before.extend((from..self.at - part.len()).map(pattern));
        self.before.extend(part);
        unsafe { ptr::copy_nonoverlapping(self.before.as_ptr(), self.pages.add(from), self.before.len()) };
    }

    pub fn bytes(&self) -> &[u8] {
        self.slice(self.at, HOLD)
    }

    fn bytes_mut(&mut self) -> &mut [u8] {
        unsafe { slice::from_raw_parts_mut(self.pages.add(self.at), HOLD) }
    }

    fn slice(&self, at: usize, n: usize) -> &[u8] {
        unsafe { slice::from_raw_parts(self.pages.add(at), n) }
    }

    fn is_kept_beside(&self) -> bool {
        let (before, behind) = (self.before.len(), self.at + HOLD);
        let bytes = self.slice(behind, self.len - behind);
        self.slice(self.at - before, before) == self.before
            && bytes.iter().zip(behind..).all(|(&byte, at)| byte == pattern(at))
    }

    /// Compares the first `n` bytes of the hold, and those beside it, with what has to stand there.
    pub fn compare(&self, n: usize) -> Compared {
        if !self.is_kept_beside() {
            return Err(Difference {
                ours: "a byte beside the hold was changed".to_owned(),
                expected: "none changed".to_owned(),
            });
        }

        if self.bytes()[..n] == self.expected[..n] {
            return Ok(());
        }

        let place = (0..n).find(|&i| self.bytes()[i] != self.expected[i]).unwrap_or(n);
        let shown = |bytes: &[u8]| {
            let part = &bytes[place..HOLD.min(place + 16)];
            format!("in the hold from {place} on \"{}\"", part.escape_ascii())
        };
        Err(Difference {
            ours: shown(self.bytes()),
            expected: shown(&self.expected),
        })
    }

    /// Compares all of the hold, of which nothing from `changed` on had to change since it was filled.
    pub fn compare_all(&mut self, changed: usize) -> Compared {
        self.compare(HOLD)?;
        self.changed = changed;
        Ok(())
    }
}
