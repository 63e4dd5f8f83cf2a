//! Memory between inaccessible pages, where a read or a write outside a lent slice is caught.
//!
//! What is lent for reading lies in pages that cannot be written: the same memory is mapped a second time, and filled there.

use std::{
    ffi::{c_char, c_int, c_void},
    ops::Range,
    ptr, slice,
};

/// What a page has on x86-64 Linux, which the library is built for.
pub const PAGE: usize = 4096;

/// The bytes beside a lent output buffer whose contents are watched.
pub const MARGIN: usize = 64;

const PROT_NONE: c_int = 0;
const PROT_READ: c_int = 1;
const PROT_WRITE: c_int = 2;
const MAP_SHARED: c_int = 1;
const MAP_PRIVATE: c_int = 2;
const MAP_FIXED: c_int = 16;
const MAP_ANONYMOUS: c_int = 32;

unsafe extern "C" {
    fn mmap(address: *mut c_void, len: usize, protection: c_int, flags: c_int, file: c_int, offset: i64)
    -> *mut c_void;
    fn memfd_create(name: *const c_char, flags: u32) -> c_int;
    fn ftruncate(file: c_int, len: i64) -> c_int;
}

/// Where in its pages a slice is lent: each side has its own fence.
#[derive(Clone, Copy, Debug, Eq, PartialEq)]
pub enum Side {
    /// It ends where the inaccessible page begins.
    Last,
    /// It begins where the inaccessible page ends.
    First,
}

/// Bytes that can be lent for reading alone.
pub struct Texts {
    inside: *mut u8,
    outside: *const u8,
    len: usize,
}

impl Texts {
    /// Room for texts of up to `len` bytes.
    pub fn new(len: usize) -> Self {
        let len = len.next_multiple_of(PAGE);

        unsafe {
            let file = memfd_create(c"texts".as_ptr(), 0);
            assert!(
                file >= 0 && ftruncate(file, len as i64) == 0,
                "no memory of {len} bytes"
            );

            Self {
                inside: fenced(len, PROT_READ | PROT_WRITE, MAP_SHARED, file),
                outside: fenced(len, PROT_READ, MAP_SHARED, file),
                len,
            }
        }
    }

    /// A copy of the text beside a fence, in pages that cannot be written.
    pub fn lend(&mut self, text: &[u8], side: Side) -> &[u8] {
        let at = place(self.len, text.len(), side);

        unsafe {
            ptr::copy_nonoverlapping(text.as_ptr(), self.inside.add(at), text.len());
            slice::from_raw_parts(self.outside.add(at), text.len())
        }
    }
}

/// Bytes that can be lent for writing, with a pattern in and beside them.
pub struct Room {
    start: *mut u8,
    len: usize,
    lent: Range<usize>,
    /// The texts that stand right before the lent buffer.
    beside: Vec<u8>,
}

impl Room {
    /// Room for a buffer and the text beside it of up to `len` bytes together.
    pub fn new(len: usize) -> Self {
        let len = (len + MARGIN).next_multiple_of(PAGE);

        Self {
            start: fenced_pages(len),
            len,
            lent: 0..0,
            beside: Vec::new(),
        }
    }

    /// A buffer of `n` bytes beside a fence, filled with the pattern, as are the bytes on its other side.
    pub fn lend(&mut self, n: usize, side: Side) -> &mut [u8] {
        self.fill(b"", n, side);
        unsafe { slice::from_raw_parts_mut(self.start.add(self.lent.start), n) }
    }

    /// The same with texts right before the buffer, the first of them last: code that copies by large steps looks how far apart
    /// a text and the buffer are.
    pub fn lend_behind(&mut self, texts: [&[u8]; 3], n: usize) -> ([&[u8]; 3], &mut [u8]) {
        let [first, second, third] = texts;
        self.fill(&[third, second, first].concat(), n, Side::Last);
        let mut at = self.lent.start;
        let out = unsafe { slice::from_raw_parts_mut(self.start.add(at), n) };
        let lent = texts.map(|text| {
            at -= text.len();
            unsafe { slice::from_raw_parts(self.start.add(at), text.len()) }
        });

        (lent, out)
    }

    fn fill(&mut self, text: &[u8], n: usize, side: Side) {
        let at = place(self.len, n, side);
        self.lent = at..at + n;
        self.beside.clear();
        self.beside.extend(text);

        for at in self.watched() {
            unsafe { *self.start.add(at) = pattern(at) };
        }

        let text_at = at.checked_sub(text.len()).expect("the text fits");
        unsafe { ptr::copy_nonoverlapping(text.as_ptr(), self.start.add(text_at), text.len()) };
    }

    /// What the lent buffer has now; nothing where a byte beside it was changed.
    pub fn left(&self) -> Option<&[u8]> {
        let Range { start, end } = self.watched();
        let text_at = self.lent.start - self.beside.len();
        let bytes = |range: Range<usize>| unsafe { slice::from_raw_parts(self.start.add(range.start), range.len()) };
        let kept = |range: Range<usize>| bytes(range.clone()).iter().zip(range).all(|(&b, at)| b == pattern(at));

        (kept(start..text_at) && bytes(text_at..self.lent.start) == self.beside && kept(self.lent.end..end))
            .then(|| bytes(self.lent.clone()))
    }

    /// Whether the lent buffer has this text at its start, and the pattern behind it.
    pub fn has(&self, text: &[u8]) -> bool {
        let at = self.lent.start + text.len();

        self.left().is_some_and(|left| {
            left.strip_prefix(text)
                .is_some_and(|rest| rest.iter().enumerate().all(|(i, &b)| b == pattern(at + i)))
        })
    }

    fn watched(&self) -> Range<usize> {
        let before = self.lent.start.saturating_sub(self.beside.len() + MARGIN);
        before..(self.lent.end + MARGIN).min(self.len)
    }
}

/// A byte that differs from place to place, and is rare in texts.
pub fn pattern(at: usize) -> u8 {
    0x80 | (at as u8).wrapping_mul(37)
}

fn place(len: usize, n: usize, side: Side) -> usize {
    assert!(n <= len, "{n} bytes do not fit");

    match side {
        Side::Last => len - n,
        Side::First => 0,
    }
}

/// Pages for writing with an inaccessible one before and behind them.
pub fn fenced_pages(len: usize) -> *mut u8 {
    unsafe { fenced(len, PROT_READ | PROT_WRITE, MAP_PRIVATE | MAP_ANONYMOUS, -1) }
}

/// Pages with an inaccessible one before and behind them.
unsafe fn fenced(len: usize, protection: c_int, flags: c_int, file: c_int) -> *mut u8 {
    let failed = ptr::without_provenance_mut::<c_void>(usize::MAX);

    unsafe {
        let whole = mmap(
            ptr::null_mut(),
            len + 2 * PAGE,
            PROT_NONE,
            MAP_PRIVATE | MAP_ANONYMOUS,
            -1,
            0,
        );
        assert!(whole != failed, "no memory of {len} bytes");
        let inner = mmap(whole.byte_add(PAGE), len, protection, flags | MAP_FIXED, file, 0);
        assert!(inner != failed, "no memory of {len} bytes");
        inner.cast()
    }
}
