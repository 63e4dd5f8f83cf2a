//! What the bytes alone cost: no pass over a text can be faster than reading it, nor one over its lines than finding their ends.

use memchr::memchr_iter;

use crate::clock::Sum;

/// The text as words of 64 bits, added up.
#[inline(never)]
pub fn bytes(text: &[u8]) -> Sum {
    let words = text.chunks_exact(8);
    let rest = words.remainder().iter().map(|&byte| u64::from(byte)).sum();
    words.fold((0, rest), |(count, sum), word| {
        let word = word.try_into().expect("eight bytes are a word");
        (count + 1, u64::wrapping_add(sum, u64::from_le_bytes(word)))
    })
}

/// The line feeds, and the sum of their places.
#[inline(never)]
pub fn line_feeds(text: &[u8]) -> Sum {
    memchr_iter(b'\n', text).fold((0, 0), |(count, sum), at| (count + 1, sum + at as u64))
}
