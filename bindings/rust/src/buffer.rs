//! What the library writes, appended to a buffer.

use std::mem::MaybeUninit;

use crate::{Refusal, ffi};

/// The most that is made room for before the writer has said how much it needs.
const MOST_GUESSED: usize = 1 << 20;

/// Appends what a writer writes, and nothing where it refuses. It is called once more where it needs more room than was guessed.
pub(crate) fn append(
    out: &mut Vec<u8>,
    guess: usize,
    mut write: impl FnMut(&mut [MaybeUninit<u8>]) -> ffi::Written,
) -> Result<(), Refusal> {
    out.reserve(guess.min(MOST_GUESSED));
    let mut written = write(out.spare_capacity_mut());
    if written.refused == Refusal::Room as u64 {
        out.reserve(written.length);
        written = write(out.spare_capacity_mut());
    }
    Refusal::check(written.refused)?;
    assert!(
        written.length <= out.capacity() - out.len(),
        "a writer keeps to its buffer"
    );
    // SAFETY: the writer was not refused, so that it has written this many bytes of the spare ones.
    unsafe { out.set_len(out.len() + written.length) };
    Ok(())
}

/// What is appended to an empty buffer.
pub(crate) fn made(append: impl FnOnce(&mut Vec<u8>) -> Result<(), Refusal>) -> Result<Vec<u8>, Refusal> {
    let mut out = Vec::new();
    append(&mut out).map(|()| out)
}
