//! Positions as columns 4 and 5 have them: what the Rust decides, and what lies outside the comparison with it.

use crate::{case::By, ours::Number};

/// The Rust decides on up to 20 bytes without a sign. A sign is refused, and longer tokens are read by their value, which
/// the standard integer reader knows (RULES 4.1).
pub fn position(token: &[u8], rust: impl FnOnce() -> Result<u64, u8>) -> (By, Result<u64, u8>) {
    if matches!(token, [b'+' | b'-', ..]) {
        return (By::Checker, Err(2));
    }

    if token.len() <= 20 {
        return (By::Rust, rust());
    }

    let value = str::from_utf8(token).ok().and_then(|token| token.parse().ok());
    (By::Checker, value.filter(|&n| n > 0).ok_or(2))
}

/// A number or a refusal, as the library answers it.
pub fn answer(read: Result<impl Into<u64>, u8>) -> Number {
    match read {
        Ok(value) => Number {
            refused: 0,
            value: value.into(),
        },
        Err(refused) => Number {
            refused: refused.into(),
            value: 0,
        },
    }
}
