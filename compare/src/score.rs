//! The grammar of a score token, from the sentence of RULES 4.2 alone: optional `-`, digits, optional `.` and digits, optional
//! `e` or `E` with optional sign and digits; each run of digits has at least one.

/// A piece of the grammar.
enum Piece {
    /// At most one of these bytes.
    Optional(&'static [u8]),
    /// One or more digits.
    Digits,
    /// All of this or nothing, by whether its first byte, one of these, is there.
    Group(&'static [u8], &'static [Piece]),
}

use Piece::{Digits, Group, Optional};

const TOKEN: &[Piece] = &[
    Optional(b"-"),
    Digits,
    Group(b".", &[Digits]),
    Group(b"eE", &[Optional(b"+-"), Digits]),
];

pub fn is_token(text: &[u8]) -> bool {
    rest(TOKEN, text).is_some_and(<[u8]>::is_empty)
}

/// What is left of a text behind the pieces. The longest way is the only one: no piece begins with what the one before may
/// end with.
fn rest<'a>(pieces: &[Piece], text: &'a [u8]) -> Option<&'a [u8]> {
    pieces.iter().try_fold(text, |text, piece| match (piece, text) {
        (Optional(set), [first, rest @ ..]) if set.contains(first) => Some(rest),
        (Optional(_), _) => Some(text),
        (Digits, _) => {
            let count = text.iter().take_while(|b| b.is_ascii_digit()).count();
            (count > 0).then(|| &text[count..])
        }
        (Group(set, inner), [first, behind @ ..]) if set.contains(first) => rest(inner, behind),
        (Group(..), _) => Some(text),
    })
}
