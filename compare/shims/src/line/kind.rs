//! Stands in for line/kind.rs, the kinds of a line; the kind's name rests on it, the choice does not.

/// A kind of line.
#[derive(Clone, Copy, Debug, Eq, PartialEq)]
pub enum Kind {
    /// Begins with `##`.
    Directive,
    /// Begins with `#`, and no second `#` follows.
    Comment,
    /// Any other line.
    Record,
}
