//! A case: what a call is given, and where its answer is not the one expected.

use std::fmt::{self, Debug, Write};

/// The bounds that a reader is given.
#[derive(Clone, Copy, Debug, Default, Eq, PartialEq)]
pub enum Given {
    /// The line's own, or zeros where it has none.
    #[default]
    Own,
    These([usize; 8]),
}

/// The bytes of room that a writer is given, against those it needs.
#[derive(Clone, Copy, Debug, Default, Eq, PartialEq)]
pub enum Slack {
    #[default]
    Full,
    /// So many more.
    Over(usize),
    /// So many fewer, or none if it needs no more.
    Short(usize),
    /// So many for each byte of the texts that it is given, and so many more, or fewer: whatever it needs.
    Each(usize, isize),
    None,
}

impl Slack {
    pub const ALL: [Self; 5] = [Self::Full, Self::Over(1), Self::Over(20), Self::Short(1), Self::None];

    pub fn room(self, need: usize, given: usize) -> usize {
        match self {
            Self::Full => need,
            Self::Over(n) => need + n,
            Self::Short(n) => need.saturating_sub(n),
            Self::Each(n, more) => (n * given).saturating_add_signed(more),
            Self::None => 0,
        }
    }
}

/// What a call is given. A call leaves out what it has no use for.
#[derive(Clone, Copy, Debug, Default)]
pub struct Case<'a> {
    /// The text, part, line, column, value, sheet or key.
    pub text: &'a [u8],
    /// The tag that is looked up, or the first text beside a key.
    pub tag: &'a [u8],
    /// The second text beside a key.
    pub second: &'a [u8],
    /// The cursor, the column, the set, the kind of a directive's value, or the bytes that are held.
    pub number: usize,
    /// The numbers beside a sheet or a key; beside a part, as parts.rs has them.
    pub numbers: [u64; 4],
    /// The places where a text is cut into parts, from the first on.
    pub cuts: &'a [usize],
    /// Whether the last value is out.
    pub out: u64,
    pub bounds: Given,
    pub slack: Slack,
}

impl<'a> Case<'a> {
    pub fn of(text: &'a [u8]) -> Self {
        Self {
            text,
            ..Self::default()
        }
    }

    pub fn at(text: &'a [u8], number: usize) -> Self {
        Self {
            text,
            number,
            ..Self::default()
        }
    }
}

impl fmt::Display for Case<'_> {
    fn fmt(&self, f: &mut fmt::Formatter<'_>) -> fmt::Result {
        show(f, "text", self.text)?;

        if !self.tag.is_empty() {
            show(f, "tag", self.tag)?;
        }

        if !self.second.is_empty() {
            show(f, "second", self.second)?;
        }

        if self.number != 0 {
            writeln!(
                f,
                "  number   {} (the cursor, the column, the set, the kind, or what is held)",
                self.number
            )?;
        }

        if self.numbers != [0; 4] {
            writeln!(f, "  numbers  {:?}", self.numbers)?;
        }

        if !self.cuts.is_empty() {
            writeln!(f, "  cuts     {:?}", self.cuts)?;
        }

        if self.out != 0 {
            writeln!(f, "  out      {}", self.out)?;
        }

        if self.bounds != Given::Own {
            writeln!(f, "  bounds   {:?}", self.bounds)?;
        }

        if self.slack != Slack::Full {
            writeln!(f, "  room     {:?}, against what is needed", self.slack)?;
        }

        Ok(())
    }
}

/// A text as hex and with escapes, cut where it is too long to be read.
fn show(f: &mut fmt::Formatter<'_>, name: &str, text: &[u8]) -> fmt::Result {
    const SHOWN: usize = 2000;

    let (part, cut) = match text.get(..SHOWN) {
        Some(part) => (part, " .."),
        None => (text, ""),
    };

    let hex = part.iter().fold(String::new(), |mut s, b| {
        write!(s, "{b:02x}").expect("a string takes any text");
        s
    });

    writeln!(f, "  {name:<8} {} bytes: {hex}{cut}", text.len())?;
    writeln!(f, "           \"{}\"{cut}", part.escape_ascii())
}

/// Two answers that are not the same.
pub struct Difference {
    pub ours: String,
    pub expected: String,
}

pub type Compared = Result<(), Difference>;

/// Who says what an answer has to be.
#[derive(Clone, Copy, Debug, Eq, PartialEq)]
pub enum By {
    /// The Rust: every text, number and refusal of the answer is its own. How C has them, by places and with 0 in the fields that
    /// say nothing, and the counts of a sheet, are not.
    Rust,
    /// A checker of this comparison, written from docs/RULES.md: the Rust has no such case, or does otherwise.
    Checker,
}

impl By {
    /// The Rust where this holds, else the checker.
    pub fn rust_if(holds: bool) -> Self {
        if holds { Self::Rust } else { Self::Checker }
    }

    /// The Rust where both are.
    pub fn and(self, other: Self) -> Self {
        Self::rust_if(self == Self::Rust && other == Self::Rust)
    }

    pub fn says(self, compared: Compared) -> Verdict {
        Verdict { by: self, compared }
    }
}

/// What a comparison found, and who decided it.
pub struct Verdict {
    pub by: By,
    pub compared: Compared,
}

/// Compares an answer of the library with the one expected.
pub fn same<T: Debug + PartialEq>(ours: T, expected: T) -> Compared {
    if ours == expected {
        return Ok(());
    }

    Err(Difference {
        ours: format!("{ours:?}"),
        expected: format!("{expected:?}"),
    })
}

/// Compares the text at a place of the library with the one expected.
pub fn same_text(text: &[u8], start: usize, end: usize, expected: &[u8]) -> Compared {
    let found = text.get(start..end);

    if found == Some(expected) {
        return Ok(());
    }

    Err(Difference {
        ours: format!("at {start}..{end}: {:?}", found.map(|s| s.escape_ascii().to_string())),
        expected: format!("{:?}", expected.escape_ascii().to_string()),
    })
}
