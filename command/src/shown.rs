//! Bytes of a file for the eyes of a person: on one line, without a byte that a terminal would obey.

use std::{borrow::Cow, ops::Range, str};

use console::Style;

/// How much room there is, and whether there are colours.
#[derive(Clone, Copy)]
pub struct Look {
    pub width: usize,
    pub colors: bool,
}

impl Look {
    /// With so much less room, but not without any.
    pub fn narrower(self, by: usize) -> Self {
        Look {
            width: self.width.saturating_sub(by).max(8),
            ..self
        }
    }

    fn style(self, style: Style) -> Style {
        style.force_styling(self.colors)
    }

    pub fn red(self) -> Style {
        self.style(Style::new().red().bold())
    }

    pub fn yellow(self) -> Style {
        self.style(Style::new().yellow().bold())
    }

    pub fn bold(self) -> Style {
        self.style(Style::new().bold())
    }
}

/// All of it: a tab as an arrow, and what is no character to print by its number.
pub fn shown(bytes: &[u8]) -> String {
    let mut out = String::new();
    let mut left = bytes;
    while !left.is_empty() {
        let (valid, rest) = valid_prefix(left);
        valid.chars().for_each(|char| push_char(&mut out, char));
        left = match rest.split_first() {
            Some((byte, behind)) => {
                out.push_str(&format!("\\x{byte:02x}"));
                behind
            }
            None => rest,
        };
    }
    out
}

/// The text up to the first byte that is not UTF-8, and what is left.
fn valid_prefix(bytes: &[u8]) -> (&str, &[u8]) {
    match str::from_utf8(bytes) {
        Ok(text) => (text, &[]),
        Err(error) => {
            let (valid, rest) = bytes.split_at(error.valid_up_to());
            (str::from_utf8(valid).unwrap_or_default(), rest)
        }
    }
}

fn push_char(out: &mut String, char: char) {
    match char {
        '\t' => out.push('→'),
        _ if char.is_control() => out.push_str(&format!("\\x{:02x}", u32::from(char))),
        // They cannot be seen, and some turn the order of what is shown.
        '\u{ad}'
        | '\u{61c}'
        | '\u{200b}'..='\u{200f}'
        | '\u{2028}'..='\u{202e}'
        | '\u{2060}'..='\u{206f}'
        | '\u{feff}' => {
            out.push_str(&format!("\\u{:04x}", u32::from(char)));
        }
        _ => out.push(char),
    }
}

/// As many bytes as can be seen in so much room, and a character more, so that it shows where a text is cut.
fn most_bytes(width: usize) -> usize {
    4 * (width + 1)
}

/// A short text, in backquotes, since GTF is full of other ones.
pub fn quoted(bytes: &[u8]) -> String {
    const MOST: usize = 30;
    let text = shown(&bytes[..bytes.len().min(most_bytes(MOST))]);
    format!("`{}`", truncated(&text, MOST))
}

/// A line of a file, cut to the room there is; where a part of it is meant, that part is in it, and in colour.
pub fn cut_line(line: &[u8], meant: Range<usize>, look: Look) -> String {
    const BEFORE: usize = 20;
    let mut from = match meant.start > look.width / 2 {
        true => meant.start.saturating_sub(BEFORE),
        false => 0,
    };
    // Not in the middle of a character, if it is UTF-8.
    while from < meant.start && matches!(line[from], 0x80..=0xbf) {
        from += 1;
    }
    let to = line.len().min(from + most_bytes(look.width));
    let piece = |range: Range<usize>| shown(&line[range.start.clamp(from, to)..range.end.clamp(from, to)]);
    let dots = if from > 0 { "…" } else { "" };
    let text = format!(
        "{dots}{}{}{}",
        piece(from..meant.start),
        look.red().apply_to(piece(meant.clone())),
        piece(meant.end..to)
    );
    truncated(&text, look.width).into_owned()
}

/// A text that is not wider than so many characters is whole; console cuts one that has just this width.
fn truncated(text: &str, width: usize) -> Cow<'_, str> {
    match console::measure_text_width(text) <= width {
        true => text.into(),
        false => console::truncate_str(text, width, "…"),
    }
}
