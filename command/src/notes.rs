//! What the rules let pass, and a person would want to know: the warnings (RULES 18.4).

use std::str;

use gff3_lines::{Attributes, Build, Column, Line, Record, Refusal, Region, Version, decode};

use crate::{
    findings::{Finding, Matter},
    lines::Ended,
    options::Warning,
    shown::quoted,
};

/// A warning about a line: its column, and what it is about.
pub struct Note {
    pub warning: Warning,
    pub column: Option<Column>,
    pub what: String,
}

impl Note {
    pub fn new(warning: Warning, column: impl Into<Option<Column>>, what: String) -> Self {
        Note {
            warning,
            column: column.into(),
            what,
        }
    }

    pub fn finding(self, number: u64, line: &[u8]) -> Finding<'_> {
        Finding {
            matter: Matter::Warning(self.warning),
            number,
            column: self.column,
            what: (!self.what.is_empty()).then_some(self.what),
            line,
        }
    }
}

/// A record that is not refused, but for its tags.
pub fn record(record: &Record, notes: &mut Vec<Note>) {
    let (line, bounds) = (record.line(), record.bounds());
    let tabs = memchr::memchr_iter(b'\t', &line[bounds.phase_end..]).count();
    if tabs > 0 {
        let what = format!("{} of them", 9 + tabs);
        notes.push(Note::new(Warning::ExtraColumns, Column::Attributes, what));
    }
    if let (Ok(start), Ok(end)) = (record.start(), record.end()) {
        if start > end {
            notes.push(Note::new(Warning::Reversed, Column::Start, format!("{start}, {end}")));
        }
    }
    if record.phase() == Ok(None) && is_cds(&line[bounds.source_end..bounds.type_end - 1]) {
        notes.push(Note::new(Warning::PhaseMissing, Column::Phase, String::new()));
    }
    if let Some(stray) = stray_percent(line) {
        notes.push(Note::new(Warning::Percent, None, quoted(stray)));
    }
    utf8(line, notes);
}

/// Each attribute of column 9. Of tags that are strange in the same way the first is noted.
pub fn attributes(column: &[u8], notes: &mut Vec<Note>) -> Result<(), Refusal> {
    for field in Attributes(column) {
        let tag = field?.tag;
        if memchr::memchr2(b';', b' ', tag).is_some() {
            note_tag(tag, notes);
        }
    }
    Ok(())
}

/// What is left of a column 9 without an equals sign.
pub fn rest(text: &[u8], notes: &mut Vec<Note>) {
    note_once(Warning::Gtf, text, is_gtf, notes);
}

/// A tag that has a semicolon or a space in it.
fn note_tag(tag: &[u8], notes: &mut Vec<Note>) {
    note_once(Warning::Gtf, tag, is_gtf, notes);
    note_once(Warning::TagSemicolon, tag, |tag| tag.contains(&b';'), notes);
    let is_padded = |tag: &[u8]| tag.starts_with(b" ") || tag.ends_with(b" ");
    note_once(Warning::TagSpace, tag, is_padded, notes);
}

fn note_once(warning: Warning, tag: &[u8], is_such: impl Fn(&[u8]) -> bool, notes: &mut Vec<Note>) {
    if notes.iter().all(|note| note.warning != warning) && is_such(tag) {
        notes.push(Note::new(warning, Column::Attributes, quoted(tag)));
    }
}

/// Whether a text begins as a column 9 of GTF does: a word, spaces, and a quotation mark.
fn is_gtf(text: &[u8]) -> bool {
    let is_space = |byte: &u8| *byte == b' ';
    let is_word = |byte: &u8| byte.is_ascii_alphanumeric() || matches!(byte, b'_' | b'-' | b'.');
    let begin = text.iter().position(|byte| !is_space(byte)).unwrap_or(text.len());
    let word = text[begin..].iter().take_while(|byte| is_word(byte)).count();
    let rest = &text[begin + word..];
    let spaces = rest.iter().take_while(|byte| is_space(byte)).count();
    word > 0 && spaces > 0 && rest.get(spaces) == Some(&b'"')
}

fn is_cds(ty: &[u8]) -> bool {
    ty == b"CDS" || (ty.contains(&b'%') && decode(ty) == b"CDS")
}

/// The first percent sign that no two hex digits follow, and what does.
fn stray_percent(text: &[u8]) -> Option<&[u8]> {
    let is_escape =
        |at: usize| matches!(text.get(at + 1..at + 3), Some(digits) if digits.iter().all(u8::is_ascii_hexdigit));
    let stray = memchr::memchr_iter(b'%', text).find(|&at| !is_escape(at))?;
    // Up to the end of a character, if it is UTF-8.
    let is_end = |at: &usize| !matches!(text.get(*at), Some(0x80..=0xbf));
    let end = (stray + 3..).find(is_end).unwrap_or(stray);
    Some(&text[stray..text.len().min(end)])
}

/// What is noted of any line: bytes that are not UTF-8.
pub fn utf8(line: &[u8], notes: &mut Vec<Note>) {
    if let Err(error) = str::from_utf8(line) {
        let byte = line[error.valid_up_to()];
        notes.push(Note::new(Warning::Utf8, None, format!("\\x{byte:02x}")));
    }
}

/// How a text has ended.
pub fn end(ended: &Ended) -> Option<Note> {
    let missing = match ended {
        Ended { is_unended: true, .. } => "the last line has no line feed",
        Ended { is_cut: true, .. } => "the last block of bgzip is missing",
        _ => return None,
    };
    Some(Note::new(Warning::Cut, None, missing.to_owned()))
}

/// The typed value of a directive: a version of 3, a region, a build.
pub fn directive(line: Line, notes: &mut Vec<Note>) {
    let (key, value) = match line.directive() {
        Some(directive) => (directive.key, directive.value.unwrap_or_default()),
        None => return,
    };
    let wrong = match key {
        b"gff-version" => version(trimmed(value)),
        b"sequence-region" => Region::parse(value).err().map(|refusal| refusal.reason().to_owned()),
        b"genome-build" => Build::parse(value).err().map(|refusal| refusal.reason().to_owned()),
        _ => None,
    };
    notes.extend(wrong.map(|what| Note::new(Warning::Directive, None, what)));
}

/// Without the spaces around it, which many files have there.
fn trimmed(value: &[u8]) -> &[u8] {
    let is_text = |byte: &u8| !byte.is_ascii_whitespace();
    match (value.iter().position(is_text), value.iter().rposition(is_text)) {
        (Some(first), Some(last)) => &value[first..=last],
        _ => b"",
    }
}

fn version(value: &[u8]) -> Option<String> {
    match Version::parse(value) {
        Ok(version) if version.major == 3 => None,
        Ok(version) => Some(format!("gff-version {version}")),
        Err(refusal) => Some(refusal.reason().to_owned()),
    }
}
