//! Lines of a text, their kinds, comments and directives.

use super::Door;
use crate::{Line, line::Kind};

/// One line, put in place of what `line` held; the bytes taken, 0 at the end of the text.
/// Calls the inner `read_line` of io/reader.rs.
pub fn read_line(text: &mut &[u8], line: &mut Vec<u8>) -> usize {
    line.clear();
    Door::read_line(text, line).expect("bytes at hand are read without fail")
}

/// The lines of a text, empty ones left out.
pub fn read_lines(text: &[u8]) -> Vec<Vec<u8>> {
    read_lines_that(text, |line| !line.is_empty())
}

/// All lines of a text, empty ones too.
pub fn read_all_lines(text: &[u8]) -> Vec<Vec<u8>> {
    read_lines_that(text, |_| true)
}

/// The lines of a text that pass a test. Calls the inner `read_line` of io/reader.rs until it takes nothing.
fn read_lines_that(mut text: &[u8], test: fn(&[u8]) -> bool) -> Vec<Vec<u8>> {
    let mut lines = Vec::new();
    let mut line = Vec::new();

    while read_line(&mut text, &mut line) > 0 {
        if test(&line) {
            lines.push(line.clone());
        }
    }

    lines
}

/// All lines of a text but those of nothing but ASCII white space, which the crate's public reader skips.
/// Calls `Reader::read_line` of io/reader.rs.
pub fn read_lines_not_blank(text: &[u8]) -> Vec<Vec<u8>> {
    let mut reader = crate::io::Reader::new(text);
    reader
        .lines()
        .map(|line| line.expect("bytes at hand are read without fail").0.into())
        .collect()
}

/// The kind of a line: 0 directive, 1 comment, 2 record. Calls `Line::kind` of line.rs.
pub fn kind(line: &[u8]) -> u8 {
    match Line(line.into()).kind() {
        Kind::Directive => 0,
        Kind::Comment => 1,
        Kind::Record => 2,
    }
}

/// A comment's text; nothing for a line of another kind. Calls `Line::as_comment` of line.rs.
pub fn comment(line: &[u8]) -> Option<Vec<u8>> {
    Line(line.into()).as_comment().map(|text| text.to_vec())
}

/// A directive's key, and its value if there is one; nothing for a line of another kind.
/// Calls `Line::as_directive` of line.rs, and `Directive::key` and `Directive::value` of directive.rs.
pub fn directive(line: &[u8]) -> Option<(Vec<u8>, Option<Vec<u8>>)> {
    Line(line.into())
        .as_directive()
        .map(|d| (d.key().to_vec(), d.value().map(|value| value.to_vec())))
}

/// Whether a line read as a record has its eight tabs; nothing for a line of another kind.
/// Calls `Line::as_record` of line.rs.
pub fn is_record(line: &[u8]) -> Option<bool> {
    Line(line.into()).as_record().map(|record| record.is_ok())
}
