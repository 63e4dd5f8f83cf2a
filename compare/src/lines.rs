//! Lines, their kinds, comments and directives.

use oracle::io::api::lines as rust;

use crate::{
    case::{By, Case, Compared, Verdict, same, same_text},
    desk::Desk,
    ours::{self, CommentText, DirectiveText, Line},
    report::{Call, Report},
    texts::{self, BYTES, Dice},
};

/// Bytes that begin or end lines, keys and values, and some that only look so.
const MARKS: &[u8] = b"#a \t\n\x0b\x0c\r\x85\xa0";

pub fn every(report: &mut Report, len: usize) {
    if len <= 11 {
        let alphabet: &[u8] = if len <= 8 { b"a \r\n" } else { b"a\r\n" };
        texts::every(alphabet, len, |text| all_cursors(report, text));
    }

    if len <= 5 {
        texts::every(MARKS, len, |line| {
            one_line(report, line);
            one_line(report, &[b"##", line].concat());
        });
    }
}

/// A line end at each place of texts of each length, from each cursor; and blank lines, few and many.
pub fn sweep(report: &mut Report) {
    blank_lines(report);

    for len in 0..=70 {
        let mut text = vec![b'a'; len];

        for feed in 0..len {
            text[feed] = b'\n';
            all_cursors(report, &text);

            if feed > 0 {
                text[feed - 1] = b'\r';
                all_cursors(report, &text);
                text[feed - 1] = b'a';
            }

            text[feed] = b'a';
        }

        for at in 0..len {
            for &mark in MARKS {
                text[at] = mark;
                one_line(report, &text);
                one_line(report, &[b"##", text.as_slice()].concat());
                text[at] = b'a';
            }
        }
    }
}

/// Blank lines, up to forty and five million, before a line, behind one and alone.
fn blank_lines(report: &mut Report) {
    for (before, behind) in [
        (&b""[..], &b""[..]),
        (b"a\r\n", b"b\n"),
        (b" \n", b"\r"),
        (b"\r\r\n", b"\ra"),
    ] {
        for blank in [&b"\n"[..], b"\r\n", b"\n\r\n"] {
            for count in 0..=40 {
                all_cursors(report, &[before, &blank.repeat(count), behind].concat());
            }
        }
    }

    let mut text = b"\n".repeat(5_000_000);
    report.check(Call::NextLine, Case::of(&text), all_lines);
    text.push(b'a');
    report.check(Call::NextLine, Case::of(&text), all_lines);
}

pub fn random(report: &mut Report, dice: &mut Dice) {
    let len = dice.len();
    let text = match dice.below(6) {
        0 => dice.text(len, b"aaaaaaaaaaaaaaa\r\n"),
        1 => dice.text(len, b"ab\r\n"),
        2 => dice.text(len, &BYTES),
        3 => {
            let count = if dice.once_in(50) { 500 } else { 4 };
            texts::lines(dice, count)
        }
        _ => {
            let mut text = texts::lines(dice, 3);
            texts::damage(dice, &mut text, MARKS);
            text
        }
    };

    for _ in 0..8 {
        report.check(Call::NextLine, Case::at(&text, dice.cursor(text.len())), next_line);
    }

    report.check(Call::NextLine, Case::of(&text), all_lines);

    for line in rust::read_lines(&text).iter().take(20) {
        one_line(report, line);
    }

    let line = dice.text(len, MARKS);
    one_line(report, &line);
    let mut line = [b"##gff-version 3 ", line.as_slice()].concat();
    texts::damage(dice, &mut line, MARKS);
    one_line(report, &line);
}

fn all_cursors(report: &mut Report, text: &[u8]) {
    for at in 0..=text.len() + 1 {
        report.check(Call::NextLine, Case::at(text, at), next_line);
    }

    report.check(Call::NextLine, Case::at(text, usize::MAX), next_line);
    report.check(Call::NextLine, Case::of(text), all_lines);
}

fn one_line(report: &mut Report, line: &[u8]) {
    report.check(Call::Kind, Case::of(line), kind);
    report.check(Call::Comment, Case::of(line), comment);
    report.check(Call::Directive, Case::of(line), directive);
}

/// From a cursor, as the Rust reads what is left from there, its empty lines left out. That a cursor beyond the text counts as at its end
/// is RULES 1.5.
fn next_line(desk: &mut Desk, case: Case<'_>) -> Verdict {
    By::rust_if(case.number <= case.text.len()).says(line_from(desk, case))
}

fn line_from(desk: &mut Desk, case: Case<'_>) -> Compared {
    let end = case.text.len();
    let mut at = case.number.min(end);
    let mut line = Vec::new();
    let mut taken = rust::read_line(&mut &case.text[at..], &mut line);

    while taken > 0 && line.is_empty() {
        at += taken;
        taken = rust::read_line(&mut &case.text[at..], &mut line);
    }

    let lent = desk.text(case.text);
    let answer = ours::next_line(lent, case.number);

    if taken == 0 {
        return same(answer, done(end));
    }

    let expected = Line {
        done: 0,
        start: at,
        end: at + line.len(),
        next: at + taken,
    };
    same(answer, expected)?;
    same_text(lent, answer.start, answer.end, &line)
}

fn done(next: usize) -> Line {
    Line {
        done: 1,
        next,
        ..Line::default()
    }
}

/// From the start, by the library's own cursors, and at the end once more.
fn all_lines(desk: &mut Desk, case: Case<'_>) -> Verdict {
    By::Rust.says(lines_by_cursor(desk, case))
}

fn lines_by_cursor(desk: &mut Desk, case: Case<'_>) -> Compared {
    let lent = desk.text(case.text);
    let mut at = 0;

    for line in rust::read_lines(case.text) {
        let answer = ours::next_line(lent, at);
        same(answer.done, 0)?;
        same_text(lent, answer.start, answer.end, &line)?;
        at = answer.next;
    }

    let last = ours::next_line(lent, at);
    same(last, done(case.text.len()))?;
    same(ours::next_line(lent, last.next), last)
}

fn kind(desk: &mut Desk, case: Case<'_>) -> Verdict {
    let kind = ours::kind(desk.text(case.text));
    By::Rust.says(same(kind, u32::from(rust::kind(case.text))))
}

fn comment(desk: &mut Desk, case: Case<'_>) -> Verdict {
    By::Rust.says(comment_text(desk, case))
}

fn comment_text(desk: &mut Desk, case: Case<'_>) -> Compared {
    let lent = desk.text(case.text);
    let answer = ours::comment(lent);

    let Some(text) = rust::comment(case.text) else {
        return same(answer, CommentText::default());
    };

    let end = case.text.len();
    let expected = CommentText {
        is: 1,
        start: end - text.len(),
        end,
    };
    same(answer, expected)?;
    same_text(lent, answer.start, answer.end, &text)
}

fn directive(desk: &mut Desk, case: Case<'_>) -> Verdict {
    By::Rust.says(directive_text(desk, case))
}

fn directive_text(desk: &mut Desk, case: Case<'_>) -> Compared {
    let lent = desk.text(case.text);
    let answer = ours::directive(lent);

    let Some((key, value)) = rust::directive(case.text) else {
        return same(answer, DirectiveText::default());
    };

    let end = case.text.len();
    let expected = DirectiveText {
        is: 1,
        key_start: 2,
        key_end: 2 + key.len(),
        has_value: value.is_some().into(),
        value_start: value.as_ref().map_or(0, |value| end - value.len()),
        value_end: value.as_ref().map_or(0, |_| end),
    };
    same(answer, expected)?;
    same_text(lent, answer.key_start, answer.key_end, &key)?;
    value.map_or(Ok(()), |value| {
        same_text(lent, answer.value_start, answer.value_end, &value)
    })
}
