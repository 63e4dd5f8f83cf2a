//! The passes over an annotation, ours beside the Rust's.

use std::io::Read;

use oracle::io::api::{bench as rust, lines::kind, record, writing::rewrite_record};

use crate::{
    clock::{Call, Sum},
    ours,
};

/// A pass by both sides.
pub struct Pass<'a> {
    pub name: &'static str,
    pub calls: [Call<'a>; 2],
}

fn pass<'a>(name: &'static str, ours: impl FnMut() -> Sum + 'a, rust: impl FnMut() -> Sum + 'a) -> Pass<'a> {
    Pass {
        name,
        calls: [Box::new(ours), Box::new(rust)],
    }
}

/// What the passes go over.
pub struct Input<'a> {
    pub text: &'a [u8],
    pub lines: Vec<&'a [u8]>,
    columns: Vec<&'a [u8]>,
    escapes: Vec<&'a [u8]>,
    plain: Vec<&'a [u8]>,
}

impl<'a> Input<'a> {
    /// A text, and the two texts to decode that are made of it.
    pub fn new(text: &'a [u8], decodable: &'a [Vec<u8>; 2]) -> Self {
        let lines = records(text);
        let columns = lines.iter().filter_map(|line| Some(record::columns(line)?[8]));
        let [escapes, plain] = decodable.each_ref().map(|text| text.chunks(PIECE).collect());

        Self {
            text,
            columns: columns.collect(),
            lines,
            escapes,
            plain,
        }
    }
}

pub fn all<'a>(input: &'a Input<'a>) -> [Pass<'a>; 10] {
    let Input {
        text,
        lines,
        columns,
        escapes,
        plain,
    } = input;
    let (mut part, mut hold) = (vec![0; PART], vec![0; PART]);
    let (mut sheet, mut out) = (vec![0; ROOM], vec![0; ROOM]);
    let parts = move || in_parts(text, &mut part, &mut hold);
    let writing = move || rewrite(lines, &mut sheet, &mut out);

    [
        pass("lines", || split(text), || rust::lines(text)),
        pass("parts", parts, || rust::parts(text, PART)),
        pass("columns", || index(lines), || rust::columns(lines)),
        pass("fields", || fields(lines), || rust::fields(lines)),
        pass("record", || read(lines), || rust::fields(lines)),
        pass("attributes", || walk(columns), || rust::attributes(columns)),
        pass("writing", writing, || rust::records(lines)),
        pass("report", || report(text), || rust::report(text)),
        pass("escapes", || decode(escapes), || rust::decoded(escapes)),
        pass("no escapes", || decode(plain), || rust::decoded(plain)),
    ]
}

/// The record lines of a text, cut by the library: the passes find out whether the Rust agrees.
pub fn records(text: &[u8]) -> Vec<&[u8]> {
    let mut lines = Vec::new();
    let mut at = 0;

    loop {
        let line = ours::next_line(text, at);

        if line.done != 0 {
            return lines;
        }

        let part = &text[line.start..line.end];

        if kind(part) == 2 {
            lines.push(part);
        }

        at = line.next;
    }
}

#[inline(never)]
pub fn split(text: &[u8]) -> Sum {
    let (mut count, mut sum) = (0, 0);
    let mut at = 0;

    loop {
        let line = ours::next_line(text, at);

        if line.done != 0 {
            return (count, sum);
        }

        count += 1;
        sum += (line.end - line.start) as u64;
        at = line.next;
    }
}

/// The length of a part, and of the hold: a longer line is not handed out, so that the sums differ where the text has one.
const PART: usize = 65_536;

#[inline(never)]
fn in_parts(mut input: &[u8], part: &mut [u8], hold: &mut [u8]) -> Sum {
    let mut text = Arriving {
        hold,
        state: ours::State::default(),
        sum: (0, 0),
    };

    while let Ok(count @ 1..) = input.read(part) {
        text.take(&part[..count]);
    }

    let last = ours::end_parts(text.state, text.hold);
    text.add(last);
    text.sum
}

/// A text that comes in parts.
struct Arriving<'a> {
    hold: &'a mut [u8],
    state: ours::State,
    sum: Sum,
}

impl Arriving<'_> {
    fn take(&mut self, mut part: &[u8]) {
        while !part.is_empty() {
            let answer = ours::take_part(self.state, self.hold, part);
            self.add(answer);
            self.state = answer.state;
            part = &part[answer.taken..];
        }
    }

    /// Adds the line that a call handed out, if it did: its length and its last byte.
    fn add(&mut self, answer: ours::Part) {
        if answer.has_line != 0 {
            let last = self.hold[..answer.length].last();
            self.sum.0 += 1;
            self.sum.1 += answer.length as u64 + last.map_or(0, |&byte| u64::from(byte));
        }
    }
}

#[inline(never)]
fn index(lines: &[&[u8]]) -> Sum {
    let (mut count, mut sum) = (0, 0);

    for line in lines {
        let indexed = ours::index(line);

        if indexed.refused == 0 {
            count += 1;
            sum += indexed.bounds.ends.iter().map(|&end| end as u64).sum::<u64>();
        }
    }

    (count, sum)
}

#[inline(never)]
fn fields(lines: &[&[u8]]) -> Sum {
    let (mut count, mut sum) = (0, 0);

    for line in lines {
        let indexed = ours::index(line);

        if indexed.refused != 0 {
            continue;
        }

        let bounds = indexed.bounds;
        let numbers = [
            ours::start(line, bounds),
            ours::end(line, bounds),
            ours::strand(line, bounds),
            ours::phase(line, bounds),
        ];

        if numbers.iter().all(|number| number.refused == 0) {
            count += 1;
            sum += numbers.iter().map(|number| number.value).sum::<u64>();
        }
    }

    (count, sum)
}

/// The same numbers by one call. It refuses scores too, so that the sums differ where the text has one that is refused.
#[inline(never)]
fn read(lines: &[&[u8]]) -> Sum {
    let (mut count, mut sum) = (0, 0);

    for line in lines {
        let record = ours::record(line);

        if record.refused == 0 {
            count += 1;
            sum += record.start + record.end + u64::from(record.strand) + u64::from(record.phase);
        }
    }

    (count, sum)
}

#[inline(never)]
pub fn walk(columns: &[&[u8]]) -> Sum {
    let (mut count, mut sum) = (0, 0);

    for column in columns {
        let mut at = 0;

        loop {
            let field = ours::next_field(column, at);

            if field.refused | field.done != 0 {
                break;
            }

            count += 1;
            sum += (field.tag_end - field.tag_start + field.value_end - field.value_start) as u64;
            at = field.next;
        }
    }

    (count, sum)
}

/// The room for a sheet, and for a line: more than any record of an annotation needs.
const ROOM: usize = 1 << 20;

/// Whether a record is written as the Rust writes it, or refused where the Rust fails.
pub fn is_same(line: &[u8]) -> bool {
    let (mut sheet, mut out) = (vec![0; 12 * line.len()], vec![0; 3 * line.len()]);
    let mut expected = Vec::new();
    let written = rewritten(line, &mut sheet, &mut out);
    let is_ok = rewrite_record(line, &mut expected).is_ok();
    (written.refused == 0) == is_ok && (!is_ok || out[..written.length] == expected)
}

fn rewritten(line: &[u8], sheet: &mut [u8], out: &mut [u8]) -> ours::Written {
    let record = ours::unfold(line, sheet);

    if record.refused != 0 {
        return ours::Written {
            refused: record.refused,
            length: 0,
        };
    }

    ours::write_record(
        &sheet[..record.length],
        record.start,
        record.end,
        record.strand,
        record.phase,
        out,
    )
}

#[inline(never)]
fn rewrite(lines: &[&[u8]], sheet: &mut [u8], out: &mut [u8]) -> Sum {
    let (mut count, mut sum) = (0, 0);

    for line in lines {
        let written = rewritten(line, sheet, out);

        if written.refused == 0 {
            count += 1;
            sum += written.length as u64;
        }
    }

    (count, sum)
}

/// The lines that are not refused, and the sum of the records' lengths.
#[inline(never)]
pub fn report(text: &[u8]) -> Sum {
    let report = ours::report(text);
    (report.records + report.directives + report.comments, report.sum)
}

/// How many bytes of the annotation at most are made into texts to decode, and the length of each text: a whole number of escapes.
const DECODED: usize = 1 << 20;
const PIECE: usize = 3 * 1_024;

/// The first bytes of a text as escapes, every other one with small digits; together no longer than the text.
pub fn escapes(text: &[u8]) -> Vec<u8> {
    let digits = [b"0123456789ABCDEF", b"0123456789abcdef"];
    let first = &text[..DECODED.min(text.len() / 3)];
    let mut escapes = Vec::with_capacity(3 * first.len());

    for (byte, digits) in first.iter().zip(digits.iter().cycle()) {
        escapes.extend([b'%', digits[usize::from(byte / 16)], digits[usize::from(byte % 16)]]);
    }

    escapes
}

/// The first bytes of a text without its percent signs.
pub fn plain(text: &[u8]) -> Vec<u8> {
    let first = text.iter().take(DECODED);
    first.copied().filter(|&byte| byte != b'%').collect()
}

#[inline(never)]
fn decode(texts: &[&[u8]]) -> Sum {
    let mut out = vec![0; PIECE];
    let (mut count, mut sum) = (0, 0);

    for text in texts {
        let length = ours::decode(text, &mut out).length;
        count += length as u64;
        sum += out[..length].last().map_or(0, |&byte| u64::from(byte));
    }

    (count, sum)
}
