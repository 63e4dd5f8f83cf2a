//! Texts of one mark many times over, in two sizes: where a call takes longer for a byte of the long text than for one of the short, its
//! time grows faster than the text.

use std::time::Duration;

use oracle::io::api::bench as rust;

use crate::{
    clock::{Call, Sum, in_turn},
    ours,
    passes::{report, split, walk},
};

const ROUNDS: usize = 3;
const ROUND: Duration = Duration::from_millis(2);

/// The short size and the long one.
const SIZES: [usize; 2] = [64 << 10, 4 << 20];

/// What is done with a text: here, with room for as many bytes, and by the Rust.
struct Work {
    ours: fn(&[u8], &mut [u8]) -> Sum,
    rust: fn(&[u8]) -> Sum,
}

const FIELDS: Work = Work {
    ours: |text, _| walk(&[text]),
    rust: |text| rust::attributes(&[text]),
};
const VALUES: Work = Work {
    ours: |text, _| values(text),
    rust: rust::values,
};
const DECODING: Work = Work {
    ours: decode,
    rust: |text| rust::decoded(&[text]),
};
const INDEX: Work = Work {
    ours: |text, _| index(text),
    rust: |text| rust::columns(&[text]),
};
const REPORT: Work = Work {
    ours: |text, _| report(text),
    rust: rust::report,
};
/// By the sum of their lengths alone: the Rust counts empty lines, which are left out here.
const LINES: Work = Work {
    ours: |text, _| (0, split(text).1),
    rust: |text| (0, rust::lines(text).1),
};

struct Shape {
    name: &'static str,
    work: Work,
    /// What the text begins with, and what is repeated behind it.
    first: &'static str,
    repeated: &'static str,
}

const fn shape(name: &'static str, work: Work, first: &'static str, repeated: &'static str) -> Shape {
    Shape {
        name,
        work,
        first,
        repeated,
    }
}

/// The columns before column 9.
const FRONT: &str = "s\ts\tg\t1\t9\t.\t.\t.\t";

const SHAPES: [Shape; 15] = [
    shape("fields of a=1;a=1;..", FIELDS, "", "a=1;"),
    shape("fields of a=;a=;..", FIELDS, "", "a=;"),
    shape("field of a===..", FIELDS, "a", "="),
    shape("fields of ;;;.., refused", FIELDS, "", ";"),
    shape("fields of a=1;bbb.., refused", FIELDS, "a=1;", "b"),
    shape("values of 1,1,1,..", VALUES, "", "1,"),
    shape("decoding %%%..", DECODING, "", "%"),
    shape("decoding %4%4%4..", DECODING, "", "%4"),
    shape("decoding %41%41..", DECODING, "", "%41"),
    shape("columns of tabs alone", INDEX, "", "\t"),
    shape("columns behind seven tabs", INDEX, "\t\t\t\t\t\t\t", "a"),
    shape("report of a line of a=1;a=1;..", REPORT, FRONT, "a=1;"),
    shape("report of a line of ;;;..", REPORT, FRONT, ";"),
    shape("lines of line feeds alone", LINES, "", "\n"),
    shape("lines of a byte each", LINES, "", "a\n"),
];

/// Measures each shape, and prints its row.
pub fn measure() -> Result<(), String> {
    let (ours, rust) = ("ours", "Rust");
    println!("many marks: nanoseconds for a byte, the least of {ROUNDS} rounds; growth is 4 MiB against 64 KiB");
    println!("{:<30} {:>19} {:>19} {:>15}", "", "64 KiB", "4 MiB", "growth");
    println!(
        "{:<30} {ours:>9} {rust:>9} {ours:>9} {rust:>9} {ours:>7} {rust:>7}",
        "text"
    );
    SHAPES.iter().try_for_each(row)
}

fn row(shape: &Shape) -> Result<(), String> {
    let [short, long] = SIZES.map(|size| nanoseconds(shape, size));
    let ([our_short, rust_short], [our_long, rust_long]) = (short?, long?);
    println!(
        "{:<30} {our_short:>9.4} {rust_short:>9.4} {our_long:>9.4} {rust_long:>9.4} {:>7.2} {:>7.2}",
        shape.name,
        our_long / our_short,
        rust_long / rust_short
    );
    Ok(())
}

/// What a byte of a text of this size takes, ours and the Rust's.
fn nanoseconds(shape: &Shape, size: usize) -> Result<[f64; 2], String> {
    let text = text(shape, size);
    let mut out = vec![0; size];
    let calls: [Call<'_>; 2] = [
        Box::new(|| (shape.work.ours)(&text, &mut out)),
        Box::new(|| (shape.work.rust)(&text)),
    ];
    let times = in_turn(ROUNDS, ROUND, calls).map_err(|what| format!("{}: {what}", shape.name))?;
    Ok(times.map(|times| times.least() * 1e9 / size as f64))
}

fn text(shape: &Shape, size: usize) -> Vec<u8> {
    let repeated = shape.repeated.bytes().cycle();
    shape.first.bytes().chain(repeated).take(size).collect()
}

#[inline(never)]
fn values(text: &[u8]) -> Sum {
    let (mut count, mut sum) = (0, 0);
    let mut value = ours::next_value(text, 0, 0);

    while value.done == 0 {
        count += 1;
        sum += (value.end - value.start) as u64;
        value = ours::next_value(text, value.next, value.out);
    }

    (count, sum)
}

#[inline(never)]
fn decode(text: &[u8], out: &mut [u8]) -> Sum {
    let length = ours::decode(text, out).length;
    let last = out[..length].last().map_or(0, |&byte| u64::from(byte));
    (length as u64, last)
}

#[inline(never)]
fn index(line: &[u8]) -> Sum {
    let indexed = ours::index(line);
    let ends = indexed.bounds.ends.iter().map(|&end| end as u64);
    (u64::from(indexed.refused == 0), ends.sum())
}
