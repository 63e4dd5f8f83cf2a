//! Measures the library, called by its C functions, against the Rust's own functions, in one process and on the same text.
//!
//!     bench FILE [ROUNDS]
//!
//! Ten passes over an annotation: splitting its lines; splitting them while the text comes in parts of 65,536 bytes; finding the
//! columns of each record line; reading start, end, strand and phase of each, by a call for the columns and one for each number; the
//! same by one call, which reads the score too; walking each column 9 to its end; writing each record again, by unfolding and writing
//! here, and by the Rust's record and its writer; the report of the whole text, where the Rust reads each line's kind, each record's
//! start and end, and walks its column 9; and decoding texts of escapes alone, and texts without any, each to a text of its own.
//!
//! They go over the first lines of the file, about 1 MB, which a cache holds, and over the whole file; decoding takes 3 MiB of escapes
//! and 1 MiB without any at most. Beside them stand two floors: reading the text and nothing else, and finding its line feeds and
//! nothing else. Then come texts of one mark many times over, as shapes.rs has them.
//!
//! Lines, columns and texts are made before the pass that needs them. Parts are read into a buffer, as they would be from a file, on
//! both sides. The two take turns, each pass is repeated until its round takes 20 ms, and both must come to the same counts and sums;
//! what they write is compared byte by byte before the passes. No buffer is cleared or filled from line to line, but for the Rust's
//! vectors, which are emptied before each. Buffers for parts, sheets and lines are made before the pass; the Rust's functions make theirs
//! once in each.

mod clock;
mod floors;
#[path = "../src/ours.rs"]
#[expect(dead_code, reason = "the passes call some of the functions")]
mod ours;
mod passes;
mod shapes;

use std::{env, fs, process::ExitCode, time::Duration};

use clock::{Call, Sum, Times, in_turn};
use passes::Input;

/// How long a round takes at least.
const ROUND: Duration = Duration::from_millis(20);

/// How many bytes a cache is sure to hold.
const CACHED: usize = 1_000_000;

fn main() -> ExitCode {
    match run() {
        Ok(()) => ExitCode::SUCCESS,
        Err(what) => {
            eprintln!("bench: {what}");
            ExitCode::FAILURE
        }
    }
}

fn run() -> Result<(), String> {
    let words: Vec<String> = env::args().skip(1).collect();
    let (file, rounds) = match words.as_slice() {
        [file] => (file, Ok(7)),
        [file, rounds] => (file, rounds.parse()),
        _ => return Err("usage: bench FILE [ROUNDS]".to_owned()),
    };
    let Ok(rounds @ 1..) = rounds else {
        return Err("ROUNDS is a number from 1 up".to_owned());
    };
    let text = fs::read(file).map_err(|error| format!("{file}: {error}"))?;

    if let Some(line) = passes::records(&text).iter().find(|line| !passes::is_same(line)) {
        return Err(format!("written in another way: \"{}\"", line.escape_ascii()));
    }

    measure("in cache", first_lines(&text), rounds)?;
    measure("the whole file", &text, rounds)?;
    shapes::measure()
}

/// The first lines of a text that a cache holds, with the feed of the last.
fn first_lines(text: &[u8]) -> &[u8] {
    let first = &text[..text.len().min(CACHED)];
    let end = first.iter().rposition(|&byte| byte == b'\n');
    &first[..end.map_or(first.len(), |at| at + 1)]
}

/// Measures the passes over a text, then its floors, and prints them.
fn measure(name: &str, text: &[u8], rounds: usize) -> Result<(), String> {
    let decodable = [passes::escapes(text), passes::plain(text)];
    let input = Input::new(text, &decodable);
    let mut all = [[0.0; 2]; 2];
    println!(
        "{name}: {} bytes, {} record lines; milliseconds of {rounds} rounds",
        text.len(),
        input.lines.len()
    );
    print_head();

    for pass in passes::all(&input) {
        let times = in_turn(rounds, ROUND, pass.calls).map_err(|what| format!("{}: {what}", pass.name))?;
        let times = times.each_ref().map(milliseconds);
        print_both(pass.name, times);
        all = [0, 1].map(|side| [0, 1].map(|i| all[side][i] + times[side][i]));
    }

    print_both("all ten", all);
    println!("floor");
    floor("bytes read", rounds, || floors::bytes(text))?;
    floor("line feeds", rounds, || floors::line_feeds(text))?;
    println!();
    Ok(())
}

fn floor(name: &str, rounds: usize, call: impl FnMut() -> Sum) -> Result<(), String> {
    let [times] = in_turn(rounds, ROUND, [Box::new(call) as Call<'_>])?;
    let [least, median] = milliseconds(&times);
    println!("{name:<12} {least:>10.3} {median:>10.3}");
    Ok(())
}

/// The least and the median.
fn milliseconds(times: &Times) -> [f64; 2] {
    [times.least(), times.median()].map(|seconds| seconds * 1e3)
}

fn print_head() {
    let (least, median) = ("least", "median");
    println!("{:<12} {:>21} {:>21} {:>17}", "", "ours", "Rust", "ours/Rust");
    println!(
        "{:<12} {least:>10} {median:>10} {least:>10} {median:>10} {least:>8} {median:>8}",
        "pass"
    );
}

fn print_both(name: &str, [ours, rust]: [[f64; 2]; 2]) {
    println!(
        "{name:<12} {:>10.3} {:>10.3} {:>10.3} {:>10.3} {:>8.2} {:>8.2}",
        ours[0],
        ours[1],
        rust[0],
        rust[1],
        ours[0] / rust[0],
        ours[1] / rust[1]
    );
}
