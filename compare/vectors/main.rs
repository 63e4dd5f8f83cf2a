//! Makes the list that the program `program_replay` replays: cases, and the answers that the Rust gives to them.
//!
//!     vectors CASES ANSWERS
//!
//! Each case is a line, a letter and its words; crates/program_replay/src says what the letters are. The list is cut into blocks of
//! 65,536 bytes, which end in blank lines, since the program reads one block at a time.

mod leaves;
mod list;
mod parts;
mod reading;
#[path = "../src/sheet.rs"]
mod sheet;
mod writing;

use std::{env, fs, process};

use list::List;

fn main() {
    let words: Vec<String> = env::args().skip(1).collect();
    let [cases, answers] = words.as_slice() else {
        eprintln!("usage: vectors CASES ANSWERS");
        process::exit(2);
    };

    let mut list = List::default();
    leaves::finding(&mut list);
    leaves::numbers(&mut list);
    leaves::decoding(&mut list);
    leaves::encoding(&mut list);
    reading::lines(&mut list);
    parts::parts(&mut list);
    reading::columns(&mut list);
    reading::attributes(&mut list);
    reading::directives(&mut list);
    writing::unfolding(&mut list);
    writing::records(&mut list);
    writing::comments(&mut list);
    writing::directives(&mut list);

    println!("{} cases", list.len());
    fs::write(cases, list.cases()).expect("the cases are written");
    fs::write(answers, list.answers()).expect("the answers are written");
}
