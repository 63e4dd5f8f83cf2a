//! Prints the oracle's answers on sample lines beside the answers expected, and fails where two differ.
//!
//! In an answer `!` and a number is a refusal, `-` stands for nothing, and a text stands in quotes.

mod attributes;
mod coding;
mod lines;
mod loops;
mod records;
mod show;
mod values;
mod writing;

use std::process::ExitCode;

use show::Show;

fn main() -> ExitCode {
    let mut samples = Samples::default();

    lines::split(&mut samples);
    lines::kinds(&mut samples);
    records::columns(&mut samples);
    records::positions(&mut samples);
    attributes::walks(&mut samples);
    coding::decoding(&mut samples);
    coding::sets(&mut samples);
    values::typed_values(&mut samples);
    writing::written(&mut samples);
    loops::loops(&mut samples);

    println!("\n{} samples, {} differ", samples.count, samples.differ);
    ExitCode::from((samples.differ > 0) as u8)
}

/// The count of samples so far, and of those whose answer is not the one expected.
#[derive(Default)]
struct Samples {
    count: usize,
    differ: usize,
}

impl Samples {
    /// Prints a sample with its answer, and what was expected if that differs.
    fn of(&mut self, sample: &str, answer: impl Show, expected: &str) {
        let sample = format!("{sample:?}");
        let answer = answer.show();
        self.count += 1;

        if answer == expected {
            println!("  {sample:<44} {answer}");
        } else {
            self.differ += 1;
            println!("  {sample:<44} {answer}   DIFFERS: {expected}");
        }
    }

    /// Prints the title of the samples that follow.
    fn title(&mut self, title: &str) {
        println!("\n{title}");
    }
}
