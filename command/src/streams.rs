//! Whether standard input and standard output were open when the command was started. Before `main` Rust opens what is closed, on
//! /dev/null: a closed input would be an empty file, and what is written to a closed output would vanish without a word.

use std::sync::atomic::{AtomicBool, Ordering};

use nix::fcntl::{FcntlArg, fcntl};

static IS_INPUT_CLOSED: AtomicBool = AtomicBool::new(false);
static IS_OUTPUT_CLOSED: AtomicBool = AtomicBool::new(false);

/// The loader calls what stands in this section before anything of Rust's.
#[used]
#[link_section = ".init_array"]
static FIRST: extern "C" fn() = look;

extern "C" fn look() {
    let is_closed = |stream| fcntl(stream, FcntlArg::F_GETFD).is_err();
    IS_INPUT_CLOSED.store(is_closed(0), Ordering::Relaxed);
    IS_OUTPUT_CLOSED.store(is_closed(1), Ordering::Relaxed);
}

pub fn is_input_closed() -> bool {
    IS_INPUT_CLOSED.load(Ordering::Relaxed)
}

pub fn is_output_closed() -> bool {
    IS_OUTPUT_CLOSED.load(Ordering::Relaxed)
}
