//! Prints the morning's sheet of GFF3 files: what their lines are, why lines are refused, and how long their records are.
//!
//! ```sh
//! cargo run --example morning -- annotation.gff3
//! ```

use std::{
    env,
    error::Error,
    ffi::OsStr,
    fs,
    io::{self, Write},
    path::Path,
    process::ExitCode,
};

fn main() -> ExitCode {
    let names: Vec<_> = env::args_os().skip(1).collect();
    if names.is_empty() {
        eprintln!("usage: morning FILE..");
        return ExitCode::FAILURE;
    }
    let mut code = ExitCode::SUCCESS;
    for name in &names {
        if let Err(error) = print_sheet(name) {
            eprintln!("{}: {error}", Path::new(name).display());
            code = ExitCode::FAILURE;
        }
    }
    code
}

/// The sheet of a file, below its name.
fn print_sheet(name: &OsStr) -> Result<(), Box<dyn Error>> {
    let report = gff3_lines::report(&fs::read(name)?)?;
    Ok(write!(io::stdout(), "{}\n{report}", Path::new(name).display())?)
}
