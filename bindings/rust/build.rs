//! Links `libgff3_lines.a`: of the folder that `GFF3_LINES_LIB_DIR` names, or else of the one that tools/library writes it into.

use std::{
    env,
    path::{Path, PathBuf},
};

const FOLDER: &str = "GFF3_LINES_LIB_DIR";

fn main() {
    let folder = env::var_os(FOLDER).map_or_else(own_folder, PathBuf::from);
    let archive = folder.join("libgff3_lines.a");
    println!("cargo:rerun-if-env-changed={FOLDER}");
    println!("cargo:rerun-if-changed={}", archive.display());
    println!("cargo:rustc-link-search=native={}", folder.display());
    println!("cargo:rustc-link-lib=static=gff3_lines");
    // No error: `cargo check` and `cargo doc` do without the library, and only what links it fails.
    if !archive.is_file() {
        println!(
            "cargo:warning={} is missing: run tools/library in the project's folder, or set {FOLDER} to the folder that has it",
            archive.display()
        );
    }
}

/// `target/staticlib` of the project, which is two folders above this one.
fn own_folder() -> PathBuf {
    let manifest = env::var_os("CARGO_MANIFEST_DIR").unwrap_or_default();
    let project = Path::new(&manifest).ancestors().nth(2).unwrap_or(Path::new("../.."));
    project.join("target/staticlib")
}
