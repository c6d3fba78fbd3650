//! Finds the proved static library and has it linked.

use std::env;
use std::path::{Path, PathBuf};
use std::process::exit;

/// The folder that the build looks in, in the place of the repository's own.
const FOLDER_VARIABLE: &str = "GONGCOLLAR_LIB";
const LIBRARY: &str = "exports";

/// The folder of the static library: the one that is named, or where `tools/staticlib` puts it.
fn folder() -> PathBuf {
    match env::var_os(FOLDER_VARIABLE) {
        Some(named) => PathBuf::from(named),
        None => Path::new(env!("CARGO_MANIFEST_DIR")).join("../../target/staticlib"),
    }
}

fn main() {
    let folder = folder();
    let archive = folder.join(format!("lib{LIBRARY}.a"));
    println!("cargo:rerun-if-env-changed={FOLDER_VARIABLE}");
    println!("cargo:rerun-if-changed={}", archive.display());
    if !archive.is_file() {
        eprintln!(
            "gongcollar: there is no proved library at {}",
            archive.display()
        );
        eprintln!("gongcollar: run `tools/staticlib` in the repository's root,");
        eprintln!("gongcollar: or name the folder that has lib{LIBRARY}.a in {FOLDER_VARIABLE}");
        exit(1);
    }
    println!("cargo:rustc-link-search=native={}", folder.display());
    println!("cargo:rustc-link-lib=static={LIBRARY}");
}
