//! Finds the archive of the exported calls and links it.

use std::path::PathBuf;
use std::process::exit;

const VARIABLE: &str = "FLOW_ARCHIVE_DIR";

fn main() {
    let own = PathBuf::from(std::env::var_os("CARGO_MANIFEST_DIR").expect("cargo sets it"));
    let dir = match std::env::var_os(VARIABLE) {
        Some(dir) => PathBuf::from(dir),
        None => own.join("../../crates/release/out"),
    };
    let archive = dir.join("librelease.a");
    println!("cargo:rerun-if-env-changed={VARIABLE}");
    println!("cargo:rerun-if-changed={}", archive.display());
    if !archive.is_file() {
        eprintln!(
            "librelease.a is missing: run `rt lib` in crates/release, or set {VARIABLE}"
        );
        exit(1);
    }
    println!("cargo:rustc-link-search=native={}", dir.display());
    println!("cargo:rustc-link-lib=static=release");
}
