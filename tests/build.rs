//! Declares the calls of include/drawmitten.h to Rust, and says which archive holds them.

#[path = "src/header.rs"]
mod header;

use std::path::{Path, PathBuf};
use std::{env, fs};

/// The value of a variable that cargo, or bench/run, has set.
fn given(name: &str) -> String {
    env::var(name).unwrap_or_else(|_| panic!("{name} is not set"))
}

/// Links an archive, and builds anew when it changes.
fn link(folder: &Path, name: &str) {
    let archive = folder.join(format!("lib{name}.a"));
    assert!(archive.is_file(), "{} is not there", archive.display());
    println!("cargo:rerun-if-changed={}", archive.display());
    println!("cargo:rustc-link-search=native={}", folder.display());
    println!("cargo:rustc-link-lib=static={name}");
}

/// Writes calls.rs, and prints what cargo has to know.
fn main() {
    let root = PathBuf::from(given("CARGO_MANIFEST_DIR")).join("..");
    let path = root.join("include/drawmitten.h");
    println!("cargo:rerun-if-changed=build.rs");
    println!("cargo:rerun-if-changed=src/header.rs");
    println!("cargo:rerun-if-changed={}", path.display());
    let text = fs::read_to_string(&path).expect("the header is read");
    let calls = header::declarations(&text).unwrap_or_else(|wrong| panic!("{wrong}"));
    let written = PathBuf::from(given("OUT_DIR")).join("calls.rs");
    fs::write(written, calls).expect("the declarations are written");
    link(&root.join("crates/drawmitten_c/out"), "drawmitten_c");
    println!("cargo:rerun-if-env-changed=TRIAL");
    if env::var_os("CARGO_FEATURE_TRIAL").is_some() {
        link(Path::new(&given("TRIAL")), "quick");
    }
}
