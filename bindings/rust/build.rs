//! Finds the archive of the proved library: in the folder OZPINDURU_LIB_DIR, or where `bindings/archive` writes it.

use std::env;
use std::path::{Path, PathBuf};
use std::process::exit;

const ARCHIVE: &str = "libozpinduru.a";

fn main() {
    println!("cargo:rerun-if-env-changed=OZPINDURU_LIB_DIR");
    let folder = match env::var_os("OZPINDURU_LIB_DIR") {
        Some(folder) => PathBuf::from(folder),
        None => Path::new(&env::var_os("CARGO_MANIFEST_DIR").expect("cargo sets it")).join("../../crates/ozpinduru/out"),
    };
    let archive = folder.join(ARCHIVE);
    println!("cargo:rerun-if-changed={}", archive.display());
    if !archive.is_file() {
        eprintln!(
            "There is no {ARCHIVE} in {}. Run `bindings/archive` at the top of the repository, which proves the library \
             and writes it, or set OZPINDURU_LIB_DIR to the folder that has it.",
            folder.display()
        );
        exit(1);
    }
    println!("cargo:rustc-link-search=native={}", folder.display());
    println!("cargo:rustc-link-lib=static=ozpinduru");
}
