//! Finds the archive of proved functions that `tools/archive` writes.

use std::env;
use std::path::{Path, PathBuf};
use std::process::exit;

/// Names the folder in which `libcapi.a` lies.
const OVERRIDE: &str = "CIKOLARO_ARCHIVE";

/// Where it lies after `tools/archive`, seen from this crate.
const IN_THE_PROJECT: &str = "../../target/staticlib";

const ARCHIVE: &str = "libcapi.a";

fn main() {
    println!("cargo:rerun-if-env-changed={OVERRIDE}");
    let folder = match env::var_os(OVERRIDE) {
        Some(place) => PathBuf::from(place),
        None => Path::new(&env::var_os("CARGO_MANIFEST_DIR").expect("cargo sets it")).join(IN_THE_PROJECT),
    };
    let archive = folder.join(ARCHIVE);
    if !archive.exists() {
        eprintln!("{} isn't there: run `tools/archive`, or name its folder in {OVERRIDE}", archive.display());
        exit(1);
    }
    println!("cargo:rerun-if-changed={}", archive.display());
    println!("cargo:rustc-link-search=native={}", folder.display());
    println!("cargo:rustc-link-lib=static=capi");
}
