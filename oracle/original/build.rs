//! Finds the original's btree files and tells the compiler where they are.
//! They are compiled from their own place and never copied.

use std::env;
use std::path::{Path, PathBuf};
use std::process::exit;

/// Names another place for the files than [`BESIDE_THE_PROJECT`].
const OVERRIDE: &str = "CIKOLARO_ORIGINAL";

/// Where the files lie when `shared` stands beside the project, seen from
/// this crate.
const BESIDE_THE_PROJECT: &str = "../../../shared/docs/src/src/btree";

const FILES: [&str; 4] = ["mod.rs", "btree.rs", "iter.rs", "node.rs"];

fn main() {
    println!("cargo:rerun-if-env-changed={OVERRIDE}");
    let folder = folder();
    for file in FILES {
        require(&folder, file);
    }
    let folder = folder.canonicalize().expect("the folder is there");
    println!("cargo:rustc-env=ORIGINAL_BTREE={}", folder.display());
}

fn folder() -> PathBuf {
    match env::var_os(OVERRIDE) {
        Some(place) => PathBuf::from(place),
        None => {
            let here = env::var_os("CARGO_MANIFEST_DIR").expect("cargo names the crate's folder");
            PathBuf::from(here).join(BESIDE_THE_PROJECT)
        }
    }
}

fn require(folder: &Path, file: &str) {
    let path = folder.join(file);
    println!("cargo:rerun-if-changed={}", path.display());
    if !path.is_file() {
        eprintln!(
            "the original's {file} is not in {}: put `shared` beside the project, \
             or name the folder of the four btree files in {OVERRIDE}",
            folder.display()
        );
        exit(1);
    }
}
