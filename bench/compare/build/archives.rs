//! Two archives of the library in one program: of each a copy in which the exported functions have names of their own.

use std::env;
use std::fs;
use std::path::{Path, PathBuf};
use std::process::{Command, Output};

/// What stands before the names in a copy, and what names the folder of the archive.
const SIDES: [(&str, &str); 2] = [("before", "CIKOLARO_BEFORE"), ("after", "CIKOLARO_AFTER")];

const ARCHIVE: &str = "libcapi.a";

/// What begins the name of each exported function.
const EXPORTED: &str = "cikolaro_";

/// What a compiler may call unasked, and libc has.
const IN_LIBC: [&str; 5] = ["memcpy", "memmove", "memset", "memcmp", "bcmp"];

/// Each function begins a cache line, so that one that did not change runs alike in both copies. Where else the linker would put it is no
/// part of a change.
const ALIGNED: &str = ".text.*=64";

pub fn link() {
    if env::var_os("CARGO_FEATURE_VERSUS").is_none() {
        return;
    }
    let copies = PathBuf::from(env::var_os("OUT_DIR").expect("cargo sets it"));
    println!("cargo:rustc-link-search=native={}", copies.display());
    for (side, variable) in SIDES {
        println!("cargo:rerun-if-env-changed={variable}");
        let folder = env::var_os(variable).unwrap_or_else(|| panic!("{variable} names the folder of {ARCHIVE}"));
        let archive = Path::new(&folder).join(ARCHIVE);
        println!("cargo:rerun-if-changed={}", archive.display());
        let library = format!("{EXPORTED}{side}");
        rename(&archive, side, &copies.join(format!("lib{library}.a")));
        println!("cargo:rustc-link-lib=static={library}");
    }
}

/// A copy of an archive, with other names for all that it exports.
fn rename(archive: &Path, side: &str, copy: &Path) {
    let list = copy.with_extension("names");
    let names: String = exported(archive, EXPORTED).iter().map(|name| format!("{name} {side}_{name}\n")).collect();
    fs::write(&list, names).expect("the list of names is written");
    let mut objcopy = Command::new("objcopy");
    objcopy.arg("--redefine-syms").arg(list).arg("--set-section-alignment").arg(ALIGNED).arg(archive).arg(copy);
    run(&mut objcopy);
    exported(copy, &format!("{side}_{EXPORTED}"));
}

/// The functions that an archive exports. Two archives go together if all their names begin so that none is in both, and else they share
/// only what libc has.
fn exported(archive: &Path, begin: &str) -> Vec<String> {
    let listed = run(Command::new("nm").args(["--extern-only", "--format=posix"]).arg(archive)).stdout;
    let listed = String::from_utf8(listed).expect("names are text");
    let mut names = Vec::new();
    for line in listed.lines() {
        // A line of one word names a part of the archive.
        let mut words = line.split_whitespace();
        match (words.next(), words.next()) {
            (Some(name), Some("T")) if name.starts_with(begin) => names.push(name.to_owned()),
            (Some(name), Some("U")) if name.starts_with(begin) || IN_LIBC.contains(&name) => {}
            (_, None) => {}
            _ => panic!("{}: neither exported by a known name nor libc's: {line}", archive.display()),
        }
    }
    assert!(!names.is_empty(), "{} exports nothing", archive.display());
    names
}

fn run(command: &mut Command) -> Output {
    let output = command.output().unwrap_or_else(|error| panic!("{command:?}: {error}"));
    assert!(output.status.success(), "{command:?}: {}", String::from_utf8_lossy(&output.stderr));
    output
}
