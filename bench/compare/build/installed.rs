//! LMDB and SQLite, where they are installed.

use std::env;
use std::path::Path;

/// A cfg, and the header and the library that have to be there for it.
const LIBRARIES: [(&str, &str, &str); 2] = [("lmdb", "lmdb.h", "lmdb"), ("sqlite", "sqlite3.h", "sqlite3")];

pub fn link() {
    println!("cargo:rustc-check-cfg=cfg(lmdb, sqlite)");
    for (cfg, header, library) in LIBRARIES {
        if is_installed(header, library) {
            println!("cargo:rustc-cfg={cfg}");
            println!("cargo:rustc-link-lib={library}");
        }
    }
}

fn is_installed(header: &str, library: &str) -> bool {
    let headers = Path::new("/usr/include").join(header);
    println!("cargo:rerun-if-changed={}", headers.display());
    let multiarch = format!("/usr/lib/{}-linux-gnu", env::var("CARGO_CFG_TARGET_ARCH").expect("cargo sets it"));
    let file = format!("lib{library}.so");
    headers.is_file() && [multiarch.as_str(), "/usr/lib"].iter().any(|folder| Path::new(folder).join(&file).exists())
}
