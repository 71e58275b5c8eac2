//! Store files, read whole and replaced whole.

use std::fs::{self, File};
use std::io::{self, Read, Write};
use std::path::{Path, PathBuf};
use std::process;

use crate::failure::Failure;

fn failed(what: &str, path: &Path, error: &io::Error) -> Failure {
    Failure::File(format!("{} can't be {what}: {error}", path.display()))
}

pub fn read(path: &str) -> Result<Vec<u8>, Failure> {
    fs::read(path).map_err(|e| failed("read", Path::new(path), &e))
}

/// A text from a file, or from standard input for none and for `-`.
pub fn read_text(path: Option<&str>) -> Result<Vec<u8>, Failure> {
    match path {
        None | Some("-") => {
            let mut text = Vec::new();
            io::stdin()
                .read_to_end(&mut text)
                .map_err(|e| Failure::File(format!("standard input can't be read: {e}")))?;
            Ok(text)
        }
        Some(path) => read(path),
    }
}

/// Replaces a file: another file beside it is written, brought to the disk and renamed, so that who opens it finds the old bytes or
/// the new ones.
pub fn replace(path: &str, bytes: &[u8]) -> Result<(), Failure> {
    let path = Path::new(path);
    let beside = beside(path)?;
    let written = write_synced(&beside, bytes).and_then(|()| {
        if let Ok(old) = fs::metadata(path) {
            fs::set_permissions(&beside, old.permissions())?;
        }
        fs::rename(&beside, path)
    });
    if let Err(error) = written {
        // What was begun is taken away again; where that fails too, the first error says more.
        let _ = fs::remove_file(&beside);
        return Err(failed("written", path, &error));
    }
    sync_folder(path);
    Ok(())
}

fn beside(path: &Path) -> Result<PathBuf, Failure> {
    let name = path.file_name().ok_or_else(|| Failure::File(format!("{} names no file", path.display())))?;
    let mut hidden = std::ffi::OsString::from(".");
    hidden.push(name);
    hidden.push(format!(".{}.new", process::id()));
    Ok(path.with_file_name(hidden))
}

fn write_synced(path: &Path, bytes: &[u8]) -> io::Result<()> {
    let mut file = File::options().write(true).create_new(true).open(path)?;
    file.write_all(bytes)?;
    file.sync_all()
}

/// The rename itself is brought to the disk where the system lets a folder be synced.
fn sync_folder(path: &Path) {
    let folder = path.parent().filter(|p| !p.as_os_str().is_empty()).unwrap_or(Path::new("."));
    if let Ok(folder) = File::open(folder) {
        let _ = folder.sync_all();
    }
}
