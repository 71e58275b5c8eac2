//! Writes the lists: into the folder named, otherwise where they are stored.

use oracle::lists;
use std::path::PathBuf;

fn main() -> std::io::Result<()> {
    let named = std::env::args_os().nth(1).map(PathBuf::from);
    for list in lists::all() {
        let path = match &named {
            Some(folder) => folder.join(list.file),
            None => lists::stored_at(list.file),
        };
        let bytes = list.bytes.len();
        println!("{}: {} cases, {bytes} bytes", list.file, list.cases);
        std::fs::write(path, &list.bytes)?;
    }
    Ok(())
}
