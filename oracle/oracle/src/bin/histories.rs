//! Writes the small histories: to the file named, otherwise where it is stored.

use oracle::small;

fn main() -> std::io::Result<()> {
    let named = std::env::args_os().nth(1);
    std::fs::write(named.unwrap_or_else(|| small::FILE.into()), small::text())
}
