//! `files` writes the made files; `files names` prints which problem each line
//! of crates/vectors/stdout answers. A run in slices and a session have more
//! lines than one.

use std::fs;
use std::io::Result;

fn main() -> Result<()> {
    if std::env::args().nth(1).as_deref() == Some("names") {
        let mut line = 1;
        for vector in files::vectors::all() {
            println!("{line:4} {}: {}", vector.entry.name(), vector.name);
            line += vector.answer().lines().count();
        }
        return Ok(());
    }
    for made in files::made() {
        fs::write(made.place(), &made.bytes)?;
        println!("{} ({} bytes)", made.path, made.bytes.len());
    }
    Ok(())
}
