//! Writes the first full hall of each kind to a folder, under the kind's name.

use halls::{full_hall, KINDS};

fn main() -> std::io::Result<()> {
    let folder = std::env::args().nth(1).expect("usage: first_full_halls FOLDER");
    for kind in KINDS {
        std::fs::write(format!("{folder}/{}.hall", kind.name()), full_hall(kind, 64, 0))?;
    }
    Ok(())
}
