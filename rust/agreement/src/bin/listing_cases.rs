//! Writes the data files of the listing program's cases and the text expected for them:
//! `cargo run --offline -p agreement --bin listing_cases`.

use std::{fs, io};

use agreement::{listing_cases, repository};

fn main() -> io::Result<()> {
    for (name, content) in listing_cases::files() {
        let path = repository::path(&name);
        if let Some(folder) = path.parent() {
            fs::create_dir_all(folder)?;
        }
        fs::write(path, &content)?;
        println!("{}: {} bytes", name.display(), content.len());
    }
    Ok(())
}
