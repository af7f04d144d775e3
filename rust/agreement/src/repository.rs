//! Files of the repository.

use std::collections::BTreeSet;
use std::fs;
use std::path::{Path, PathBuf};

/// Where a file or folder is, by its name from the repository's folder.
pub fn path(name: impl AsRef<Path>) -> PathBuf {
    Path::new(concat!(env!("CARGO_MANIFEST_DIR"), "/../..")).join(name)
}

/// What a file holds.
pub fn read(name: impl AsRef<Path>) -> Vec<u8> {
    let path = path(name);
    fs::read(&path).unwrap_or_else(|error| panic!("{}: {error}", path.display()))
}

/// What a file of text holds.
pub fn text(name: impl AsRef<Path>) -> String {
    String::from_utf8(read(name)).expect("text")
}

/// The names of the files in a folder.
pub fn names(folder: impl AsRef<Path>) -> BTreeSet<String> {
    let folder = path(folder);
    fs::read_dir(&folder)
        .unwrap_or_else(|error| panic!("{}: {error}", folder.display()))
        .map(|entry| entry.expect("a folder that can be read").file_name())
        .map(|name| name.into_string().expect("a name in letters"))
        .collect()
}
