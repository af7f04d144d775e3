//! What a verb answers, and where it is written: whole, or not at all.

use std::fs::{self, File, Metadata, OpenOptions};
use std::io::{self, ErrorKind, IsTerminal, Write};
use std::os::fd::AsFd;
use std::os::unix::fs::{fchown, MetadataExt, OpenOptionsExt};
use std::path::{Path, PathBuf};
use std::process;

use crate::failure::{Failure, Result};

/// How many links are followed to a file that is not there yet, as systems do.
const MOST_LINKS: usize = 40;

pub enum Output {
    /// Lines to read.
    Text(String),
    /// A program file or a circuit file.
    Bytes(Vec<u8>),
}

impl Output {
    /// Writes it to a file, or to standard output if there is none or it is `-`.
    pub fn write(&self, path: Option<&Path>) -> Result<()> {
        match path.filter(|path| *path != Path::new("-")) {
            Some(path) => {
                to_file(path, self.bytes()).map_err(|error| Failure::unwritable(path, &error))
            }
            None => self.to_standard_output(),
        }
    }

    fn bytes(&self) -> &[u8] {
        match self {
            Output::Text(text) => text.as_bytes(),
            Output::Bytes(bytes) => bytes,
        }
    }

    fn to_standard_output(&self) -> Result<()> {
        if matches!(self, Output::Bytes(_)) && io::stdout().is_terminal() {
            let what =
                "what comes out is no text: name a file with -o, or send it to another command";
            return Err(Failure::Usage(what.to_string()));
        }
        let written = standard_output().and_then(|mut file| file.write_all(self.bytes()));
        written.map_err(|error| Failure::unwritable(Path::new("standard output"), &error))
    }
}

/// Standard output as a file: Rust's own handle takes an output that cannot be written for one that
/// wants nothing.
fn standard_output() -> io::Result<File> {
    io::stdout().as_fd().try_clone_to_owned().map(File::from)
}

fn to_file(path: &Path, bytes: &[u8]) -> io::Result<()> {
    let there = match fs::metadata(path) {
        Ok(there) => there,
        Err(error) if error.kind() == ErrorKind::NotFound => {
            return replace(&followed(path), bytes, None);
        }
        Err(error) => return Err(error),
    };
    if is_standard_output(&there) {
        return standard_output()?.write_all(bytes);
    }
    // Only what may be written is replaced, and a device or a pipe never is.
    let mut file = OpenOptions::new().write(true).open(path)?;
    match there.is_file() {
        true => replace(&followed(path), bytes, Some(&there)),
        false => file.write_all(bytes),
    }
}

/// Whether a file is the one that standard output goes to, as with `-o /dev/stdout > FILE`.
fn is_standard_output(there: &Metadata) -> bool {
    let same = |output: Metadata| (output.dev(), output.ino()) == (there.dev(), there.ino());
    standard_output().and_then(|file| file.metadata()).is_ok_and(same)
}

/// The file behind a link, and the path itself if it is none.
fn followed(path: &Path) -> PathBuf {
    let mut path = path.to_path_buf();
    for _ in 0..MOST_LINKS {
        let Ok(next) = fs::read_link(&path) else { break };
        path = path.parent().unwrap_or(Path::new("")).join(next);
    }
    path
}

/// Writes a file beside the one that is meant, and gives it that name when all of it is there.
fn replace(path: &Path, bytes: &[u8], there: Option<&Metadata>) -> io::Result<()> {
    if path.file_name().is_none() {
        return Err(ErrorKind::IsADirectory.into());
    }
    let (file, beside) = new_beside(path, there.is_some())?;
    let written = fill(file, bytes, there).and_then(|()| fs::rename(&beside, path));
    if written.is_err() {
        // Where even this fails, the error before it is the one to tell.
        let _ = fs::remove_file(&beside);
    }
    written
}

/// A new file in the same folder, whose name nobody has, for the eyes of its owner only if it is to
/// take the place of another one.
fn new_beside(path: &Path, private: bool) -> io::Result<(File, PathBuf)> {
    let mode = if private { 0o600 } else { 0o666 };
    let names = (0_u32..).map(|n| path.with_file_name(format!(".oracle-{}-{n}", process::id())));
    for name in names {
        match OpenOptions::new().write(true).create_new(true).mode(mode).open(&name) {
            Err(error) if error.kind() == ErrorKind::AlreadyExists => {}
            made => return made.map(|file| (file, name)),
        }
    }
    Err(ErrorKind::AlreadyExists.into())
}

fn fill(mut file: File, bytes: &[u8], there: Option<&Metadata>) -> io::Result<()> {
    file.write_all(bytes)?;
    if let Some(there) = there {
        // Who may not give a file away keeps it.
        let _ = fchown(&file, Some(there.uid()), Some(there.gid()));
        file.set_permissions(there.permissions())?;
    }
    // A disk may say only now that it is full.
    file.sync_all()
}
