//! Why the command gives no result, and with which exit status.

use std::io::{self, Write};
use std::path::Path;
use std::process::ExitCode;

use oracle::Refusal;

pub type Result<T> = std::result::Result<T, Failure>;

/// Each holds what is said on standard error.
#[derive(Debug, PartialEq, Eq)]
pub enum Failure {
    /// What was given is refused: status 1.
    Refused(String),
    /// The command was used wrongly: status 2.
    Usage(String),
    /// Something could not be read or written: status 3.
    File(String),
}

impl From<Refusal> for Failure {
    fn from(refusal: Refusal) -> Failure {
        Failure::Refused(refusal.in_words().to_string())
    }
}

impl Failure {
    pub fn unreadable(name: &str, error: &io::Error) -> Failure {
        Failure::File(format!("cannot read {name}: {error}"))
    }

    pub fn unwritable(path: &Path, error: &io::Error) -> Failure {
        Failure::File(format!("cannot write {}: {error}", path.display()))
    }

    /// Says it on standard error. Where that cannot be written either, the status is all there is.
    pub fn report(self) -> ExitCode {
        let (text, status) = match self {
            Failure::Refused(text) => (text, 1),
            Failure::Usage(text) => (text, 2),
            Failure::File(text) => (text, 3),
        };
        let _ = writeln!(io::stderr(), "{}", text.trim_end());
        ExitCode::from(status)
    }
}
