//! The command, run in a folder of its own, and what is expected of it. Each file of tests uses a
//! part of this.
#![allow(dead_code)]

use std::ffi::OsStr;
use std::fs;
use std::io::{ErrorKind, Write};
use std::path::{Path, PathBuf};
use std::process::{self, Command, Output, Stdio};
use std::sync::atomic::{AtomicUsize, Ordering};
use std::thread;

pub mod functions;
pub mod random;
pub mod refusing;

/// Where the command is.
pub const ORACLE: &str = env!("CARGO_BIN_EXE_oracle");

/// The verbs.
pub const VERBS: [&str; 10] =
    ["check", "make", "list", "quote", "compile", "evaluate", "run", "back", "undo", "export"];

/// Each verb with this as its INPUT, and with what else it needs. The bits are for two inputs.
pub fn each_verb(input: &str) -> Vec<Vec<&str>> {
    let whole = |verb: &&'static str| match *verb {
        "evaluate" => vec!["evaluate", input, "11"],
        "run" | "back" => vec![*verb, input, "11"],
        "export" => vec!["export", input, "--to", "qasm2"],
        verb => vec![verb, input],
    };
    VERBS.iter().map(whole).collect()
}

/// A folder in which the command runs. It is removed at the end.
pub struct Folder {
    pub path: PathBuf,
}

impl Folder {
    pub fn new() -> Folder {
        static NEXT: AtomicUsize = AtomicUsize::new(0);
        loop {
            let number = NEXT.fetch_add(1, Ordering::Relaxed);
            let path = std::env::temp_dir().join(format!("oracle-{}-{number}", process::id()));
            match fs::create_dir(&path) {
                Ok(()) => return Folder { path },
                // Left there by a process of the same number that was stopped.
                Err(error) if error.kind() == ErrorKind::AlreadyExists => continue,
                Err(error) => panic!("{}: {error}", path.display()),
            }
        }
    }

    /// Writes a file, and gives its name back.
    pub fn put<'a>(&self, name: &'a str, content: impl AsRef<[u8]>) -> &'a str {
        fs::write(self.path.join(name), content).expect("a file that can be written");
        name
    }

    pub fn get(&self, name: &str) -> Vec<u8> {
        fs::read(self.path.join(name)).unwrap_or_else(|error| panic!("{name}: {error}"))
    }

    /// The names of what is there.
    pub fn names(&self) -> Vec<String> {
        names_in(&self.path)
    }

    /// The command with these arguments, not started yet.
    pub fn command<A: AsRef<OsStr>>(&self, arguments: &[A]) -> Command {
        let mut command = Command::new(ORACLE);
        command.args(arguments).current_dir(&self.path);
        command.stdin(Stdio::piped()).stdout(Stdio::piped()).stderr(Stdio::piped());
        command
    }

    pub fn run<A: AsRef<OsStr>>(&self, arguments: &[A], stdin: impl AsRef<[u8]>) -> Output {
        output(&mut self.command(arguments), stdin.as_ref())
    }

    /// What a run prints that ends well.
    pub fn printed(&self, arguments: &[&str], stdin: impl AsRef<[u8]>) -> Vec<u8> {
        let output = self.run(arguments, stdin);
        ended(arguments, &output, 0);
        assert_eq!(message(&output), "", "{arguments:?}");
        output.stdout
    }

    /// The same as text.
    pub fn text(&self, arguments: &[&str], stdin: impl AsRef<[u8]>) -> String {
        String::from_utf8(self.printed(arguments, stdin)).expect("text")
    }

    /// Status 0, with this on standard output.
    pub fn gives(&self, arguments: &[&str], stdin: impl AsRef<[u8]>, wanted: impl AsRef<[u8]>) {
        let printed = self.printed(arguments, stdin);
        assert!(printed == wanted.as_ref(), "{arguments:?}: {}", parted(&printed, wanted.as_ref()));
    }

    /// Status 1, nothing on standard output, and a message that starts so, which is given.
    pub fn refused(&self, arguments: &[&str], stdin: impl AsRef<[u8]>, start: &str) -> String {
        self.ends_with(1, arguments, stdin, start)
    }

    /// Status 2, nothing on standard output, and a message, which is given.
    pub fn usage(&self, arguments: &[&str]) -> String {
        let message = self.ends_with(2, arguments, "", "");
        assert!(!message.starts_with("refused"), "{arguments:?}: {message}");
        message
    }

    /// Status 3, nothing on standard output, and a message that starts so, which is given.
    pub fn failed(&self, arguments: &[&str], stdin: impl AsRef<[u8]>, start: &str) -> String {
        self.ends_with(3, arguments, stdin, start)
    }

    fn ends_with(
        &self,
        status: i32,
        arguments: &[&str],
        stdin: impl AsRef<[u8]>,
        start: &str,
    ) -> String {
        let output = self.run(arguments, stdin);
        ended(arguments, &output, status);
        assert!(output.stdout.is_empty(), "{arguments:?}: printed {:?}", output.stdout);
        let message = message(&output);
        assert!(message.starts_with(start), "{arguments:?}: not `{start}` but `{message}`");
        assert!(message.ends_with('\n'), "{arguments:?}: no line but `{message}`");
        message
    }
}

impl Drop for Folder {
    fn drop(&mut self) {
        let _ = fs::remove_dir_all(&self.path);
    }
}

/// Runs a command to its end with this on standard input.
pub fn output(command: &mut Command, stdin: &[u8]) -> Output {
    let mut child = command.spawn().expect("it starts");
    let mut pipe = child.stdin.take().expect("a pipe");
    thread::scope(|scope| {
        // The command may end before all of it is read.
        scope.spawn(move || pipe.write_all(stdin).is_ok());
        child.wait_with_output().expect("it ends")
    })
}

/// The status is the one that is wanted. A run that was stopped has none.
pub fn ended(arguments: &[&str], output: &Output, status: i32) {
    let message = message(output);
    assert_eq!(output.status.code(), Some(status), "status of {arguments:?}: {message}");
}

pub fn message(output: &Output) -> String {
    String::from_utf8(output.stderr.clone()).expect("a message in letters")
}

/// The names of the files and folders in a folder.
pub fn names_in(folder: &Path) -> Vec<String> {
    let entries = fs::read_dir(folder).expect("a folder that can be read");
    let name = |entry: fs::DirEntry| entry.file_name().into_string().expect("a name in letters");
    let mut names: Vec<String> = entries.map(|entry| name(entry.expect("an entry"))).collect();
    names.sort();
    names
}

/// Where two outputs part, to be read.
fn parted(printed: &[u8], wanted: &[u8]) -> String {
    let same = printed.iter().zip(wanted).take_while(|(a, b)| a == b).count();
    let from = same.saturating_sub(40);
    let shown = |bytes: &[u8]| {
        String::from_utf8_lossy(&bytes[from..bytes.len().min(same + 40)]).into_owned()
    };
    format!("from byte {same} on not {:?} but {:?}", shown(wanted), shown(printed))
}
