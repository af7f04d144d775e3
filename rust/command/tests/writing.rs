//! Errors of writing, status 3, files that are whole or not there, and inputs without an end.

mod common;

use std::ffi::OsStr;
use std::fs::{self, File, OpenOptions};
use std::io::Write;
use std::os::unix::ffi::OsStrExt;
use std::os::unix::fs::{FileTypeExt, MetadataExt};
use std::os::unix::process::CommandExt;
use std::process::{Command, Output, Stdio};
use std::sync::mpsc;
use std::thread;
use std::time::Duration;

use common::functions::{file, path};
use common::{each_verb, ended, message, output, Folder, ORACLE};

#[test]
fn files_that_cannot_be_written() {
    let folder = Folder::new();
    fs::create_dir(folder.path.join("folder")).unwrap();
    for arguments in each_verb("x0&x1") {
        for name in ["no/such/folder", "folder", "./folder/", "folder/no/file"] {
            let writing = [&arguments[..], &["-o", name]].concat();
            folder.failed(&writing, "", &format!("cannot write {name}: "));
        }
    }
    assert_eq!(folder.names(), ["folder"]);
    assert_eq!(fs::read_dir(folder.path.join("folder")).unwrap().count(), 0);
}

/// A pipe with a name is written to and not replaced.
#[test]
fn a_named_pipe_is_written_to() {
    let folder = Folder::new();
    let path = folder.path.join("pipe");
    assert!(Command::new("mkfifo").arg(&path).status().expect("mkfifo").success());
    for arguments in each_verb("x0&x1") {
        let wanted = folder.printed(&arguments, "");
        let (reading, (done, is_read)) = (path.clone(), mpsc::channel());
        let reader = thread::spawn(move || done.send(fs::read(reading)));
        folder.gives(&[&arguments[..], &["-o", "pipe"]].concat(), "", "");
        assert!(fs::metadata(&path).unwrap().file_type().is_fifo(), "{arguments:?}: replaced");
        let read = is_read.recv_timeout(Duration::from_secs(20)).expect("an end of the pipe");
        assert_eq!(read.unwrap(), wanted, "{arguments:?}");
        reader.join().unwrap().unwrap();
    }
}

/// The command without the rights of an administrator, so that what is wrong with it cannot replace a
/// device of the system. It is copied to where everybody can run it.
fn without_rights(folder: &Folder, arguments: &[&str]) -> Command {
    const NOBODY: u32 = 65_534;
    let program = folder.path.join("oracle");
    if !program.exists() {
        // Were it written here, a test beside this one could still have it open when it is run.
        let copied = Command::new("cp").arg(ORACLE).arg(&program).status();
        assert!(copied.expect("cp").success(), "a copy of the command");
    }
    let mut command = Command::new(program);
    command.args(arguments).current_dir("/");
    command.stdin(Stdio::piped()).stdout(Stdio::piped()).stderr(Stdio::piped());
    if fs::metadata("/proc/self").unwrap().uid() == 0 {
        command.uid(NOBODY).gid(NOBODY);
    }
    command
}

#[test]
fn devices_are_written_to() {
    let folder = Folder::new();
    for arguments in each_verb("x0&x1") {
        let devices = [("/dev/null", 0, ""), ("/dev/full", 3, "cannot write /dev/full: ")];
        for (device, status, start) in devices {
            let writing = [&arguments[..], &["-o", device]].concat();
            let output = output(&mut without_rights(&folder, &writing), b"");
            ended(&writing, &output, status);
            assert_eq!(output.stdout, b"", "{writing:?}");
            assert!(message(&output).starts_with(start), "{writing:?}: {}", message(&output));
            assert!(fs::metadata(device).unwrap().file_type().is_char_device(), "{device}");
        }
    }
}

#[test]
fn standard_output_that_is_full() {
    let folder = Folder::new();
    let mut all = each_verb("x0&x1");
    all.extend([vec!["--help"], vec!["--version"], vec!["check", "--help"]]);
    all.extend([vec!["make", "--adder", "32"], vec!["evaluate", "x15", "--all"]]);
    for arguments in all {
        let full = OpenOptions::new().write(true).open("/dev/full").unwrap();
        let output = folder.command(&arguments).stdout(full).output().unwrap();
        ended(&arguments, &output, 3);
        let message = message(&output);
        assert!(message.starts_with("cannot write standard output: "), "{arguments:?}: {message}");
    }
}

/// A file that is open for reading only takes nothing.
#[test]
fn standard_output_that_is_only_read() {
    let folder = Folder::new();
    for arguments in each_verb("x0&x1") {
        let read_only = File::open("/dev/null").unwrap();
        let output = folder.command(&arguments).stdout(read_only).output().unwrap();
        ended(&arguments, &output, 3);
        let message = message(&output);
        assert!(message.starts_with("cannot write standard output: "), "{arguments:?}: {message}");
    }
}

/// The reader is gone before the command has its input, so nothing is written in time.
#[test]
fn standard_output_that_is_closed() {
    let folder = Folder::new();
    for arguments in each_verb("-") {
        let mut child = folder.command(&arguments).spawn().unwrap();
        drop(child.stdout.take());
        // What another test starts at this moment has the reader's end too, until it runs.
        thread::sleep(Duration::from_millis(20));
        child.stdin.take().unwrap().write_all(b"x0&x1").unwrap();
        let output = child.wait_with_output().unwrap();
        ended(&arguments, &output, 3);
        let message = message(&output);
        assert!(message.starts_with("cannot write standard output: "), "{arguments:?}: {message}");
    }
}

/// An old file is kept where the new one is refused, asked for wrongly, or cannot be written.
#[test]
fn an_old_file_is_kept() {
    let folder = Folder::new();
    folder.put("old", "kept");
    let is_kept = |what: &[&str]| {
        assert_eq!(folder.get("old"), b"kept", "{what:?}");
        assert_eq!(folder.names(), ["old"], "{what:?}");
    };
    for arguments in each_verb("-") {
        let writing = [&arguments[..], &["-o", "old"]].concat();
        folder.refused(&writing, "x0&", "refused 16: ");
        is_kept(&writing);
        folder.usage(&[&writing[..], &["--frob"]].concat());
        is_kept(&writing);
        let mut command = started("trap '' XFSZ; ulimit -f 0", &folder, &writing);
        let output = output(&mut command, b"x0&x1");
        ended(&writing, &output, 3);
        assert!(message(&output).starts_with("cannot write old: "), "{}", message(&output));
        is_kept(&writing);
    }
    folder.failed(&["make", "nofile", "-o", "old"], "", "cannot read nofile: ");
    is_kept(&["nofile"]);
}

/// What else is in the folder stays, whatever its name, also where that has the number of the process
/// in it.
#[test]
fn neighbours_are_kept() {
    let folder = Folder::new();
    let names = ["out.$$", ".out.$$", "out.tmp", ".out.tmp", ".out.$$.tmp", ".oracle-$$-0", "out~"];
    let put: String = names.map(|name| format!("echo {name} > {name}; ")).concat();
    let mut command = started(&put, &folder, &["make", "x0&x1", "-o", "out"]);
    let output = output(&mut command, b"");
    let status = output.status.code();
    assert!(matches!(status, Some(0 | 3)), "{status:?}: {}", message(&output));
    let there: Vec<String> = folder.names().into_iter().filter(|name| name != "out").collect();
    assert_eq!(there.len(), names.len(), "{there:?} are left, {}", message(&output));
    for name in &there {
        assert_eq!(folder.get(name), format!("{name}\n").as_bytes(), "{name}");
    }
    assert_eq!(folder.names().len(), names.len() + usize::from(status == Some(0)));
}

/// The command writes a file of this name.
fn writes(name: &[u8]) {
    let (folder, name) = (Folder::new(), OsStr::from_bytes(name));
    let arguments = [OsStr::new("make"), OsStr::new("x0&x1"), OsStr::new("-o"), name];
    let output = folder.run(&arguments, "");
    ended(&["-o", &name.to_string_lossy()], &output, 0);
    assert_eq!(fs::read(folder.path.join(name)).unwrap(), file("and", "program"));
    assert_eq!(fs::read_dir(&folder.path).unwrap().count(), 1, "{name:?}");
}

#[test]
fn names_of_files() {
    for name in [&b"\xff\xfe"[..], b"a b", b".a", b"x0", b"--to", &[b'a'; 200]] {
        writes(name);
    }
}

/// Systems take names of up to 255 bytes.
#[test]
fn the_longest_name() {
    writes(&[b'a'; 255]);
}

/// The file that is read may be the one that is written.
#[test]
fn a_file_in_its_own_place() {
    let folder = Folder::new();
    folder.put("and", "x0&x1\n");
    folder.gives(&["make", "and", "-o", "and"], "", "");
    assert_eq!(folder.get("and"), file("and", "program"));
    folder.gives(&["list", "and", "-o", "./and"], "", "");
    assert_eq!(folder.get("and"), file("and", "listing"));
    assert_eq!(folder.names(), ["and"]);
}

/// The command, started by a shell that does something before.
fn started(before: &str, folder: &Folder, arguments: &[&str]) -> Command {
    let mut command = Command::new("sh");
    command.args(["-c", &format!("{before}\nexec \"$0\" \"$@\""), ORACLE]).args(arguments);
    command.stdin(Stdio::piped()).stdout(Stdio::piped()).stderr(Stdio::piped());
    command.current_dir(&folder.path);
    command
}

/// A file cut short by a limit on its length is not there.
#[test]
fn no_part_of_a_file_is_left() {
    let folder = Folder::new();
    let path = path("adder32", "program");
    for arguments in [["compile", &path], ["list", &path], ["quote", &path]] {
        let writing = [&arguments[..], &["-o", "new"]].concat();
        // A block has 512 bytes.
        let mut command = started("trap '' XFSZ; ulimit -f 1", &folder, &writing);
        let output = output(&mut command, b"");
        ended(&writing, &output, 3);
        assert_eq!(folder.names(), [""; 0], "{arguments:?}");
    }
}

/// An input without an end is answered, in a gigabyte of memory, by a refusal or as one that is too
/// long to be read.
fn is_answered(what: &str, output: &Output) {
    let status = output.status.code();
    assert!(matches!(status, Some(1 | 3)), "{what}: {status:?} {}", message(output));
    assert!(!message(output).contains("memory"), "{what}: {}", message(output));
    assert!(output.stdout.is_empty(), "{what}");
}

#[test]
fn inputs_without_an_end() {
    let folder = Folder::new();
    for arguments in each_verb("-") {
        let mut command = started("ulimit -v 1000000", &folder, &arguments);
        let output = command.stdin(File::open("/dev/zero").unwrap()).output().unwrap();
        is_answered(&format!("{arguments:?} < /dev/zero"), &output);
    }
    let named = [vec!["check", "/dev/zero"], vec!["evaluate", "x0&x1", "--questions", "/dev/zero"]];
    for arguments in named {
        let output = started("ulimit -v 1000000", &folder, &arguments).output().unwrap();
        is_answered(&format!("{arguments:?}"), &output);
    }
}

/// The same of text: a formula, a table and questions.
#[test]
fn texts_without_an_end() {
    let folder = Folder::new();
    let of_verbs: [(&str, &[&str]); 4] = [
        ("x0^x1", &["make", "-"]),
        ("# a comment", &["list", "-"]),
        ("output 0", &["run", "-", "1"]),
        ("11", &["evaluate", "x0&x1", "--questions", "-"]),
    ];
    for (line, arguments) in of_verbs {
        let mut lines = Command::new("yes").arg(line).stdout(Stdio::piped()).spawn().unwrap();
        let mut command = started("ulimit -v 1000000", &folder, arguments);
        let output = command.stdin(lines.stdout.take().unwrap()).output().unwrap();
        let _ = lines.kill();
        let _ = lines.wait();
        is_answered(&format!("yes '{line}'"), &output);
    }
}

/// What is no text is not written to a terminal, but to a file named with `-o`; text is.
#[test]
fn terminals() {
    let folder = Folder::new();
    let in_terminal = |arguments: &[&str]| {
        let words: Vec<String> =
            [&[ORACLE], arguments].concat().iter().map(|word| format!("'{word}'")).collect();
        let mut script = Command::new("script");
        script.args(["-qec", &words.join(" "), "/dev/null"]).current_dir(&folder.path);
        script.stdin(Stdio::null()).output().expect("`script` of util-linux")
    };
    for verb in ["make", "compile", "undo"] {
        let output = in_terminal(&[verb, "x0&x1"]);
        assert_eq!(output.status.code(), Some(2), "{verb}");
        let shown = String::from_utf8(output.stdout).expect("no bytes of a file");
        assert!(shown.contains("-o"), "{verb}: {shown}");
        let output = in_terminal(&[verb, "x0&x1", "-o", "out"]);
        assert_eq!(output.status.code(), Some(0), "{verb}");
        assert_eq!(folder.get("out"), folder.printed(&[verb, "x0&x1"], ""), "{verb}");
    }
    let output = in_terminal(&["list", "x0&x1"]);
    assert_eq!(output.status.code(), Some(0));
    let shown = String::from_utf8(output.stdout).unwrap().replace('\r', "");
    assert_eq!(shown.as_bytes(), file("and", "listing"));
    assert_eq!(in_terminal(&["make", "--adder", "2"]).status.code(), Some(0));
}
