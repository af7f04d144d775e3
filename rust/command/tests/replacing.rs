//! A file that is there already: which one is replaced, and what of it stays.

mod common;

use std::fs::{self, File, Permissions};
use std::io::{Read, Seek, Write};
use std::os::unix::fs::{symlink, PermissionsExt};
use std::process::Command;

use common::{ended, output, Folder, ORACLE};

/// What `list x0` prints.
const LISTING: &str = "lines 1 1 0 gates 1\nC 0 1\n";

fn list_to(folder: &Folder, name: &str) {
    folder.gives(&["list", "x0", "-o", name], "", "");
}

/// A link stays, and the file behind it is replaced or made, from whatever folder the link names it.
#[test]
fn links_are_followed() {
    let folder = Folder::new();
    fs::create_dir(folder.path.join("below")).expect("a folder");
    folder.put("below/old", "old");
    for (link, file) in [("to_old", "below/old"), ("to_new", "below/new"), ("below/up", "../above")]
    {
        symlink(file, folder.path.join(link)).expect("a link");
    }
    symlink("to_new", folder.path.join("to_link")).expect("a link");
    for (link, file) in [
        ("to_old", "below/old"),
        ("to_link", "below/new"),
        ("to_new", "below/new"),
        ("below/up", "above"),
    ] {
        list_to(&folder, link);
        assert!(folder.path.join(link).is_symlink(), "{link}");
        assert_eq!(folder.get(file), LISTING.as_bytes(), "{link}");
    }
    assert_eq!(folder.names(), ["above", "below", "to_link", "to_new", "to_old"]);

    symlink("round", folder.path.join("round")).expect("a link");
    folder.failed(&["list", "x0", "-o", "round"], "", "cannot write round: ");
    assert!(folder.path.join("round").is_symlink());
}

#[test]
fn permissions_are_kept() {
    for mode in [0o600, 0o640, 0o755] {
        let folder = Folder::new();
        folder.put("out", "old");
        let path = folder.path.join("out");
        fs::set_permissions(&path, Permissions::from_mode(mode)).expect("a file of one's own");
        list_to(&folder, "out");
        let kept = fs::metadata(&path).expect("the file").permissions().mode() & 0o7777;
        assert_eq!((kept, folder.get("out")), (mode, LISTING.as_bytes().to_vec()));
    }
}

/// Only what may be written is replaced. An administrator may write everything.
#[test]
fn a_file_that_may_not_be_written_is_kept() {
    let folder = Folder::new();
    folder.put("out", "old");
    let path = folder.path.join("out");
    fs::set_permissions(&path, Permissions::from_mode(0o444)).expect("a file of one's own");
    match File::options().write(true).open(&path) {
        Ok(_) => list_to(&folder, "out"),
        Err(_) => {
            folder.failed(&["list", "x0", "-o", "out"], "", "cannot write out: ");
            assert_eq!(folder.get("out"), b"old");
        }
    }
    assert_eq!(folder.names(), ["out"]);
}

#[test]
fn a_dash_is_standard_output() {
    let folder = Folder::new();
    folder.gives(&["list", "x0", "-o", "-"], "", LISTING);
    assert_eq!(folder.names(), [""; 0]);
}

/// The file that standard output goes to is written to from where it is, and not replaced.
#[test]
fn standard_output_by_its_name() {
    let folder = Folder::new();
    let path = folder.path.join("log");
    let mut log =
        File::options().create_new(true).read(true).write(true).open(&path).expect("a file");
    log.write_all(b"before\n").expect("room");
    for name in ["/dev/stdout", "log"] {
        let mut command = Command::new(ORACLE);
        command.args(["list", "x0", "-o", name]).current_dir(&folder.path);
        command.stdin(std::process::Stdio::piped()).stdout(log.try_clone().expect("a handle"));
        ended(&[name], &output(&mut command, b""), 0);
    }
    log.write_all(b"after\n").expect("room");
    log.rewind().expect("a file");
    let mut text = String::new();
    log.read_to_string(&mut text).expect("text");
    assert_eq!(text, format!("before\n{LISTING}{LISTING}after\n"));
    assert_eq!(folder.get("log"), text.as_bytes());
    assert_eq!(folder.names(), ["log"]);
}
