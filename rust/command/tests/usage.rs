//! Wrong usage, status 2, and errors of reading and writing, status 3; help and version.

mod common;

use std::ffi::OsStr;
use std::fs::{self, File};
use std::os::unix::ffi::OsStrExt;

use common::functions::{compiled, file, of_formula, path, repository, MOST_WORK};
use common::{each_verb, ended, message, Folder, VERBS};

const OF_CIRCUITS: [&str; 6] = ["list", "compile", "run", "back", "undo", "export"];

/// Each option, with a value where it takes one, and the verbs that have it.
const OPTIONS: [(&str, Option<&str>, &[&str]); 11] = [
    ("-o", Some("out"), &VERBS),
    ("--inputs", Some("2"), &VERBS),
    ("--grant", Some("9"), &OF_CIRCUITS),
    ("--questions", Some("questions"), &["evaluate"]),
    ("--all", None, &["evaluate"]),
    ("--keep", Some("targets"), &["undo"]),
    ("--to", Some("real"), &["export"]),
    ("--adder", Some("8"), &["make"]),
    ("--less", Some("8"), &["make"]),
    ("--and", Some("8"), &["make"]),
    ("--marked", None, &["make"]),
];

#[test]
fn verbs() {
    let folder = Folder::new();
    folder.usage(&[]);
    for verb in ["frobnicate", "Check", "che", "", "-", "x0&x1", "--grant", "-o", "checks"] {
        folder.usage(&[verb]);
        folder.usage(&[verb, "x0&x1"]);
    }
    let output = folder.run(&[OsStr::from_bytes(b"\xff")], "");
    assert_eq!(output.status.code(), Some(2));
    let output =
        folder.run(&[OsStr::new("check"), OsStr::from_bytes(b"--\xff"), OsStr::new("x0")], "");
    assert_eq!(output.status.code(), Some(2));
}

#[test]
fn options_that_a_verb_does_not_have() {
    let folder = Folder::new();
    for arguments in each_verb("x0&x1") {
        for option in ["--frob", "-x", "--grants", "--input", "--inp", "-O", "---", "--=2", "-"] {
            folder.usage(&[&arguments[..], &[option]].concat());
        }
        for (option, value, verbs) in OPTIONS {
            if !verbs.contains(&arguments[0]) {
                let given: Vec<&str> = [option].into_iter().chain(value).collect();
                folder.usage(&[&arguments[..], &given].concat());
                folder.usage(&[&arguments[..1], &given, &arguments[1..]].concat());
            }
        }
    }
    assert_eq!(folder.names(), [""; 0]);
}

#[test]
fn options_twice_or_without_their_value() {
    let folder = Folder::new();
    folder.put("questions", "");
    for (option, value, verbs) in OPTIONS {
        let of_verbs = each_verb("x0&x1");
        for arguments in of_verbs.iter().filter(|arguments| verbs.contains(&arguments[0])) {
            let given: Vec<&str> = [option].into_iter().chain(value).collect();
            folder.usage(&[&arguments[..], &given, &given].concat());
            match value {
                Some(_) => folder.usage(&[&arguments[..], &[option]].concat()),
                None => folder.usage(&[&arguments[..], &[&format!("{option}=1")]].concat()),
            };
        }
    }
    folder.usage(&["list", "x0", "--grant=1", "--grant", "1"]);
    folder.usage(&["list", "x0", "--grant", "1", "--grant=2"]);
    folder.usage(&["make", "--adder", "8", "--adder", "8"]);
    folder.usage(&["make", "--adder", "8", "--marked", "--marked"]);
    folder.usage(&["evaluate", "x0", "--all", "--all"]);
    folder.usage(&["evaluate", "x0", "--questions", "questions", "--questions=questions"]);
    assert_eq!(folder.names(), ["questions"]);
}

#[test]
fn arguments_missing_and_superfluous() {
    let folder = Folder::new();
    folder.put("questions", "11\n");
    for verb in VERBS {
        folder.usage(&[verb]);
        folder.usage(&[verb, "--"]);
    }
    for verb in ["evaluate", "run", "back", "export"] {
        folder.usage(&[verb, "x0&x1"]);
    }
    for arguments in each_verb("x0&x1") {
        folder.usage(&[&arguments[..], &["x0"]].concat());
        folder.usage(&[&arguments[..], &["x0", "x0"]].concat());
        folder.usage(&[&arguments[..], &["--", "x0"]].concat());
        folder.usage(&[&arguments[..], &["-o", "out", ""]].concat());
    }
    for questions in [&["--all"][..], &["--questions", "questions"]] {
        folder.usage(&[&["evaluate", "x0&x1", "11"], questions].concat());
        folder.usage(&[&["evaluate"], questions].concat());
    }
    folder.usage(&["evaluate", "x0&x1", "--all", "--questions", "questions"]);
    folder.usage(&["evaluate", "-", "--questions", "-"]);
    folder.usage(&["evaluate", "x16", "--all"]);
    for function in ["--adder", "--less", "--and"] {
        folder.usage(&["make", function, "8", "x0&x1"]);
        folder.usage(&["make", function, "8", "--inputs", "3"]);
    }
    folder.usage(&["make", "--adder", "8", "--less", "8"]);
    folder.usage(&["make", "--marked"]);
    folder.usage(&["make", "--marked", "x0&x1"]);
    assert_eq!(folder.names(), ["questions"]);
}

#[test]
fn numbers_and_words_that_are_none() {
    let folder = Folder::new();
    for number in ["", "x", "-1", "+1", "1.5", "1e3", "0x10", " 1", "1 ", "1,024", "٣"] {
        folder.usage(&["list", "x0", &format!("--grant={number}")]);
        folder.usage(&["list", "x0", "--grant", number]);
        folder.usage(&["list", "x0", "--inputs", number]);
        folder.usage(&["make", &format!("--adder={number}")]);
    }
    for bits in ["0", "33", "64", "99999999999999999999999999"] {
        folder.usage(&["make", "--adder", bits]);
        folder.usage(&["make", "--less", bits, "--marked"]);
    }
    for inputs in ["0", "1", "65"] {
        folder.usage(&["make", "--and", inputs]);
    }
    for format in ["", "qasm", "qasm4", "QASM2", "real,blif"] {
        folder.usage(&["export", "x0", "--to", format]);
    }
    for keep in ["target", "Targets", "x", "0;1", "0,,1", ",0", "0,", "-1", "0-1", "targets work"] {
        folder.usage(&["undo", "x0", &format!("--keep={keep}")]);
    }
}

#[test]
fn inputs_of_what_is_no_formula() {
    let folder = Folder::new();
    let circuit = compiled(&file("and", "program"), MOST_WORK).unwrap();
    let others = [path("and", "table"), path("and", "program"), "the.circuit".to_string()];
    folder.put("the.circuit", circuit);
    for input in &others {
        for arguments in each_verb(input) {
            // The others do not take a circuit file, or not these bits.
            if input == "the.circuit" && !["check", "run", "undo"].contains(&arguments[0]) {
                continue;
            }
            folder.printed(&arguments, "");
            folder.usage(&[&arguments[..], &["--inputs", "2"]].concat());
        }
    }
}

#[test]
fn help() {
    let folder = Folder::new();
    let all = folder.text(&["--help"], "");
    for verb in VERBS {
        assert!(all.contains(verb), "{verb} is not in\n{all}");
        let text = folder.text(&[verb, "--help"], "");
        assert!(text.contains(&format!("oracle {verb}")), "{verb} is not in\n{text}");
        for (option, _, verbs) in OPTIONS {
            let named = text.split(|c: char| !(c.is_ascii_lowercase() || c == '-'));
            let is_named = named.into_iter().any(|word| word == option);
            assert_eq!(is_named, verbs.contains(&verb), "{option} in\n{text}");
        }
    }
}

/// The version is that of the header.
#[test]
fn version() {
    let header = fs::read_to_string(repository("include/oracle.h")).expect("the header");
    let line = header.lines().find_map(|line| line.strip_prefix("#define ORACLE_VERSION "));
    let version = line.expect("a version").trim().trim_matches('"');
    assert_eq!(version.split('.').filter(|part| part.parse::<u16>().is_ok()).count(), 3);
    Folder::new().gives(&["--version"], "", format!("oracle {version}\n"));
}

/// A file is named by any argument that does not look like a formula.
#[test]
fn files_named_like_formulas() {
    let folder = Folder::new();
    folder.put("x0", file("and", "program"));
    folder.put("1", file("and", "program"));
    folder.gives(&["list", "./x0"], "", file("and", "listing"));
    folder.gives(&["list", "./1"], "", file("and", "listing"));
    folder.gives(&["make", "x0"], "", of_formula("x0", 1));
    folder.gives(&["make", "1"], "", of_formula("1", 0));
    folder.gives(&["make", "-o", "x1", "x0"], "", "");
    assert_eq!(folder.get("x1"), of_formula("x0", 1));
}

#[test]
fn files_that_cannot_be_read() {
    let folder = Folder::new();
    fs::create_dir(folder.path.join("folder")).unwrap();
    for name in ["nofile", "no/such/file", "x0|x1", "folder", "./x0"] {
        for arguments in each_verb(name) {
            let writing = [&arguments[..], &["-o", "out"]].concat();
            folder.failed(&arguments, "", &format!("cannot read {name}: "));
            folder.failed(&writing, "", &format!("cannot read {name}: "));
        }
    }
    for name in ["nofile", "folder"] {
        let arguments = ["evaluate", "x0", "--questions", name];
        folder.failed(&arguments, "", &format!("cannot read {name}: "));
    }
    assert_eq!(folder.names(), ["folder"]);
    let given = File::open(&folder.path).unwrap();
    let output = folder.command(&["check", "-"]).stdin(given).output().unwrap();
    ended(&["check", "-"], &output, 3);
    assert!(message(&output).starts_with("cannot read "), "{}", message(&output));
}
