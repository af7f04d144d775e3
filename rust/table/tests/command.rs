//! The command itself: what it reads, what it writes where, and its exit status.

use std::io::Write;
use std::process::{Command, Output, Stdio};

use table::functions::{adder, and, less, Form};

/// Runs the command with these arguments on this standard input.
fn table(arguments: &[&str], input: &str) -> Output {
    let mut command = Command::new(env!("CARGO_BIN_EXE_table"))
        .args(arguments)
        .stdin(Stdio::piped())
        .stdout(Stdio::piped())
        .stderr(Stdio::piped())
        .spawn()
        .expect("the command starts");
    let mut stdin = command.stdin.take().expect("a pipe");
    // Where the arguments ask for no input, the command may have ended before all of it is written.
    let _ = stdin.write_all(input.as_bytes());
    drop(stdin);
    command.wait_with_output().expect("the command ends")
}

fn gives(arguments: &[&str], input: &str, wanted: &[u8]) {
    let output = table(arguments, input);
    assert!(output.status.success(), "{arguments:?}");
    assert_eq!(output.stdout, wanted, "{arguments:?}");
    assert_eq!(output.stderr, b"", "{arguments:?}");
}

fn fails(arguments: &[&str], input: &str, message: &str) {
    let output = table(arguments, input);
    assert_eq!(output.status.code(), Some(1), "{arguments:?}");
    assert_eq!(output.stdout, b"", "{arguments:?}");
    assert_eq!(String::from_utf8_lossy(&output.stderr), message, "{arguments:?}");
}

#[test]
fn a_table_gives_its_program_file() {
    let text = "inputs 0\n0 = ONE\noutput 0\n";
    let file = table::read(text.as_bytes()).expect("a good table").program_file();
    assert_eq!(file.len(), 44);
    gives(&[], text, &file);
}

#[test]
fn a_bad_table_is_named_by_its_line() {
    let message = "line 2: unknown kind `TWO`, the kinds are ZERO, ONE, INPUT, NOT, XOR, AND\n";
    fails(&[], "inputs 0\n0 = TWO\noutput 0\n", message);
    fails(&[], "", "line 1: the table ends without `inputs`\n");
}

#[test]
fn a_mark_is_written() {
    let text = "inputs 0\n0 = ONE\n1 = AND 0 0 marked\noutput 1\n";
    let file = table::read(text.as_bytes()).expect("a good table").program_file();
    assert_eq!(file[42..48], [5, 1, 0, 0, 0, 0]);
    gives(&[], text, &file);
    let message = "line 3: XOR cannot be marked, only AND can\n";
    fails(&[], &text.replace("AND", "XOR"), message);
}

#[test]
fn functions() {
    gives(&["adder", "8"], "", adder(8, Form::Plain).as_bytes());
    gives(&["less", "32"], "", less(32, Form::Plain).as_bytes());
    gives(&["and", "64"], "", and(64, Form::Plain).as_bytes());
    gives(&["adder", "32", "marked"], "", adder(32, Form::Marked).as_bytes());
    gives(&["less", "8", "marked"], "", less(8, Form::Marked).as_bytes());
    gives(&["and", "32", "marked"], "", and(32, Form::Marked).as_bytes());
    for bits in ["0", "33", "-1", "x", ""] {
        let message = format!("BITS is a number from 1 to 32, not `{bits}`\n");
        fails(&["adder", bits], "", &message);
        fails(&["less", bits], "", &message);
        fails(&["less", bits, "marked"], "", &message);
    }
    for inputs in ["0", "1", "65"] {
        let message = format!("INPUTS is a number from 2 to 64, not `{inputs}`\n");
        fails(&["and", inputs], "", &message);
    }
}

#[test]
fn other_arguments_are_told_the_use() {
    let usage = "usage: table < TABLE > PROGRAM, or table adder BITS [marked], or table less BITS \
                 [marked], or table and INPUTS [marked]\n";
    fails(&["and.table"], "", usage);
    fails(&["adder"], "", usage);
    fails(&["less", "8", "8"], "", usage);
    fails(&["marked"], "", usage);
    fails(&["and", "8", "marked", "marked"], "", usage);
}
