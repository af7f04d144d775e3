//! `oracle run` and `oracle back`: a circuit run from a start, forwards or backwards.

use std::ffi::OsStr;
use std::os::unix::ffi::OsStrExt;

use oracle::{CircuitHead, Refusal};

use super::{Verb, GRANT, INPUTS};
use crate::arguments::Arguments;
use crate::failure::Result;
use crate::files::Circuit;
use crate::output::Output;
use crate::words;

const MORE: &str = "\
BITS has a digit, 0 or 1, for each line: inputs, then targets, then work lines. Lines that are left out
start at 0, and blanks are passed over. A function is compiled first.
";

pub const RUN: Verb = Verb {
    name: "run",
    takes: "INPUT BITS",
    about: "runs a circuit, and shows its lines before and after",
    more: MORE,
    options: &[GRANT, INPUTS],
    act: |arguments| act(arguments, oracle::run_forwards),
};

pub const BACK: Verb = Verb {
    name: "back",
    takes: "INPUT BITS",
    about: "runs a circuit backwards, and shows its lines before and after",
    more: MORE,
    options: &[GRANT, INPUTS],
    act: |arguments| act(arguments, oracle::run_backwards),
};

type Running = fn(&[u8], &mut [u8]) -> std::result::Result<(), Refusal>;

fn act(arguments: &Arguments, run: Running) -> Result<Output> {
    let [argument, digits] = arguments.plain(["INPUT", "BITS"])?;
    let circuit = Circuit::read(arguments, argument)?;
    let mut lines = bits(digits);
    // More lines than there are stay as they are, for the library to refuse.
    lines.resize(lines.len().max(circuit.head.lines()), 0);
    let before = lines.clone();
    run(&circuit.file, &mut lines).map_err(|refusal| words::lines(refusal, circuit.head))?;
    let [before, after] = [before, lines].map(|lines| shown(&lines, circuit.head));
    Ok(Output::Text(format!("before {before}\nafter  {after}\n")))
}

/// The bits of digits, without the blanks between them.
pub fn bits(digits: &OsStr) -> Vec<u8> {
    digits.as_bytes().iter().filter(|byte| **byte != b' ').map(bit).collect()
}

/// The bit of a digit. What is no digit gives a byte that the library refuses.
pub fn bit(digit: &u8) -> u8 {
    digit.wrapping_sub(b'0')
}

/// The digits of each group of lines that there are, parted by a blank.
fn shown(lines: &[u8], head: CircuitHead) -> String {
    let digits = |lines: &[u8]| lines.iter().map(u8::to_string).collect::<String>();
    let (inputs, rest) = lines.split_at(head.inputs);
    let (targets, work) = rest.split_at(head.outputs);
    let groups = [inputs, targets, work].into_iter().filter(|group| !group.is_empty());
    groups.map(digits).collect::<Vec<_>>().join(" ")
}
