//! `oracle undo`: the circuit file that undoes a circuit except on chosen lines.

use std::ffi::OsStr;
use std::ops::Range;

use oracle::CircuitHead;

use super::{Opt, Verb, GRANT, INPUTS};
use crate::arguments::Arguments;
use crate::failure::Result;
use crate::files::Circuit;
use crate::output::Output;
use crate::words;

pub const VERB: Verb = Verb {
    name: "undo",
    takes: "INPUT",
    about: "writes the circuit file that undoes a circuit except on chosen lines",
    more: "\
It has the gates whose target is not chosen, the last one first. Where no chosen line is a control of a
gate, running a circuit and then its undoing puts every other line back. A function is compiled first.
",
    options: &[
        Opt {
            name: "--keep",
            value: "LINES",
            about: "choose lines: numbers, and the words inputs, targets and work, parted by commas",
        },
        GRANT,
        INPUTS,
    ],
    act,
};

fn act(arguments: &Arguments) -> Result<Output> {
    let [argument] = arguments.plain(["INPUT"])?;
    let Circuit { head, file } = Circuit::read(arguments, argument)?;
    let mut choices = vec![0; head.lines()];
    if let Some(kept) = arguments.value("--keep") {
        for line in kept_lines(arguments, kept, head)?.into_iter().flatten() {
            match choices.get_mut(line) {
                Some(choice) => *choice = 1,
                // A line that is not there is a choice too many, which the library refuses.
                None => choices.push(1),
            }
        }
    }
    let mut area = vec![0; file.len()];
    let length =
        oracle::undo(&file, &choices, &mut area).map_err(|refusal| words::lines(refusal, head))?;
    area.truncate(length);
    Ok(Output::Bytes(area))
}

/// The lines that each word names.
fn kept_lines(
    arguments: &Arguments,
    words: &OsStr,
    head: CircuitHead,
) -> Result<Vec<Range<usize>>> {
    let words = words.to_string_lossy();
    let first_work = head.inputs + head.outputs;
    let named = |word: &str| match word {
        "inputs" => Some(0..head.inputs),
        "targets" => Some(head.inputs..first_work),
        "work" => Some(first_work..head.lines()),
        number => {
            let is_number = !number.is_empty() && number.bytes().all(|byte| byte.is_ascii_digit());
            let line = number.parse::<usize>().unwrap_or(usize::MAX).min(head.lines());
            is_number.then_some(line..line + 1)
        }
    };
    let lines = words.split(',').map(|word| {
        named(word).ok_or_else(|| arguments.wrong(&format!("--keep takes lines, not `{word}`")))
    });
    lines.collect()
}
