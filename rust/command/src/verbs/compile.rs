//! `oracle compile`: the circuit file of a function.

use super::{Verb, GRANT, INPUTS};
use crate::arguments::Arguments;
use crate::failure::Result;
use crate::files::{Circuit, Program};
use crate::output::Output;

pub const VERB: Verb = Verb {
    name: "compile",
    takes: "INPUT",
    about: "writes the circuit file of a function",
    more: "\
Every input line and every work line of the circuit ends as it started, and where the work lines start at
zero each target has its output's value XORed into it: this is proved of every circuit file written here.
",
    options: &[GRANT, INPUTS],
    act,
};

fn act(arguments: &Arguments) -> Result<Output> {
    let [argument] = arguments.plain(["INPUT"])?;
    let program = Program::read(arguments, argument)?;
    Ok(Output::Bytes(Circuit::compiled(arguments, &program)?.file))
}
