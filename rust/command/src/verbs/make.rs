//! `oracle make`: the program file of a function, or the table of a known one.

use std::ops::RangeInclusive;

use table::functions::{self, Form, MOST_BITS, MOST_INPUTS};

use super::{Opt, Verb, INPUTS};
use crate::arguments::Arguments;
use crate::failure::Result;
use crate::files::Program;
use crate::output::Output;

pub const VERB: Verb = Verb {
    name: "make",
    takes: "INPUT",
    about: "writes the program file of a table or a formula",
    more: "\
With --adder, --less or --and there is no INPUT, and what is written is a table as text. Of two numbers
a and b, the bits of a are the first inputs, those of b the next, the lowest bit of each first.
",
    options: &[
        INPUTS,
        Opt { name: "--adder", value: "BITS", about: "the table of a + b, 1 to 32 bits each" },
        Opt { name: "--less", value: "BITS", about: "the table of a < b, 1 to 32 bits each" },
        Opt { name: "--and", value: "INPUTS", about: "the table of the AND of 2 to 64 inputs" },
        Opt { name: "--marked", value: "", about: "with marks, which save work lines and cost gates" },
    ],
    act,
};

/// The options that ask for a table, and what makes it, of how many bits or inputs.
type Known = (&'static str, fn(usize, Form) -> String, RangeInclusive<u64>);

const KNOWN: [Known; 3] = [
    ("--adder", functions::adder, 1..=MOST_BITS as u64),
    ("--less", functions::less, 1..=MOST_BITS as u64),
    ("--and", functions::and, 2..=MOST_INPUTS as u64),
];

fn act(arguments: &Arguments) -> Result<Output> {
    let asked: Vec<&Known> = KNOWN.iter().filter(|(name, ..)| arguments.given(name)).collect();
    match asked[..] {
        [] if arguments.given("--marked") => {
            Err(arguments.wrong("--marked goes with --adder, --less or --and"))
        }
        [] => {
            let [argument] = arguments.plain(["INPUT"])?;
            Ok(Output::Bytes(Program::read(arguments, argument)?.file))
        }
        [known] if !arguments.given("--inputs") => known_table(arguments, known),
        [(name, ..)] => Err(arguments.wrong(&format!("--inputs does not go with {name}"))),
        [(first, ..), (second, ..), ..] => {
            Err(arguments.wrong(&format!("{first} does not go with {second}")))
        }
    }
}

fn known_table(arguments: &Arguments, (name, table, range): &Known) -> Result<Output> {
    let [] = arguments.plain([])?;
    let form = if arguments.given("--marked") { Form::Marked } else { Form::Plain };
    match arguments.number(name)? {
        Some(number) if range.contains(&number) => Ok(Output::Text(table(number as usize, form))),
        _ => {
            let (first, last) = (range.start(), range.end());
            Err(arguments.wrong(&format!("{name} takes a number from {first} to {last}")))
        }
    }
}
