//! Makes the program file of a readable table of nodes, or the table of a function, with marks or
//! without:
//!
//! ```text
//! table < and.table > and.program
//! table adder 32 > adder32.table
//! table less 8 > less8.table
//! table and 32 > and32.table
//! table and 32 marked > and32_marked.table
//! ```
//!
//! The library's header says what a table is. What is wrong goes to standard error, with the line's
//! number, and the exit status is 1.

use std::env;
use std::io::{self, Read, Write};
use std::ops::RangeInclusive;
use std::process::ExitCode;

use table::functions::{self, Form, MOST_BITS, MOST_INPUTS};

const USAGE: &str = "usage: table < TABLE > PROGRAM, or table adder BITS [marked], \
                     or table less BITS [marked], or table and INPUTS [marked]";

fn main() -> ExitCode {
    let arguments: Vec<String> = env::args().skip(1).collect();
    let arguments: Vec<&str> = arguments.iter().map(String::as_str).collect();
    match made(&arguments).and_then(|bytes| written(&bytes)) {
        Ok(()) => ExitCode::SUCCESS,
        Err(what) => {
            eprintln!("{what}");
            ExitCode::FAILURE
        }
    }
}

fn made(arguments: &[&str]) -> Result<Vec<u8>, String> {
    let (arguments, form) = match arguments {
        [function @ .., "marked"] => (function, Form::Marked),
        _ => (arguments, Form::Plain),
    };
    let table = match *arguments {
        [] if form == Form::Plain => return program_file(),
        ["adder", bits] => functions::adder(number("BITS", bits, 1..=MOST_BITS)?, form),
        ["less", bits] => functions::less(number("BITS", bits, 1..=MOST_BITS)?, form),
        ["and", inputs] => functions::and(number("INPUTS", inputs, 2..=MOST_INPUTS)?, form),
        _ => return Err(USAGE.to_string()),
    };
    Ok(table.into_bytes())
}

/// The program file of the table on standard input.
fn program_file() -> Result<Vec<u8>, String> {
    let mut text = Vec::new();
    io::stdin().read_to_end(&mut text).map_err(|error| error.to_string())?;
    let table = table::read(&text).map_err(|fault| fault.to_string())?;
    Ok(table.program_file())
}

fn number(name: &str, word: &str, range: RangeInclusive<usize>) -> Result<usize, String> {
    match word.parse() {
        Ok(number) if range.contains(&number) => Ok(number),
        _ => {
            let (first, last) = (range.start(), range.end());
            Err(format!("{name} is a number from {first} to {last}, not `{word}`"))
        }
    }
}

fn written(bytes: &[u8]) -> Result<(), String> {
    io::stdout().write_all(bytes).map_err(|error| error.to_string())
}
