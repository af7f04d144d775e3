//! Writes the program file of a formula to standard output:
//! `cargo run --offline --release -p oracle --example parse -- FORMULA INPUTS > FILE`.
//!
//! INPUTS is the number of inputs that the program has, also of those that FORMULA does not name.

use std::error::Error;
use std::io::{self, Write};
use std::{env, process};

use oracle::LONGEST_PARSED;

fn main() {
    let arguments: Vec<String> = env::args().skip(1).collect();
    let [formula, inputs] = &arguments[..] else {
        eprintln!("usage: parse FORMULA INPUTS");
        process::exit(1);
    };
    if let Err(error) = write(formula, inputs) {
        eprintln!("{error}");
        process::exit(1);
    }
}

fn write(formula: &str, inputs: &str) -> Result<(), Box<dyn Error>> {
    let inputs = inputs.parse().map_err(|_| format!("INPUTS is a number, not `{inputs}`"))?;
    let mut area = [0; LONGEST_PARSED];
    let length = oracle::parse(formula.as_bytes(), inputs, &mut area)?;
    io::stdout().write_all(&area[..length])?;
    Ok(())
}
