//! Says what a booking for a program file needs, without compiling it:
//! `cargo run --offline --release -p oracle --example quote -- FILE`.
//!
//! It prints the gates, Toffolis and work lines of each output, and what to book: gates and
//! Toffolis add up, and work lines are the most of any output, as outputs take the same ones.

use std::error::Error;
use std::{env, fs, process};

use oracle::{exact, Quote, ANSWER_ENTRY, COUNT_ENTRY};

fn main() {
    let arguments: Vec<String> = env::args().skip(1).collect();
    let [path] = &arguments[..] else {
        eprintln!("usage: quote FILE");
        process::exit(1);
    };
    if let Err(error) = print(path) {
        eprintln!("{error}");
        process::exit(1);
    }
}

fn print(path: &str) -> Result<(), Box<dyn Error>> {
    let quotes = quoted(&fs::read(path)?)?;
    for (k, quote) in quotes.iter().enumerate() {
        let numbers = [quote.gates, quote.toffolis, quote.work];
        println!("output {k}: {}", shown(numbers.map(exact)));
    }
    let gates = quotes.iter().map(|quote| exact(quote.gates)).sum();
    let toffolis = quotes.iter().map(|quote| exact(quote.toffolis)).sum();
    let work = quotes.iter().map(|quote| quote.work).max().and_then(exact);
    println!("booking: {}", shown([gates, toffolis, work]));
    Ok(())
}

/// The quote of each output, in lists just as long as the file needs.
fn quoted(file: &[u8]) -> Result<Vec<Quote>, oracle::Refusal> {
    let head = oracle::read_program(file)?;
    let mut counts = vec![0; COUNT_ENTRY * head.nodes];
    let mut answers = vec![0; ANSWER_ENTRY * head.outputs];
    oracle::quote(file, &mut counts, &mut answers)?;
    Ok(oracle::quotes(&answers).collect())
}

/// Gates, Toffolis and work lines, each a number if it is known.
fn shown(numbers: [Option<u64>; 3]) -> String {
    let over = || "over 1,000,000".to_string();
    let [gates, toffolis, work] =
        numbers.map(|number| number.map_or_else(over, |number| number.to_string()));
    format!("gates {gates}, Toffolis {toffolis}, work lines {work}")
}
