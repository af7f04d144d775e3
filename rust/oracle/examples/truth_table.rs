//! Prints the truth table of a program file with at most 16 inputs:
//! `cargo run --offline --release -p oracle --example truth_table -- FILE`.
//!
//! Each of the 2^n inputs has a row: the inputs, input 0 first, a blank, and the outputs, output 0
//! first. Input 0 is the lowest bit of the row's number. One call answers an output for 64 rows.

use std::error::Error;
use std::{env, fs, process};

use oracle::QUESTIONS;

const MOST_INPUTS: usize = 16;

fn main() {
    let arguments: Vec<String> = env::args().skip(1).collect();
    let [path] = &arguments[..] else {
        eprintln!("usage: truth_table FILE");
        process::exit(1);
    };
    if let Err(error) = print(path) {
        eprintln!("{error}");
        process::exit(1);
    }
}

fn print(path: &str) -> Result<(), Box<dyn Error>> {
    let file = fs::read(path)?;
    let head = oracle::read_program(&file)?;
    if head.inputs > MOST_INPUTS {
        return Err(format!("{} inputs are too many: at most {MOST_INPUTS}", head.inputs).into());
    }
    let mut values = vec![0; head.nodes];
    let rows = 1 << head.inputs;
    for first in (0..rows).step_by(QUESTIONS) {
        let inputs: Vec<u64> = (0..head.inputs).map(|j| input_word(j, first)).collect();
        let outputs = (0..head.outputs as u64)
            .map(|k| oracle::evaluate_words(&file, &mut values, &inputs, k))
            .collect::<Result<Vec<u64>, _>>()?;
        // With fewer than 6 inputs there are fewer rows than questions.
        for question in 0..QUESTIONS.min(rows - first) {
            println!("{} {}", digits(&inputs, question), digits(&outputs, question));
        }
    }
    Ok(())
}

/// Input j of 64 rows from this one on, a bit each.
fn input_word(j: usize, first: usize) -> u64 {
    (0..QUESTIONS).map(|question| u64::from((first + question) >> j & 1 == 1) << question).sum()
}

/// The bits of one question, a digit for each word.
fn digits(words: &[u64], question: usize) -> String {
    words.iter().map(|word| (word >> question & 1).to_string()).collect()
}
