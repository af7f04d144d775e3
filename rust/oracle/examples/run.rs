//! Compiles a program file and runs its circuit from a start:
//! `cargo run --offline --release -p oracle --example run -- FILE BITS`.
//!
//! BITS are the lines from the first one on, inputs, then targets, then work lines; those that are
//! left out start at 0. It prints the lines before and after, in these three groups.

use std::error::Error;
use std::{env, fs, process};

use oracle::CircuitHead;

/// Enough for every program and every circuit.
const MOST_NODES: usize = 4_096;
const MOST_BYTES: usize = 64_028;
const MOST_WORK_LINES: u64 = 1_024;

fn main() {
    let arguments: Vec<String> = env::args().skip(1).collect();
    let [path, bits] = &arguments[..] else {
        eprintln!("usage: run FILE BITS");
        process::exit(1);
    };
    if let Err(error) = run(path, bits) {
        eprintln!("{error}");
        process::exit(1);
    }
}

fn run(path: &str, bits: &str) -> Result<(), Box<dyn Error>> {
    let circuit = compiled(&fs::read(path)?)?;
    let head = oracle::read_circuit(&circuit)?;
    let mut lines = start(bits, head.lines())?;
    println!("before {}", shown(&lines, head));
    oracle::run_forwards(&circuit, &mut lines)?;
    println!("after  {}", shown(&lines, head));
    Ok(())
}

fn compiled(program: &[u8]) -> Result<Vec<u8>, oracle::Refusal> {
    let (mut sizes, mut area) = ([0; MOST_NODES], vec![0; MOST_BYTES]);
    let length = oracle::compile(program, MOST_WORK_LINES, &mut sizes, &mut area)?;
    area.truncate(length);
    Ok(area)
}

/// A byte for each digit, then zeros up to the number of lines.
fn start(bits: &str, count: usize) -> Result<Vec<u8>, String> {
    if bits.len() > count || !bits.bytes().all(|digit| matches!(digit, b'0' | b'1')) {
        return Err(format!("BITS is up to {count} digits, 0 or 1, not `{bits}`"));
    }
    let mut lines: Vec<u8> = bits.bytes().map(|digit| digit - b'0').collect();
    lines.resize(count, 0);
    Ok(lines)
}

/// The digits of each group of lines, parted by a blank.
fn shown(lines: &[u8], head: CircuitHead) -> String {
    let digits = |lines: &[u8]| lines.iter().map(u8::to_string).collect::<String>();
    let (inputs, rest) = lines.split_at(head.inputs);
    let (targets, work) = rest.split_at(head.outputs);
    [inputs, targets, work].map(digits).join(" ")
}
