//! From a formula to a circuit that has run, in Rust: it is parsed, evaluated on all inputs in one call,
//! quoted, compiled, and run forwards and backwards.
//! `cargo run --offline --release -p oracle --example tour`.

use oracle::{Refusal, ANSWER_ENTRY, COUNT_ENTRY, LONGEST_CIRCUIT, LONGEST_PARSED};

fn main() -> Result<(), Refusal> {
    // Input 0 picks: input 1 if it is 1, otherwise input 2.
    let mut area = [0; LONGEST_PARSED];
    let length = oracle::parse(b"x2^x0&(x1^x2)", 3, &mut area)?;
    let program = &area[..length];
    let head = oracle::read_program(program)?;

    // Question k is bit k of each input's word.
    let mut values = vec![0; head.nodes];
    let questions = [0b1010_1010, 0b1100_1100, 0b1111_0000];
    let word = oracle::evaluate_words(program, &mut values, &questions, 0)?;
    println!("values on all inputs: {word:08b}");

    let mut counts = vec![0; COUNT_ENTRY * head.nodes];
    let mut answers = vec![0; ANSWER_ENTRY * head.outputs];
    oracle::quote(program, &mut counts, &mut answers)?;
    for quote in oracle::quotes(&answers) {
        println!("gates {}, Toffolis {}, work lines {}", quote.gates, quote.toffolis, quote.work);
    }

    let mut sizes = vec![0; head.nodes];
    let mut area = vec![0; LONGEST_CIRCUIT];
    let length = oracle::compile(program, 1, &mut sizes, &mut area)?;
    let circuit = area[..length].to_vec();

    // Three inputs, a target and a work line.
    let mut lines = vec![0; oracle::read_circuit(&circuit)?.lines()];
    lines[..3].copy_from_slice(&[1, 1, 0]);
    println!("before    {lines:?}");
    oracle::run_forwards(&circuit, &mut lines)?;
    println!("forwards  {lines:?}");
    oracle::run_backwards(&circuit, &mut lines)?;
    println!("backwards {lines:?}");

    if let Err(refusal) = oracle::compile(program, 0, &mut sizes, &mut area) {
        println!("{}", refusal.in_words());
    }
    Ok(())
}
