//! Random, shaped and damaged files against every service that takes a file, and with each file a
//! formula against parse, the archive beside the model:
//! `cargo run --offline --release -p agreement --bin fuzz -- FILES [SEED]`.
//!
//! It prints how often each service gave a result and each refusal. Where the two sides differ it
//! stops, with the formula, or with the file in hex. Each file and its formula have a seed of their
//! own, SEED for the first ones, one more for the next, so that `-- 1 SEED` with the seed printed
//! tries these two again.

use std::panic::{catch_unwind, AssertUnwindSafe};
use std::process::ExitCode;
use std::time::{Instant, SystemTime, UNIX_EPOCH};
use std::{env, process};

use agreement::formula;
use agreement::fuzz::Fuzz;
use agreement::random::Random;
use agreement::tally::Tally;

fn main() -> ExitCode {
    let (files, seed) = arguments();
    println!("{files} formulas and files from seed {seed}");
    let start = Instant::now();
    let mut fuzz = Fuzz::default();
    if !(0..files).all(|i| agrees(&mut fuzz, seed.wrapping_add(i))) {
        return ExitCode::FAILURE;
    }
    println!("{}", Tally::heading());
    for tally in fuzz.tallies() {
        println!("{}", tally.row());
    }
    println!("No difference on {files} formulas and files, in {} s", start.elapsed().as_secs());
    ExitCode::SUCCESS
}

/// How many files, and the seed; without one, a seed that the clock gives.
fn arguments() -> (u64, u64) {
    let arguments: Vec<String> = env::args().skip(1).collect();
    let numbers: Result<Vec<u64>, _> = arguments.iter().map(|word| word.parse()).collect();
    match numbers.as_deref() {
        Ok([files]) => (*files, seed_from_clock()),
        Ok([files, seed]) => (*files, *seed),
        _ => {
            eprintln!("usage: fuzz FILES [SEED]");
            process::exit(1);
        }
    }
}

fn seed_from_clock() -> u64 {
    let time = SystemTime::now().duration_since(UNIX_EPOCH).unwrap_or_default();
    Random::new(time.as_nanos() as u64).number()
}

/// Tries the formula and the file of this seed, and prints the one on which the sides differ.
fn agrees(fuzz: &mut Fuzz, seed: u64) -> bool {
    let mut random = Random::new(seed);
    let formula = formula::any(&mut random);
    let compared = catch_unwind(AssertUnwindSafe(|| fuzz.compare_formula(&mut random, &formula)));
    if compared.is_err() {
        println!("The sides differ on the formula of seed {seed}:");
        let (text, inputs) = (&formula.text, formula.inputs);
        println!("{inputs} inputs, {} bytes: {}", text.len(), text.escape_ascii());
        return false;
    }

    let file = fuzz.file(&mut random);
    let compared = catch_unwind(AssertUnwindSafe(|| fuzz.compare(&mut random, &file)));
    if compared.is_err() {
        println!("The sides differ on the file of seed {seed}:");
        println!("{} bytes:{}", file.len(), agreement::digits(&file));
    }
    compared.is_ok()
}
