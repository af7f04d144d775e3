//! The two sides, and that they do the same job.

use std::collections::BTreeMap;
use std::fmt::Debug;

use agreement::compare::{compile, evaluate, quote, run, undo, words};
use agreement::fuzz::Fuzz;
use agreement::random::Random;
use oracle::{CircuitHead, ProgramHead, LONGEST_PARSED};

use crate::idiomatic::{self, Refused};
use crate::texts;

type Parse = fn(&[u8], u64, &mut [u8]) -> Result<usize, Refused>;
type ReadProgram = fn(&[u8]) -> Result<ProgramHead, Refused>;
type Evaluate = fn(&[u8], &mut [u8], &[u8], u64) -> Result<bool, Refused>;
type EvaluateWords = fn(&[u8], &mut [u64], &[u64], u64) -> Result<u64, Refused>;
type Compile = fn(&[u8], u64, &mut [u16], &mut [u8]) -> Result<usize, Refused>;
type Quote = fn(&[u8], &mut [u64], &mut [u64]) -> Result<usize, Refused>;
type ReadCircuit = fn(&[u8]) -> Result<CircuitHead, Refused>;
type Run = fn(&[u8], &mut [u8]) -> Result<(), Refused>;
type Undo = fn(&[u8], &[u8], &mut [u8]) -> Result<usize, Refused>;

/// The services of one side.
pub struct Side {
    pub parse: Parse,
    pub read_program: ReadProgram,
    pub evaluate: Evaluate,
    pub evaluate_words: EvaluateWords,
    pub compile: Compile,
    pub quote: Quote,
    pub read_circuit: ReadCircuit,
    pub run_forwards: Run,
    pub run_backwards: Run,
    pub undo: Undo,
}

/// The archive, through its wrapper.
pub const ARCHIVE: Side = Side {
    parse: |text, inputs, area| oracle::parse(text, inputs, area).map_err(numbers),
    read_program: |file| oracle::read_program(file).map_err(numbers),
    evaluate: |file, values, inputs, output| {
        oracle::evaluate(file, values, inputs, output).map_err(numbers)
    },
    evaluate_words: |file, values, inputs, output| {
        oracle::evaluate_words(file, values, inputs, output).map_err(numbers)
    },
    compile: |file, grant, sizes, area| oracle::compile(file, grant, sizes, area).map_err(numbers),
    quote: |file, counts, answers| oracle::quote(file, counts, answers).map_err(numbers),
    read_circuit: |file| oracle::read_circuit(file).map_err(numbers),
    run_forwards: |file, lines| oracle::run_forwards(file, lines).map_err(numbers),
    run_backwards: |file, lines| oracle::run_backwards(file, lines).map_err(numbers),
    undo: |file, choices, area| oracle::undo(file, choices, area).map_err(numbers),
};

/// Idiomatic Rust.
pub const RUST: Side = Side {
    parse: idiomatic::formula::parse,
    read_program: idiomatic::program::read_program,
    evaluate: idiomatic::program::evaluate,
    evaluate_words: idiomatic::program::evaluate_words,
    compile: idiomatic::compile::compile,
    quote: idiomatic::quote::quote,
    read_circuit: idiomatic::circuit::read_circuit,
    run_forwards: idiomatic::circuit::run_forwards,
    run_backwards: idiomatic::circuit::run_backwards,
    undo: idiomatic::circuit::undo,
};

fn numbers(refusal: oracle::Refusal) -> Refused {
    (refusal.number, refusal.place)
}

/// Stops unless both sides answer alike on random files and texts, refusals and areas included:
/// otherwise they would not do the same job.
pub fn agree(random: &mut Random, files: usize, texts: usize) {
    let fuzz = Fuzz::default();
    for _ in 0..files {
        let file = fuzz.file(random);
        agree_on(random, &file);
    }
    println!(
        "Both sides answer alike on {files} files, each given to the nine services for files."
    );

    let mut answers = BTreeMap::new();
    for _ in 0..texts {
        let text = texts::any(random);
        *answers.entry(agree_on_text(random, &text)).or_insert(0) += 1;
    }
    println!("So they do on {texts} texts given to parse: results (0) and refusals {answers:?}.");
}

/// The same for one file.
pub fn agree_on(random: &mut Random, file: &[u8]) {
    let evaluated = evaluate::drawn(random, file.to_vec());
    let by_words = words::drawn(random, file.to_vec());
    let compiled = compile::drawn(random, file.to_vec());
    let quoted = quote::drawn(random, file.to_vec());
    let lines = run::drawn(random, file);
    let undone = undo::drawn(random, file.to_vec());

    same(file, "read_program", |side| (side.read_program)(file));
    same(file, "read_circuit", |side| (side.read_circuit)(file));
    same(file, "evaluate", |side| {
        let mut values = evaluated.values.clone();
        ((side.evaluate)(file, &mut values, &evaluated.inputs, evaluated.output), values)
    });
    same(file, "evaluate_words", |side| {
        let mut values = by_words.values.clone();
        ((side.evaluate_words)(file, &mut values, &by_words.inputs, by_words.output), values)
    });
    same(file, "compile", |side| {
        let (mut sizes, mut area) = (compiled.sizes.clone(), compiled.area.clone());
        ((side.compile)(file, compiled.grant, &mut sizes, &mut area), sizes, area)
    });
    same(file, "quote", |side| {
        let (mut counts, mut answers) = (quoted.counts.clone(), quoted.answers.clone());
        ((side.quote)(file, &mut counts, &mut answers), counts, answers)
    });
    same(file, "run", |side| {
        let (mut there, mut back) = (lines.clone(), lines.clone());
        let answers =
            ((side.run_forwards)(file, &mut there), (side.run_backwards)(file, &mut back));
        (answers, there, back)
    });
    same(file, "undo", |side| {
        let mut area = undone.area.clone();
        ((side.undo)(file, &undone.choices, &mut area), area)
    });
}

/// The same for one text, and gives the number of the refusal, or 0.
pub fn agree_on_text(random: &mut Random, text: &[u8]) -> u64 {
    let inputs = match random.below(20) {
        0 => random.pick(&[65, u64::MAX]),
        1..=4 => random.below(64) as u64,
        _ => 64,
    };
    let needed = (RUST.parse)(text, inputs, &mut [0; LONGEST_PARSED]).unwrap_or(100);
    let shorter = random.below(needed);
    let length = random.pick(&[needed, needed + 1, LONGEST_PARSED, needed - 1, shorter]);
    let area = random.bytes(length);
    let answer = |side: &Side| {
        let mut area = area.clone();
        ((side.parse)(text, inputs, &mut area), area)
    };
    same(text, "parse", answer);
    answer(&RUST).0.err().map_or(0, |(number, _)| number)
}

fn same<T: PartialEq + Debug>(file: &[u8], service: &str, answer: impl Fn(&Side) -> T) {
    let alike = answer(&ARCHIVE) == answer(&RUST);
    assert!(alike, "{service}: liboracle.a and Rust differ on {}", agreement::hex(file));
}
