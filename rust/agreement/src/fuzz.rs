//! Formulas and files of every kind against every service, as many as one likes.

use model::construct;

use crate::compare::run::Direction::{self, Backwards, Forwards};
use crate::compare::{compile, evaluate, parse, quote, read, run, undo, words};
use crate::formula::{self, Formula};
use crate::random::Random;
use crate::tally::Tally;
use crate::{circuit, damage, drawn, limits, program, shaped};

/// The services, each with what it has met.
pub struct Fuzz {
    shaped: Vec<Vec<u8>>,
    at_limits: Vec<Vec<u8>>,
    tallies: [Tally; 10],
}

impl Default for Fuzz {
    fn default() -> Fuzz {
        let services = [
            "parse",
            "read_program",
            "evaluate",
            "evaluate_words",
            "compile",
            "quote",
            "read_circuit",
            "run_forwards",
            "run_backwards",
            "undo",
        ];
        let shaped = shaped::program::all().into_iter().chain(shaped::circuit::all());
        Fuzz {
            shaped: shaped.map(|shaped| shaped.file).collect(),
            at_limits: programs_at_limits(),
            tallies: services.map(Tally::new),
        }
    }
}

impl Fuzz {
    /// A random file: good, damaged, parsed, compiled, shaped, or shaped and damaged; of both
    /// formats.
    pub fn file(&self, random: &mut Random) -> Vec<u8> {
        match random.below(19) {
            0..=1 => program::valid(random).bytes(),
            2 => drawn::any(random).bytes(),
            3 => drawn::large(random).bytes(),
            4 => drawn::repeated(random).bytes(),
            5 => drawn::about_three_million(random).bytes(),
            6..=7 => drawn::accepted(random).bytes(),
            8..=10 => program::damaged(random),
            11..=12 => circuit::valid(random).bytes(),
            13..=14 => circuit::damaged(random),
            15 => compiled(random),
            16 => parsed(random),
            17 => self.shaped(random),
            _ => {
                let file = self.shaped(random);
                bytes_damaged(random, file)
            }
        }
    }

    /// A file at a limit of the formats, or of compiling.
    fn shaped(&self, random: &mut Random) -> Vec<u8> {
        let files = if random.once_in(4) { &self.at_limits } else { &self.shaped };
        files[random.below(files.len())].clone()
    }

    /// Calls parse with this formula, and fails where the two sides differ.
    pub fn compare_formula(&mut self, random: &mut Random, formula: &Formula) {
        let [parsed, ..] = &mut self.tallies;
        parsed.count(&parse::compare(&parse::drawn(random, formula.clone())));
    }

    /// Calls every other service with this file, and fails where the two sides differ.
    pub fn compare(&mut self, random: &mut Random, file: &[u8]) {
        let run = |random: &mut Random, direction: Direction| {
            run::compare(direction, file, &run::drawn(random, file)).0
        };
        let [_, others @ ..] = &mut self.tallies;
        let [program, evaluated, by_words, compiled, quoted, circuit, forwards, backwards, undone] =
            others;
        program.count(&read::PROGRAM.compare(file));
        evaluated.count(&evaluate::compare(&evaluate::drawn(random, file.to_vec())));
        by_words.count(&words::compare(&words::drawn(random, file.to_vec())));
        compiled.count(&compile::compare(&compile::drawn(random, file.to_vec())));
        quoted.count(&quote::compare(&quote::drawn(random, file.to_vec())));
        circuit.count(&read::CIRCUIT.compare(file));
        forwards.count(&run(random, Forwards));
        backwards.count(&run(random, Backwards));
        undone.count(&undo::compare(&undo::drawn(random, file.to_vec())));
    }

    /// What each service has met so far.
    pub fn tallies(&self) -> &[Tally] {
        &self.tallies
    }
}

fn programs_at_limits() -> Vec<Vec<u8>> {
    let refused = [
        limits::a_gate_too_many(),
        limits::ands(1_026, true),
        limits::nested_marks(1_025),
        limits::of_marked_gates(&[46_875; 64]),
    ];
    limits::accepted().iter().chain(&refused).map(|program| program.bytes()).collect()
}

/// The circuit file of a random program.
fn compiled(random: &mut Random) -> Vec<u8> {
    let program = drawn::accepted(random);
    model::circuit::write(&construct::circuit(&drawn::read(&program)))
}

/// The program file of a random formula.
fn parsed(random: &mut Random) -> Vec<u8> {
    let Formula { text, inputs } = formula::valid(random);
    let mut file = vec![0; oracle::LONGEST_PARSED];
    let length = model::parse::parse(&text, inputs, &mut file);
    file.truncate(length.expect("a formula that was drawn is in order"));
    file
}

fn bytes_damaged(random: &mut Random, file: Vec<u8>) -> Vec<u8> {
    if file.len() < 40 {
        return damage::lengthened(random, file);
    }
    match random.below(4) {
        0 => damage::cut_short(random, file, 32),
        1 => damage::lengthened(random, file),
        _ => damage::with_a_byte_changed(random, file, 36),
    }
}
