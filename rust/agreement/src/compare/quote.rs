//! quote, both lent lists before and after included.

use oracle::{ANSWER_ENTRY, COUNT_ENTRY};

use crate::lent::lent;
use crate::random::Random;
use crate::{hex, Outcome};

/// The largest number that is shown, which stands for every one above 1,000,000.
pub const OVER: u64 = 1_000_001;

/// What one call is given.
#[derive(Debug)]
pub struct Case {
    /// The program file.
    pub file: Vec<u8>,
    /// The count list.
    pub counts: Vec<u64>,
    /// The answer list.
    pub answers: Vec<u64>,
}

impl Case {
    /// A case with lists of so many numbers, no two of them equal, and none that an answer has.
    pub fn new(file: &[u8], counts: usize, answers: usize) -> Case {
        let list = |length: usize, first: u64| (first..).take(length).collect();
        Case {
            file: file.to_vec(),
            counts: list(counts, 0x8000_0000_0000_0000),
            answers: list(answers, 0xc000_0000_0000_0000),
        }
    }

    /// The case for a message.
    pub fn describe(&self) -> String {
        let (counts, answers) = (self.counts.len(), self.answers.len());
        format!("counts of {counts}, answers of {answers}, file of {}", hex(&self.file))
    }
}

/// What one call gives, and the count list and the answer list after it.
pub type Quoted = (Outcome<usize>, Vec<u64>, Vec<u64>);

/// What the archive answers.
pub fn archive(case: &Case) -> Quoted {
    let (outcome, (counts, answers)) = super::archive(&case.file, |file| {
        let ((answer, answers), counts) = lent(&case.counts, |counts| {
            lent(&case.answers, |answers| oracle::quote(file, counts, answers))
        });
        (answer, (counts, answers))
    });
    (outcome, counts, answers)
}

/// What the model answers.
pub fn model(case: &Case) -> Quoted {
    let (mut counts, mut answers) = (case.counts.clone(), case.answers.clone());
    let answer = model::quote::quote(&case.file, &mut counts, &mut answers);
    (super::model(answer), counts, answers)
}

/// The numbers that the archive gives the outputs of a good program, in lists as long as it needs.
pub fn numbers(file: &[u8]) -> Vec<[u64; 3]> {
    let head = oracle::read_program(file).expect("a good program");
    let case = Case::new(file, COUNT_ENTRY * head.nodes, ANSWER_ENTRY * head.outputs);
    let (outcome, _, answers) = archive(&case);
    assert_eq!(outcome, Ok(head.outputs), "{}", case.describe());
    answers.as_chunks().0.to_vec()
}

/// Holds both sides to each other and to what 02 says of both lists.
pub fn compare(case: &Case) -> Outcome<usize> {
    let (expected, expected_counts, expected_answers) = model(case);
    let (outcome, counts, answers) = archive(case);
    assert_eq!(outcome, expected, "quote: archive, then model, {}", case.describe());
    assert!(counts == expected_counts, "the counts of archive and model, {}", case.describe());
    assert_eq!(answers, expected_answers, "the answers of both, {}", case.describe());
    match outcome {
        Ok(outputs) => holds_numbers(case, outputs, &counts, &answers),
        Err(_) => {
            assert!(counts == case.counts, "a refusal's counts, {}", case.describe());
            assert!(answers == case.answers, "a refusal's answers, {}", case.describe());
        }
    }
    outcome
}

/// The counts are zero over the nodes, each output has its numbers, and both lists end as they did
/// before.
fn holds_numbers(case: &Case, outputs: usize, counts: &[u64], answers: &[u64]) {
    let program = model::program::read(&case.file).expect("a result needs a program");
    assert_eq!(outputs, program.outputs.len(), "the outputs, {}", case.describe());

    let behind = COUNT_ENTRY * program.nodes.len();
    assert!(counts[..behind].iter().all(|count| *count == 0), "not 0, {}", case.describe());
    assert!(counts[behind..] == case.counts[behind..], "past the nodes, {}", case.describe());

    let behind = ANSWER_ENTRY * outputs;
    for quote in oracle::quotes(&answers[..behind]) {
        assert!(quote.toffolis <= quote.gates, "{quote:?}, {}", case.describe());
        assert!(quote.gates.max(quote.work) <= OVER, "{quote:?}, {}", case.describe());
    }
    assert_eq!(answers[behind..], case.answers[behind..], "past them, {}", case.describe());
}

/// A random call on this file: mostly lists that are long enough.
pub fn drawn(random: &mut Random, file: Vec<u8>) -> Case {
    // Of a refused file no list is right, and any will do.
    let (nodes, outputs) = match model::program::read(&file) {
        Ok(program) => (program.nodes.len(), program.outputs.len()),
        Err(_) => (random.within(1..=24), random.within(1..=4)),
    };
    let counts = random_list(random, COUNT_ENTRY, nodes);
    let answers = random_list(random, ANSWER_ENTRY, outputs);
    Case { file, counts, answers }
}

/// Random numbers about as many as so many entries of this width have.
fn random_list(random: &mut Random, width: usize, entries: usize) -> Vec<u64> {
    let needed = width * entries;
    let length = match random.below(24) {
        0 => needed - 1,
        1 => needed - random.within(1..=width),
        2 => random.below(needed),
        3 => 0,
        4..=6 => needed + 1,
        7..=9 => needed + random.within(1..=width - 1),
        10..=11 => needed + width,
        12..=13 => needed + random.within(1..=64),
        _ => needed,
    };
    random.numbers(length)
}
