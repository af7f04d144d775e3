//! evaluate_words, the list before and after included, and each of its questions by itself.

use oracle::QUESTIONS;

use crate::lent::lent;
use crate::random::Random;
use crate::{bit_of_each, hex, Outcome};

/// What one call is given.
#[derive(Debug)]
pub struct Case {
    /// The program file.
    pub file: Vec<u8>,
    /// The value list.
    pub values: Vec<u64>,
    /// The input words.
    pub inputs: Vec<u64>,
    /// The output's number.
    pub output: u64,
}

/// What one call gives, and the value list after it.
pub type Evaluated = (Outcome<u64>, Vec<u64>);

/// What the archive answers.
pub fn archive(case: &Case) -> Evaluated {
    let (outcome, (values, inputs)) = super::archive(&case.file, |file| {
        let ((answer, values), inputs) = lent(&case.inputs, |inputs| {
            lent(&case.values, |values| oracle::evaluate_words(file, values, inputs, case.output))
        });
        (answer, (values, inputs))
    });
    assert!(inputs == case.inputs, "the input words were written");
    (outcome, values)
}

/// What the model answers.
pub fn model(case: &Case) -> Evaluated {
    let mut values = case.values.clone();
    let answer = model::words::evaluate_words(&case.file, &mut values, &case.inputs, case.output);
    (super::model(answer), values)
}

impl Case {
    fn describe(&self) -> String {
        let (length, inputs, output) = (self.values.len(), &self.inputs, self.output);
        format!("value list of {length}, inputs {inputs:x?}, output {output}, {}", hex(&self.file))
    }
}

/// Holds both sides to each other, to what a list may hold afterwards, and each question to a call
/// of its own.
pub fn compare(case: &Case) -> Outcome<u64> {
    let (expected, expected_values) = model(case);
    let (outcome, values) = archive(case);
    assert_eq!(outcome, expected, "evaluate_words: archive, then model, {}", case.describe());
    assert!(values == expected_values, "the lists of archive and model, {}", case.describe());
    match outcome {
        Ok(word) => holds_words(case, &values, word),
        Err(_) => assert!(values == case.values, "a refusal's list, {}", case.describe()),
    }
    outcome
}

/// The list starts with a word for each node, the answer among them, and ends as it did before.
fn holds_words(case: &Case, values: &[u64], word: u64) {
    let program = model::program::read(&case.file).expect("a result needs a program");
    let (words, behind) = values.split_at(program.nodes.len());
    let node = program.outputs[case.output as usize];
    assert_eq!(words[node], word, "the output's node, {}", case.describe());
    assert!(*behind == case.values[words.len()..], "past the nodes, {}", case.describe());
    for k in 0..QUESTIONS {
        holds_question(case, words, word, k);
    }
}

/// Bit k of the answer, and of each node's word, is what the archive gives for question k alone.
fn holds_question(case: &Case, words: &[u64], word: u64, k: usize) {
    let mut values = vec![9; words.len()];
    let inputs = bit_of_each(&case.inputs, k);
    let answer = oracle::evaluate(&case.file, &mut values, &inputs, case.output);
    assert_eq!(answer, Ok(word >> k & 1 == 1), "question {k}, {}", case.describe());
    assert!(values == bit_of_each(words, k), "the list of question {k}, {}", case.describe());
}

/// A random call on this file: mostly good arguments, otherwise any of them wrong.
pub fn drawn(random: &mut Random, file: Vec<u8>) -> Case {
    let (nodes, inputs, outputs) = super::numbers_or_any(random, &file);
    let good = !random.once_in(3);
    let length = super::list_about(random, nodes, good);
    let values = random.numbers(length);
    let inputs = random_words(random, inputs, good);
    let output = super::random_output(random, outputs, good);
    Case { file, values, inputs, output }
}

/// So many words, unless their number is to be wrong, of any bits, all alike, or with a single one.
fn random_words(random: &mut Random, count: usize, good: bool) -> Vec<u64> {
    let count = match random.below(if good { 1 } else { 8 }) {
        0..=2 => count,
        3 => count + 1,
        4 => count.saturating_sub(1),
        5 => 0,
        6 => random.pick(&[64, 65, count + 256]),
        _ => random.within(0..=1_300),
    };
    let word = |random: &mut Random| {
        let any = random.number();
        random.pick(&[any, any, any, 0, u64::MAX, 1, 1 << 63, any & 1])
    };
    (0..count).map(|_| word(random)).collect()
}
