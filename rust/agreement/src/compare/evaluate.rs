//! evaluate, the value list before and after included.

use super::MOST_NODES;
use crate::lent::lent;
use crate::random::Random;
use crate::{circuit, hex, Outcome};

/// What one call is given.
#[derive(Debug)]
pub struct Case {
    /// The program file.
    pub file: Vec<u8>,
    /// The value list.
    pub values: Vec<u8>,
    /// The input bytes.
    pub inputs: Vec<u8>,
    /// The output's number.
    pub output: u64,
}

/// What one call gives, and the value list after it.
pub type Evaluated = (Outcome<bool>, Vec<u8>);

/// What the archive answers.
pub fn archive(case: &Case) -> Evaluated {
    super::archive(&case.file, |file| {
        lent(&case.values, |values| oracle::evaluate(file, values, &case.inputs, case.output))
    })
}

/// What the model answers.
pub fn model(case: &Case) -> Evaluated {
    let mut values = case.values.clone();
    let answer = model::evaluate::evaluate(&case.file, &mut values, &case.inputs, case.output);
    (super::model(answer), values)
}

impl Case {
    fn describe(&self) -> String {
        let (length, inputs, output) = (self.values.len(), &self.inputs, self.output);
        format!("value list of {length}, inputs {inputs:?}, output {output}, {}", hex(&self.file))
    }
}

/// Holds both sides to each other and to what a list may hold afterwards.
pub fn compare(case: &Case) -> Outcome<bool> {
    let (expected, expected_values) = model(case);
    let (outcome, values) = archive(case);
    assert_eq!(outcome, expected, "evaluate: archive, then model, {}", case.describe());
    assert_eq!(values, expected_values, "the lists of archive and model, {}", case.describe());
    match outcome {
        Ok(bit) => holds_values(case, &values, bit),
        Err(_) => assert_eq!(values, case.values, "a refusal's list, {}", case.describe()),
    }
    outcome
}

/// The list starts with a bit for each node, the answer among them, and ends as it did before.
fn holds_values(case: &Case, values: &[u8], bit: bool) {
    let program = model::program::read(&case.file).expect("a result needs a program");
    let count = program.nodes.len();
    let node = program.outputs[case.output as usize];
    assert_eq!(values[node], u8::from(bit), "the output's node, {}", case.describe());
    assert!(values[..count].iter().all(|value| *value <= 1), "{}", case.describe());
    assert_eq!(values[count..], case.values[count..], "past the nodes, {}", case.describe());
}

/// The values of the first outputs of a good program, on which both sides have to agree.
pub fn outputs(file: &[u8], inputs: &[u8], count: usize) -> Vec<u8> {
    let value = |k: u64| {
        let expected = model::evaluate::evaluate(file, &mut [9; MOST_NODES], inputs, k);
        let value = oracle::evaluate(file, &mut [9; MOST_NODES], inputs, k);
        let value = value.expect("a good program");
        assert_eq!(Ok(value), expected, "output {k} on {inputs:?}, {}", hex(file));
        u8::from(value)
    };
    (0..count as u64).map(value).collect()
}

/// A random call on this file: mostly good arguments, otherwise any of them wrong.
pub fn drawn(random: &mut Random, file: Vec<u8>) -> Case {
    let (nodes, inputs, outputs) = super::numbers_or_any(random, &file);
    let good = !random.once_in(3);
    let length = super::list_about(random, nodes, good);
    let values = random.bytes(length);
    let inputs = circuit::line_bytes(random, inputs, good);
    let output = super::random_output(random, outputs, good);
    Case { file, values, inputs, output }
}
