//! undo, the area before and after included.

use super::NO_GATES;
use crate::compare::read;
use crate::lent::lent;
use crate::random::Random;
use crate::{circuit, hex, Outcome};

/// What one call is given.
#[derive(Debug)]
pub struct Case {
    /// The circuit file.
    pub file: Vec<u8>,
    /// The choice bytes.
    pub choices: Vec<u8>,
    /// The area.
    pub area: Vec<u8>,
}

/// What one call gives, and the area after it.
pub type Undone = (Outcome<usize>, Vec<u8>);

/// What the archive answers.
pub fn archive(case: &Case) -> Undone {
    let (outcome, (area, choices)) = super::archive(&case.file, |file| {
        let ((answer, area), choices) = lent(&case.choices, |choices| {
            lent(&case.area, |area| oracle::undo(file, choices, area))
        });
        (answer, (area, choices))
    });
    assert!(choices == case.choices, "the choices were written");
    (outcome, area)
}

/// What the model answers.
pub fn model(case: &Case) -> Undone {
    let mut area = case.area.clone();
    let answer = model::undo::undo(&case.file, &case.choices, &mut area);
    (super::model(answer), area)
}

/// The circuit file that the archive writes, in an area as long as the one given, which is enough.
pub fn written(file: &[u8], choices: &[u8]) -> Vec<u8> {
    let area = vec![9; file.len()];
    let (outcome, area) = archive(&Case { file: file.to_vec(), choices: choices.to_vec(), area });
    area[..outcome.expect("a good file and good choices")].to_vec()
}

impl Case {
    fn describe(&self) -> String {
        let (length, choices) = (self.area.len(), &self.choices);
        format!("area of {length}, choices {choices:?}, file of {}", hex(&self.file))
    }
}

/// Holds both sides to each other and to what an area may hold afterwards.
pub fn compare(case: &Case) -> Outcome<usize> {
    let (expected, expected_area) = model(case);
    let (outcome, area) = archive(case);
    assert_eq!(outcome, expected, "undo: archive, then model, {}", case.describe());
    assert!(area == expected_area, "the areas of archive and model, {}", case.describe());
    super::area_is_left(outcome, &case.area, &area, || case.describe());
    if let Ok(length) = outcome {
        reads_back(case, &area[..length]);
    }
    outcome
}

/// Both readers accept what was written: the head of the file, and its gates without the chosen
/// targets, from the last to the first.
fn reads_back(case: &Case, written: &[u8]) {
    let mut wanted = model::circuit::read(&case.file).expect("a result needs a circuit");
    wanted.gates.retain(|gate| case.choices[gate.target()] == 0);
    wanted.gates.reverse();
    let head = read::head_of(&wanted);
    assert_eq!(read::CIRCUIT.archive(written), Ok(head), "undone, {}", case.describe());
    assert!(model::circuit::read(written) == Ok(wanted), "undone, {}", case.describe());
}

/// A random call on this file: mostly good choices and an area that is long enough.
pub fn drawn(random: &mut Random, file: Vec<u8>) -> Case {
    let good = !random.once_in(3);
    // Of a refused file no choices are right, and any will do.
    let Ok(circuit) = model::circuit::read(&file) else {
        let choices = random.bits(5);
        let length = random.within(0..=file.len());
        return Case { file, choices, area: random.bytes(length) };
    };
    let choices = random_choices(random, circuit.lines(), good);
    let kept = circuit.gates.iter().filter(|gate| choices.get(gate.target()) != Some(&1)).count();
    let length = super::length_about(random, NO_GATES + 8 * kept);
    Case { file, choices, area: random.bytes(length) }
}

fn random_choices(random: &mut Random, lines: usize, good: bool) -> Vec<u8> {
    match random.below(6) {
        0 => vec![0; lines],
        1 => vec![1; lines],
        2 => {
            let mut choices = vec![0; lines];
            choices[random.below(lines)] = 1;
            choices
        }
        _ => circuit::line_bytes(random, lines, good),
    }
}
