//! run_forwards and run_backwards, the lines before and after included.

use crate::lent::lent;
use crate::random::Random;
use crate::{circuit, hex, Outcome};

use Direction::{Backwards, Forwards};

/// Which of the two services.
#[derive(Debug, Clone, Copy)]
pub enum Direction {
    /// The first gate first.
    Forwards,
    /// The last gate first.
    Backwards,
}

/// What one call gives, and the lines after it.
pub type Ran = (Outcome<()>, Vec<u8>);

/// What the archive answers.
pub fn archive(direction: Direction, file: &[u8], lines: &[u8]) -> Ran {
    let run = match direction {
        Forwards => oracle::run_forwards,
        Backwards => oracle::run_backwards,
    };
    super::archive(file, |file| lent(lines, |lines| run(file, lines)))
}

/// What the model answers.
pub fn model(direction: Direction, file: &[u8], lines: &[u8]) -> Ran {
    let run = match direction {
        Forwards => model::run::forwards,
        Backwards => model::run::backwards,
    };
    let mut lines = lines.to_vec();
    (super::model(run(file, &mut lines)), lines)
}

/// Holds both sides to each other and to what the lines may be afterwards.
pub fn compare(direction: Direction, file: &[u8], lines: &[u8]) -> Ran {
    let describe =
        || format!("{direction:?}, {} lines {lines:?}, file of {}", lines.len(), hex(file));
    let expected = model(direction, file, lines);
    let ran = archive(direction, file, lines);
    assert_eq!(ran.0, expected.0, "run: archive, then model, {}", describe());
    assert_eq!(ran.1, expected.1, "the lines of archive and model, {}", describe());
    match ran.0 {
        Ok(()) => assert!(ran.1.iter().all(|line| *line <= 1), "{}", describe()),
        Err(_) => assert_eq!(ran.1, lines, "a refusal leaves the lines, {}", describe()),
    }
    ran
}

/// The lines after the archive has run a circuit file forwards on good ones.
pub fn after(file: &[u8], start: &[u8]) -> Vec<u8> {
    let (outcome, lines) = archive(Forwards, file, start);
    assert_eq!(outcome, Ok(()), "run on {start:?} {}", hex(file));
    lines
}

/// Random lines for this file, mostly good ones.
pub fn drawn(random: &mut Random, file: &[u8]) -> Vec<u8> {
    // Of a refused file no lines are right, and any will do.
    let count = match model::circuit::read(file) {
        Ok(circuit) => circuit.lines(),
        Err(_) => random.within(0..=24),
    };
    let good = !random.once_in(3);
    circuit::line_bytes(random, count, good)
}
