//! Each service on both sides, the archive and the model: what a call is given, what each side
//! answers and leaves in the lent areas, and a comparison that fails where they differ.

pub mod compile;
pub mod evaluate;
pub mod parse;
pub mod quote;
pub mod read;
pub mod run;
pub mod undo;
pub mod words;

use crate::lent::lent;
use crate::random::Random;
use crate::Outcome;

/// The most nodes of a program.
pub const MOST_NODES: usize = 4_096;

/// The length of a circuit file without gates.
pub const NO_GATES: usize = 28;

/// The length of the longest circuit file, of 8,000 gates.
pub const MOST_BYTES: usize = 64_028;

/// The outcome of a call of the archive on a file or a text, which the call may only read.
fn archive<T, A>(file: &[u8], call: impl FnOnce(&[u8]) -> (Answer<T>, A)) -> (Outcome<T>, A) {
    let ((answer, areas), after) = lent(file, |file| call(file));
    assert!(after == file, "the file or the text was written");
    (answer.map_err(|refusal| (refusal.number, refusal.place)), areas)
}

type Answer<T> = Result<T, oracle::Refusal>;

/// The outcome of a call of the model.
fn model<T>(answer: Result<T, model::Refusal>) -> Outcome<T> {
    answer.map_err(|refusal| (refusal.number, refusal.place))
}

/// What 01 and 02 say of the area of a call that writes a file: what stood behind the file stays,
/// a refusal with 11 leaves zeros, and any other what there was.
fn area_is_left(
    outcome: Outcome<usize>,
    before: &[u8],
    after: &[u8],
    describe: impl Fn() -> String,
) {
    match outcome {
        Ok(length) => assert!(after[length..] == before[length..], "past the file, {}", describe()),
        Err((11, _)) => assert!(after.iter().all(|byte| *byte == 0), "11, {}", describe()),
        Err(_) => assert!(after == before, "a refusal leaves the area, {}", describe()),
    }
}

/// A random length about the one that is needed.
fn length_about(random: &mut Random, needed: usize) -> usize {
    match random.below(12) {
        0..=4 => needed,
        5..=6 => needed + 1,
        7 => needed + random.within(2..=64),
        8..=9 => needed - 1,
        10 => random.below(needed),
        _ => random.pick(&[0, 2, 22, NO_GATES - 1, NO_GATES]),
    }
}

/// The nodes, inputs and outputs of a program file to evaluate. Of a refused file no argument is
/// right, and any will do.
fn numbers_or_any(random: &mut Random, file: &[u8]) -> (usize, usize, usize) {
    match model::program::read(file) {
        Ok(program) => (program.nodes.len(), program.inputs, program.outputs.len()),
        Err(_) => (random.within(1..=24), random.within(0..=64), 1),
    }
}

/// A random length of a value list, enough for so many nodes if it is to be good.
fn list_about(random: &mut Random, nodes: usize, good: bool) -> usize {
    match random.below(if good { 4 } else { 8 }) {
        0..=1 => nodes,
        2 => nodes + 1,
        3 => nodes + random.within(2..=64),
        4 => nodes - 1,
        5 => random.below(nodes),
        6 => 0,
        _ => nodes,
    }
}

/// A random number of an output, one of so many if it is to be good.
fn random_output(random: &mut Random, count: usize, good: bool) -> u64 {
    let output = random.below(count) as u64;
    if good || random.once_in(3) {
        return output;
    }
    let count = count as u64;
    let any = random.number();
    random.pick(&[
        count,
        count + 1,
        output + (1 << 8),
        output + (1 << 16),
        output + (1 << 32),
        output + (1 << 63),
        u64::MAX,
        any,
    ])
}
