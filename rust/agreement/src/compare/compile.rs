//! compile, both lent areas before and after included.

use model::construct;
use model::program::Node::{And, Input, MarkedAnd, Not, One, Xor, Zero};

use super::{MOST_BYTES, MOST_NODES, NO_GATES};
use crate::compare::read;
use crate::lent::lent;
use crate::random::Random;
use crate::{hex, Outcome};

/// Grants over 1,024, as wide as the parameter. In 16 or 32 bits, some would be 0 or 2.
pub const TOO_HIGH: [u64; 10] = [
    1_025,
    1_026,
    2_048,
    65_535,
    1 << 16,
    (1 << 16) + 2,
    1 << 32,
    (1 << 32) + 2,
    1 << 63,
    u64::MAX,
];

/// The largest number of gates that refusal 11 shows, which stands for every one above 3,000,000.
pub const OVER: u64 = 3_000_001;

/// What one call is given.
#[derive(Debug)]
pub struct Case {
    /// The program file.
    pub file: Vec<u8>,
    /// The grant.
    pub grant: u64,
    /// The size list.
    pub sizes: Vec<u16>,
    /// The area.
    pub area: Vec<u8>,
}

impl Case {
    /// A case with areas of these lengths that hold no two equal neighbours, and no zero.
    pub fn new(file: &[u8], grant: u64, entries: usize, length: usize) -> Case {
        Case {
            file: file.to_vec(),
            grant,
            sizes: (0..entries).map(|at| at as u16 | 0x8000).collect(),
            area: (0..length).map(|at| at as u8 | 0x80).collect(),
        }
    }

    /// The case for a message.
    pub fn describe(&self) -> String {
        let (grant, entries, length) = (self.grant, self.sizes.len(), self.area.len());
        format!("grant {grant}, list of {entries}, area of {length}, file of {}", hex(&self.file))
    }
}

/// What one call gives, and the size list and the area after it.
pub type Compiled = (Outcome<usize>, Vec<u16>, Vec<u8>);

/// What the archive answers.
pub fn archive(case: &Case) -> Compiled {
    let (outcome, (sizes, area)) = super::archive(&case.file, |file| {
        let ((answer, area), sizes) = lent(&case.sizes, |sizes| {
            lent(&case.area, |area| oracle::compile(file, case.grant, sizes, area))
        });
        (answer, (sizes, area))
    });
    (outcome, sizes, area)
}

/// What the model answers.
pub fn model(case: &Case) -> Compiled {
    let (mut sizes, mut area) = (case.sizes.clone(), case.area.clone());
    let answer = model::compile::compile(&case.file, case.grant, &mut sizes, &mut area);
    (super::model(answer), sizes, area)
}

/// The circuit file that the archive writes, in a list and an area that are always enough.
pub fn written(file: &[u8], grant: u64) -> Outcome<Vec<u8>> {
    let (outcome, _, area) = archive(&Case::new(file, grant, MOST_NODES, MOST_BYTES));
    outcome.map(|length| area[..length].to_vec())
}

/// Holds both sides to each other and to what 01 says of each outcome.
pub fn compare(case: &Case) -> Outcome<usize> {
    let (expected, expected_sizes, expected_area) = model(case);
    let (outcome, sizes, area) = archive(case);
    assert_eq!(outcome, expected, "compile: archive, then model, {}", case.describe());
    super::area_is_left(outcome, &case.area, &area, || case.describe());
    if let Ok(length) = outcome {
        reads_back(case, &area[..length]);
    }
    match outcome {
        Err((1..=7, _)) => assert_eq!(sizes, case.sizes, "1 to 7, {}", case.describe()),
        _ => holds_sizes(case, &sizes),
    }
    assert_eq!(sizes, expected_sizes, "the lists of archive and model, {}", case.describe());
    assert!(area == expected_area, "the areas of archive and model, {}", case.describe());
    outcome
}

/// The list starts with the nodes' sizes, as their operands' give them, and ends as it did before.
fn holds_sizes(case: &Case, sizes: &[u16]) {
    let nodes = model::program::read(&case.file).expect("a filled list needs a program").nodes;
    let size = |i: usize| u32::from(sizes[i]);
    for (i, node) in nodes.iter().enumerate() {
        let unfolded = match *node {
            Zero | One | Input(_) => 1,
            Not(a) => 1 + size(a),
            Xor(a, b) | And(a, b) | MarkedAnd(a, b) => 1 + size(a) + size(b),
        };
        assert_eq!(size(i), unfolded.min(16_385), "the size of node {i}, {}", case.describe());
    }
    let behind = nodes.len();
    assert_eq!(sizes[behind..], case.sizes[behind..], "past the nodes, {}", case.describe());
}

/// Both readers accept what was written: the program's head, and the construction's gates.
fn reads_back(case: &Case, written: &[u8]) {
    let program = model::program::read(&case.file).expect("a result needs a program");
    let wanted = construct::circuit(&program);
    let given = model::circuit::read(written);
    let given = given.unwrap_or_else(|refusal| panic!("{refusal:?}, {}", case.describe()));
    for (at, (gate, wanted)) in given.gates.iter().zip(&wanted.gates).enumerate() {
        assert_eq!(gate, wanted, "gate {at}, {}", case.describe());
    }
    let head = read::head_of(&wanted);
    assert_eq!(read::head_of(&given), head, "the head, {}", case.describe());
    assert_eq!(read::CIRCUIT.archive(written), Ok(head), "{}", case.describe());
}

/// The work lines and the bytes that the circuit of a program file needs, where no output is too
/// large. More than 3,000,000 gates count as one more than that.
pub fn needs(file: &[u8]) -> Option<(u64, usize)> {
    let program = model::program::read(file).ok()?;
    let sizes = construct::sizes(&program.nodes);
    if program.outputs.iter().any(|i| sizes[*i] > 16_384) {
        return None;
    }
    let gates = construct::gates_needed(&program).min(OVER as usize);
    Some((construct::most_work_lines(&program) as u64, NO_GATES + 8 * gates))
}

/// A random call on this file: mostly a list, a grant and an area that are enough.
pub fn drawn(random: &mut Random, file: Vec<u8>) -> Case {
    // Of a refused file, or a size that is too large, nothing is right and any will do.
    let nodes = model::program::read(&file).map_or(3, |program| program.nodes.len());
    let (work, needed) = needs(&file).unwrap_or((2, 68));
    let entries = random_entries(random, nodes);
    let grant = random_grant(random, work);
    // No longer than an area may usefully be.
    let length = super::length_about(random, needed.min(MOST_BYTES + 8));
    Case { file, grant, sizes: random_list(random, entries), area: random.bytes(length) }
}

/// So many random entries.
pub fn random_list(random: &mut Random, entries: usize) -> Vec<u16> {
    (0..entries).map(|_| random.number() as u16).collect()
}

fn random_entries(random: &mut Random, nodes: usize) -> usize {
    match random.below(24) {
        0 => nodes - 1,
        1 => random.below(nodes),
        2 => 0,
        3..=6 => nodes + 1,
        7..=9 => nodes + random.within(2..=64),
        10 => nodes.max(MOST_NODES),
        _ => nodes,
    }
}

fn random_grant(random: &mut Random, work: u64) -> u64 {
    let any = random.number();
    match random.below(24) {
        0..=2 => work.saturating_sub(1),
        3 => work / 2,
        4 => 0,
        5 => random.pick(&TOO_HIGH),
        6 => any,
        7..=10 => 1_024,
        11..=13 => work + 1,
        _ => work,
    }
}
