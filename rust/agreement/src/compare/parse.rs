//! parse, the area before and after included, and the file that it writes held to the text.

use model::program::Node;
use oracle::LONGEST_PARSED;

use crate::compare::{evaluate, read};
use crate::formula::Formula;
use crate::lent::lent;
use crate::random::Random;
use crate::{bits, escaped, Outcome};

/// The length of a file of one output without its nodes.
pub const NO_NODES: usize = 38;

/// How many bytes each node adds.
pub const NODE: usize = 6;

/// What one call is given.
#[derive(Debug)]
pub struct Case {
    /// The text.
    pub text: Vec<u8>,
    /// The number of inputs.
    pub inputs: u64,
    /// The area.
    pub area: Vec<u8>,
}

impl Case {
    /// A case with an area of this length that holds no two equal neighbours, and no zero.
    pub fn new(text: impl AsRef<[u8]>, inputs: u64, length: usize) -> Case {
        let area = (0..length).map(|at| at as u8 | 0x80).collect();
        Case { text: text.as_ref().to_vec(), inputs, area }
    }

    /// The case for a message.
    pub fn describe(&self) -> String {
        let (inputs, length) = (self.inputs, self.area.len());
        format!("{inputs} inputs, area of {length}, text of {}", escaped(&self.text))
    }
}

/// What one call gives, and the area after it.
pub type Parsed = (Outcome<usize>, Vec<u8>);

/// What the archive answers.
pub fn archive(case: &Case) -> Parsed {
    super::archive(&case.text, |text| {
        lent(&case.area, |area| oracle::parse(text, case.inputs, area))
    })
}

/// What the model answers.
pub fn model(case: &Case) -> Parsed {
    let mut area = case.area.clone();
    let answer = model::parse::parse(&case.text, case.inputs, &mut area);
    (super::model(answer), area)
}

/// The program file that the archive writes, in an area that is always enough.
pub fn written(text: &[u8], inputs: u64) -> Outcome<Vec<u8>> {
    let (outcome, area) = archive(&Case::new(text, inputs, LONGEST_PARSED));
    outcome.map(|length| area[..length].to_vec())
}

/// Holds both sides to each other, to what an area may hold afterwards, and the file to the text.
pub fn compare(case: &Case) -> Outcome<usize> {
    let (expected, expected_area) = model(case);
    let (outcome, area) = archive(case);
    assert_eq!(outcome, expected, "parse: archive, then model, {}", case.describe());
    assert!(area == expected_area, "the areas of archive and model, {}", case.describe());
    super::area_is_left(outcome, &case.area, &area, || case.describe());
    if let Ok(length) = outcome {
        reads_back(case, &area[..length]);
        has_the_values(case, &area[..length]);
    }
    outcome
}

/// Both readers accept what was written: so many inputs, one output, the last node, no mark, and a
/// node for each operator and leaf. There is one leaf more than operators with two operands.
fn reads_back(case: &Case, written: &[u8]) {
    let count = |letters: &[u8]| case.text.iter().filter(|letter| letters.contains(letter)).count();
    let nodes = count(b"!") + 2 * count(b"^&") + 1;
    assert_eq!(written.len(), NO_NODES + NODE * nodes, "its length, {}", case.describe());

    let head = read::Head { inputs: case.inputs as usize, outputs: 1, work: 0, count: nodes };
    assert_eq!(read::PROGRAM.compare(written), Ok(head), "{}", case.describe());
    let program = model::program::read(written).expect("both readers accept it");
    assert_eq!(program.outputs, [nodes - 1], "the output, {}", case.describe());
    let marked = |node: &Node| matches!(node, Node::MarkedAnd(..));
    assert!(!program.nodes.iter().any(marked), "a mark, {}", case.describe());
}

/// The file's output is the truth value of the text.
fn has_the_values(case: &Case, written: &[u8]) {
    for inputs in questions(case) {
        let value = model::parse::value(&case.text, &inputs);
        let value = value.unwrap_or_else(|| panic!("no truth value, {}", case.describe()));
        let given = evaluate::outputs(written, &inputs, 1);
        assert_eq!(given, [u8::from(value)], "on {inputs:?}, {}", case.describe());
    }
}

/// The inputs to try: all of them where they are few, otherwise some.
pub fn questions(case: &Case) -> Vec<Vec<u8>> {
    let count = case.inputs as usize;
    if count <= 6 {
        return (0..1 << count).map(|number| bits(number, count)).collect();
    }
    let mut random = Random::new(case.text.len() as u64);
    // Mostly ones, so that not every AND is 0.
    let mostly_ones =
        |random: &mut Random| (0..count).map(|_| u8::from(!random.once_in(8))).collect();
    let mut questions = vec![vec![0; count], vec![1; count]];
    for _ in 0..4 {
        questions.extend([random.bits(count), mostly_ones(&mut random)]);
    }
    questions
}

/// A random call on this formula: mostly an area that is long enough.
pub fn drawn(random: &mut Random, formula: Formula) -> Case {
    let Formula { text, inputs } = formula;
    // Of a refused text no area is right, and any will do.
    let any = random.pick(&[NO_NODES + NODE, NO_NODES + 3 * NODE, LONGEST_PARSED]);
    let needed = model::parse::parse(&text, inputs, &mut [0; LONGEST_PARSED]).unwrap_or(any);
    let length = super::length_about(random, needed);
    Case { text, inputs, area: random.bytes(length) }
}
