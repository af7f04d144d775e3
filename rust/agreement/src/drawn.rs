//! Random programs for the compiler, and lines for their circuits to start from.

use model::circuit::Circuit;
use model::construct;

use crate::program::{self, and, input, not, xor, Node, Program, ONE, ZERO};
use crate::random::Random;
use crate::{bits, limits};

/// The limits of 01.
const MOST_GATES: usize = 8_000;
const MOST_WORK_LINES: usize = 1_024;
const LARGEST_SIZE: usize = 16_384;

/// A program as the model reads it.
pub fn read(program: &Program) -> model::program::Program {
    model::program::read(&program.bytes()).expect("a program that was drawn is in order")
}

/// A random program: deep, or unfolding to many times its nodes, or wide, or close to its leaves, or
/// any; every other time with marks.
pub fn any(random: &mut Random) -> Program {
    let program = match random.below(9) {
        0 => chain(random),
        1 => doubled(random),
        2 => wide(random),
        3 => leafy(random),
        _ => return program::valid(random),
    };
    program::sometimes_marked(random, program)
}

/// A random program whose circuit a file can hold.
pub fn accepted(random: &mut Random) -> Program {
    let program = any(random);
    fitted(random, program)
}

/// A random program whose circuit a file can hold, with marks at some or all of its ANDs.
pub fn marked(random: &mut Random) -> Program {
    let (inputs, nodes) = (random.within(1..=6), random.within(8..=40));
    let program = match random.below(4) {
        0 => doubled(random),
        1 => leafy(random),
        2 => chain(random),
        _ => program::of_size(random, inputs, 3, nodes),
    };
    let once_in = random.pick(&[1, 2, 3, 8]);
    let program = program.with_marks(|| random.once_in(once_in));
    fitted(random, program)
}

/// Each node takes the one before and a leaf: as deep as there are nodes.
pub fn chain(random: &mut Random) -> Program {
    let inputs = random.within(1..=64);
    let mut nodes: Vec<Node> = (0..inputs).map(|j| input(j as u16)).collect();
    nodes.extend([ZERO, ONE]);
    let leaves = nodes.len();
    let length = random.pick(&[10, 100, 1_000, 4_000]);
    let and_once_in = random.pick(&[1, 2, 10, 5_000]);
    for _ in 0..length {
        let before = nodes.len() as u16 - 1;
        let leaf = random.below(leaves) as u16;
        let (a, b) = random.pick(&[(before, leaf), (leaf, before)]);
        nodes.push(if random.once_in(and_once_in) {
            and(a, b)
        } else {
            random.pick(&[not(before), xor(a, b), xor(a, b)])
        });
    }
    let last = nodes.len() as u16 - 1;
    let outputs = [last, last / 2, random.within(0..=usize::from(last)) as u16];
    Program::new(inputs as u16, &nodes, &outputs[..random.within(1..=3)])
}

/// Each node uses the one before twice, so that its tree is built twice as often.
pub fn doubled(random: &mut Random) -> Program {
    let mut nodes = vec![random.pick(&[input(0), input(1), ONE, ZERO])];
    for before in 0..random.within(1..=13) as u16 {
        nodes.push(random.pick(&[and(before, before), and(before, before), xor(before, before)]));
        if random.once_in(4) {
            let last = nodes.len() as u16 - 1;
            nodes[usize::from(last)] = xor(before, random.within(0..=usize::from(before)) as u16);
        }
    }
    let last = nodes.len() as u16 - 1;
    Program::new(2, &nodes, &[last, last / 2])
}

/// A few nodes, mostly ANDs, and mostly of leaves: inputs, with two nodes each, their NOTs, and
/// constants.
pub fn leafy(random: &mut Random) -> Program {
    let inputs = random.pick(&[1, 2, 3, 64]);
    let mut nodes: Vec<Node> = (0..inputs).chain(0..inputs).map(input).collect();
    nodes.extend((0..inputs).map(not));
    nodes.extend([ZERO, ONE]);
    let leaves = nodes.len();
    for _ in 0..random.within(1..=12) {
        let any = [(); 2].map(|()| random.below(nodes.len()) as u16);
        let leaf = random.below(leaves) as u16;
        let j = random.below(inputs.into()) as u16;
        let [a, b] =
            random.pick(&[any, [any[0], leaf], [leaf, any[1]], [j, inputs + j], [inputs + j, j]]);
        nodes.push(random.pick(&[and(a, b), and(a, b), and(a, b), xor(a, b), not(a)]));
    }
    let built: Vec<u16> = (leaves as u16..nodes.len() as u16).collect();
    Program::new(inputs, &nodes, &built[built.len().saturating_sub(4)..])
}

/// Sizes about 16,384: node 13 has one less, and NOT or XOR with a leaf goes on from there.
pub fn large(random: &mut Random) -> Program {
    let mut nodes = vec![random.pick(&[input(0), ONE, ZERO])];
    nodes.extend((0..13).map(|before| xor(before, before)));
    for before in 13..13 + random.within(1..=4) as u16 {
        nodes.push(random.pick(&[not(before), xor(before, 0), xor(0, before), not(13)]));
    }
    let output = |random: &mut Random| {
        let any = random.below(nodes.len());
        random.pick(&[any, 12, 13, 14]) as u16
    };
    let outputs: Vec<u16> = (0..random.within(1..=4)).map(|_| output(random)).collect();
    Program::new(1, &nodes, &outputs)
}

/// Numbers about 1,000,000, which a quote shows exactly up to there: nodes that are built about so
/// often, or half as often and undone as well, and some nodes above them.
pub fn repeated(random: &mut Random) -> Program {
    let mut nodes = vec![input(0), ONE, ZERO, input(1)];
    nodes.extend([and(2, 2), and(0, 1), and(3, 0), and(0, 0)]);
    let leaves = nodes.len();
    for _ in 0..random.within(1..=3) {
        let node = random.below(leaves) as u16;
        let about = random.pick(&[1_000_000, 1_000_000, 500_000, 500_000, 333_333, 250_000]);
        program::times(&mut nodes, node, about + random.below(9) - 4);
        for _ in 0..random.below(4) {
            let last = nodes.len() as u16 - 1;
            let leaf = random.below(leaves) as u16;
            let (a, b) = random.pick(&[(last, leaf), (leaf, last)]);
            nodes.push(random.pick(&[not(last), xor(a, b), and(a, b)]));
        }
    }
    let last = nodes.len() - 1;
    let outputs: Vec<u16> = (0..6).map(|back| (last - back) as u16).collect();
    program::sometimes_marked(random, Program::new(2, &nodes, &outputs))
}

/// Gates about 3,000,000 under marks, which refusal 11 shows exactly up to there, in one output or
/// several.
pub fn about_three_million(random: &mut Random) -> Program {
    let mut rest = 3_000_000 + random.below(9) - 4;
    let mut outputs = Vec::new();
    for others in (1..=random.pick(&[0, 0, 1, 2, 5, 63])).rev() {
        let gates = random.within(0..=2 * rest / (others + 1));
        outputs.push(gates as u128);
        rest -= gates;
    }
    outputs.push(rest as u128);
    limits::of_marked_gates(&outputs)
}

/// 64 inputs and 64 outputs, with operands from anywhere.
pub fn wide(random: &mut Random) -> Program {
    let mut nodes: Vec<Node> = (0..64).map(input).collect();
    for index in 64..random.within(80..=250) {
        let (a, b) = (random.below(index) as u16, random.below(index) as u16);
        nodes.push(random.pick(&[not(a), xor(a, b), and(a, b), and(a, b)]));
    }
    let outputs: Vec<u16> = (0..64).map(|_| random.below(nodes.len()) as u16).collect();
    Program::new(64, &nodes, &outputs)
}

/// The program with lower nodes for the outputs that are too large, and without the last outputs
/// if there are too many gates in all.
pub fn fitted(random: &mut Random, mut program: Program) -> Program {
    let nodes = read(&program).nodes;
    let sizes = construct::sizes(&nodes);
    let fits = |i: usize| {
        sizes[i] <= LARGEST_SIZE
            && construct::work_lines(&nodes, i) <= MOST_WORK_LINES
            && construct::share_gate_count(&nodes, i) <= MOST_GATES
    };
    let mut gates_left = MOST_GATES;
    let mut outputs = Vec::new();
    for output in &program.outputs {
        let mut i = usize::from(*output);
        // Node 0 is a leaf, and fits.
        while !fits(i) {
            i = random.within(i / 2..=i - 1);
        }
        let gates = construct::share_gate_count(&nodes, i);
        if gates > gates_left {
            break;
        }
        gates_left -= gates;
        outputs.push(i as u16);
    }
    program.output_count = outputs.len() as u16;
    program.outputs = outputs;
    program
}

/// Lines to start from: every one of them where they are few, otherwise some with the work lines
/// zero and some not.
pub fn starts(random: &mut Random, circuit: &Circuit) -> Vec<Vec<u8>> {
    let lines = circuit.lines();
    if lines <= 7 {
        return (0..1 << lines).map(|state| bits(state, lines)).collect();
    }
    // Mostly ones, so that not every AND is 0.
    let mostly_ones = (0..lines).map(|_| u8::from(!random.once_in(8))).collect();
    let mut starts = vec![random.bits(lines), mostly_ones, vec![1; lines]];
    for start in &mut starts {
        start[circuit.inputs + circuit.outputs..].fill(0);
    }
    starts.extend([random.bits(lines), vec![1; lines]]);
    starts
}
