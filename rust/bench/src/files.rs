//! Files for the services, drawn at random: those of one function are alike in size and differ in
//! every node or gate, so that the processor cannot learn the branches of one by heart.

use agreement::circuit::{cnot, not, sorted_toffoli, Circuit};
use agreement::compare::compile::needs;
use agreement::compare::{MOST_NODES, NO_GATES};
use agreement::program::{self, and, input, marked, xor, Node, Program};
use agreement::random::Random;

/// The number of inputs of every program and circuit here.
pub const INPUTS: usize = 64;

/// The number of lines of every circuit here, the most that there can be.
pub const LINES: usize = 1152;

/// 4,096 nodes of all kinds, and 64 outputs.
pub fn of_all_kinds(random: &mut Random) -> Vec<u8> {
    of_nodes(random, MOST_NODES)
}

/// So many nodes of all kinds, and 64 outputs.
pub fn of_nodes(random: &mut Random, nodes: usize) -> Vec<u8> {
    program::of_size(random, INPUTS, 64, nodes).bytes()
}

/// The same as [`of_all_kinds`] with a mark at every other AND.
pub fn of_all_kinds_marked(random: &mut Random) -> Vec<u8> {
    let program = program::of_size(random, INPUTS, 64, MOST_NODES);
    program.with_marks(|| random.once_in(2)).bytes()
}

/// 4,096 nodes, ANDs of any nodes below but for the inputs, all of them marked, and 64 outputs.
pub fn of_marked_ands(random: &mut Random) -> Vec<u8> {
    let mut nodes = inputs();
    while nodes.len() < MOST_NODES {
        let [a, b] = [(); 2].map(|()| random.below(nodes.len()) as u16);
        nodes.push(marked(a, b));
    }
    let outputs: Vec<u16> = (0..64).map(|_| random.below(MOST_NODES) as u16).collect();
    Program::new(INPUTS as u16, &nodes, &outputs).bytes()
}

/// 4,096 nodes, NOT, XOR and AND of inputs, and 64 outputs of 2 gates, each a NOT or a XOR.
pub fn small_outputs(random: &mut Random) -> Vec<u8> {
    let mut nodes = inputs();
    let mut of_two_gates = Vec::new();
    while nodes.len() < MOST_NODES {
        let [a, b] = [(); 2].map(|()| an_input(random));
        let node = random.pick(&[program::not(a), xor(a, b), and(a, b)]);
        if node.kind != and(a, b).kind {
            of_two_gates.push(nodes.len() as u16);
        }
        nodes.push(node);
    }
    let outputs: Vec<u16> = (0..64).map(|_| random.pick(&of_two_gates)).collect();
    with_gates(128, &nodes, &outputs)
}

/// An output for each 125 gates, with a tree of 31 ANDs of its own. Of its leaves, 16 are inputs,
/// which are controls themselves, and 16 are NOTs of inputs, which are built with two gates each.
pub fn and_trees(random: &mut Random, gates: usize) -> Vec<u8> {
    let mut nodes = inputs_and_nots();
    let tree = |_| {
        let leaves = [some_nots(random, 16), some_inputs(random, 16)].concat();
        add_tree(random, &mut nodes, and, leaves)
    };
    let outputs: Vec<u16> = (0..gates / 125).map(tree).collect();
    with_gates(gates, &nodes, &outputs)
}

/// 64 outputs of 125 gates, with a tree of 19 ANDs each. Of its leaves, 8 are inputs, 8 are NOTs of
/// inputs, and 4 are marked ANDs of an input and an AND of an input and a NOT.
pub fn trees_of_marked_ands(random: &mut Random) -> Vec<u8> {
    let mut nodes = inputs_and_nots();
    let mut outputs = Vec::new();
    for _ in 0..64 {
        let mut leaves: Vec<u16> = (0..4).map(|_| add_marked(random, &mut nodes, 1, 2)).collect();
        leaves.extend(some_nots(random, 8));
        leaves.extend(some_inputs(random, 8));
        outputs.push(add_tree(random, &mut nodes, and, leaves));
    }
    with_gates(8000, &nodes, &outputs)
}

/// One output of 8,000 gates: a tree of XORs over 320 marked ANDs, of two inputs and two NOTs each,
/// which take the same lines one after the other.
pub fn sum_of_marked_ands(random: &mut Random) -> Vec<u8> {
    let mut nodes = inputs_and_nots();
    let leaves = (0..320).map(|_| add_marked(random, &mut nodes, 2, 2)).collect();
    let output = add_tree(random, &mut nodes, xor, leaves);
    with_gates(8000, &nodes, &[output])
}

/// 64 outputs of 125 gates: six ANDs of inputs, each next one of the one before, all marked.
pub fn nested_marks(random: &mut Random) -> Vec<u8> {
    let mut nodes = inputs();
    let mut outputs = Vec::new();
    for _ in 0..64 {
        let mut last = an_input(random);
        for beside in some_inputs(random, 6) {
            let operands = random.pick(&[(last, beside), (beside, last)]);
            last = add(&mut nodes, marked(operands.0, operands.1));
        }
        outputs.push(last);
    }
    with_gates(8000, &nodes, &outputs)
}

/// 64 outputs of size 16,379 and 29,484 gates: a tree of XORs over 819 marked ANDs of an input and a
/// NOT, which is counted four times for each.
pub fn largest_marked_outputs(random: &mut Random) -> Vec<u8> {
    let mut nodes = inputs_and_nots();
    let leaves = (0..819).map(|_| add_marked(random, &mut nodes, 1, 1)).collect();
    let root = add_tree(random, &mut nodes, xor, leaves);
    let output = four_times(&mut nodes, root);
    with_gates(64 * 29_484, &nodes, &[output; 64])
}

/// One output of 8,000 gates: a tree of 1,999 XORs, which is built four times.
pub fn xor_tree(random: &mut Random) -> Vec<u8> {
    let mut nodes = inputs();
    let leaves = some_inputs(random, 2000);
    let root = add_tree(random, &mut nodes, xor, leaves);
    let output = four_times(&mut nodes, root);
    with_gates(8000, &nodes, &[output])
}

/// 64 outputs of size 16,384: NOT of a tree of 2,047 XORs, which is counted four times for each.
pub fn largest_outputs(random: &mut Random) -> Vec<u8> {
    let mut nodes = inputs();
    let leaves = some_inputs(random, 2048);
    let root = add_tree(random, &mut nodes, xor, leaves);
    let below = four_times(&mut nodes, root);
    let output = add(&mut nodes, program::not(below));
    with_gates(64 * 8193, &nodes, &[output; 64])
}

/// So many gates of all kinds on any lines.
pub fn circuit(random: &mut Random, gates: usize) -> Vec<u8> {
    let mut circuit = Circuit::new(INPUTS as u16, 64, 1024, &[]);
    while circuit.gates.len() < gates {
        let [a, b, t] = [(); 3].map(|()| random.below(LINES) as u16);
        if a != b && a != t && b != t {
            circuit.gates.push(random.pick(&[not(t), cnot(a, t), sorted_toffoli(a, b, t)]));
        }
    }
    assert_eq!(circuit.lines(), LINES);
    circuit.bytes()
}

/// Every input as a node: input j is node j.
fn inputs() -> Vec<Node> {
    (0..INPUTS as u16).map(input).collect()
}

/// The inputs, and behind them the NOT of each.
fn inputs_and_nots() -> Vec<Node> {
    let mut nodes = inputs();
    nodes.extend((0..INPUTS as u16).map(program::not));
    nodes
}

fn an_input(random: &mut Random) -> u16 {
    random.below(INPUTS) as u16
}

fn some_inputs(random: &mut Random, count: usize) -> Vec<u16> {
    (0..count).map(|_| an_input(random)).collect()
}

/// NOTs of inputs, where that of input j is node 64 + j.
fn some_nots(random: &mut Random, count: usize) -> Vec<u16> {
    some_inputs(random, count).into_iter().map(|input| INPUTS as u16 + input).collect()
}

/// Adds a random tree of ANDs over so many NOTs of inputs and inputs, its root marked, and gives that.
fn add_marked(random: &mut Random, nodes: &mut Vec<Node>, nots: usize, inputs: usize) -> u16 {
    let leaves = [some_nots(random, nots), some_inputs(random, inputs)].concat();
    let root = add_tree(random, nodes, and, leaves);
    nodes[usize::from(root)].mark = 1;
    root
}

/// Adds a node, and gives its number.
fn add(nodes: &mut Vec<Node>, node: Node) -> u16 {
    nodes.push(node);
    nodes.len() as u16 - 1
}

/// Adds a random tree of such nodes over these leaves, and gives the number of its root.
fn add_tree(
    random: &mut Random,
    nodes: &mut Vec<Node>,
    of: fn(u16, u16) -> Node,
    leaves: Vec<u16>,
) -> u16 {
    let mut roots = leaves;
    while roots.len() > 1 {
        let [a, b] = [(); 2].map(|()| roots.swap_remove(random.below(roots.len())));
        roots.push(add(nodes, of(a, b)));
    }
    roots[0]
}

/// The XOR of four times a node.
fn four_times(nodes: &mut Vec<Node>, node: u16) -> u16 {
    let twice = add(nodes, xor(node, node));
    add(nodes, xor(twice, twice))
}

/// The file of a program whose circuit has so many gates.
fn with_gates(gates: usize, nodes: &[Node], outputs: &[u16]) -> Vec<u8> {
    let file = Program::new(INPUTS as u16, nodes, outputs).bytes();
    let bytes = needs(&file).map(|(_, bytes)| bytes);
    assert_eq!(bytes, Some(NO_GATES + 8 * gates), "a program of {gates} gates");
    file
}
