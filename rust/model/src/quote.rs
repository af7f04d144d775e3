//! Quoting a program: causes 1 to 7, and for each output the numbers of its share.
//!
//! The share of a small output is built, and its gates are counted. A large one may have more gates
//! than any memory, so there the uses of each node are counted instead, in numbers of any size, and
//! the lines from those of the operands.

use crate::circuit::Gate;
use crate::natural::Natural;
use crate::program::{self, Node, Program};
use crate::{construct, Refusal};

const COUNT_ENTRY: usize = 8;
const ANSWER_ENTRY: usize = 3;
const LARGEST_EXACT: u32 = 1_000_000;

/// The largest unfolded size of an output whose share is built, and the most gates.
const LARGEST_BUILT: usize = 2_000;
const MOST_BUILT: usize = 2 * LARGEST_BUILT;

/// Quotes each output and gives their number. A result makes the entries of the nodes in `counts`
/// zero and fills those of the outputs in `answers`; a refusal leaves both.
pub fn quote(file: &[u8], counts: &mut [u64], answers: &mut [u64]) -> Result<usize, Refusal> {
    // 1 to 6
    let program = program::read(file)?;

    // 7: fewer whole entries than nodes, or fewer whole answers than outputs
    let (nodes, outputs) = (program.nodes.len(), program.outputs.len());
    if counts.len() / COUNT_ENTRY < nodes {
        return Err(Refusal::of(7));
    }
    if answers.len() / ANSWER_ENTRY < outputs {
        return Err(Refusal::of(7));
    }

    counts[..COUNT_ENTRY * nodes].fill(0);
    for (k, numbers) in numbers(&program).into_iter().enumerate() {
        answers[ANSWER_ENTRY * k..][..ANSWER_ENTRY].copy_from_slice(&numbers);
    }
    Ok(outputs)
}

/// The gates, Toffolis and work lines of each output, as they are shown.
pub fn numbers(program: &Program) -> Vec<[u64; 3]> {
    let nodes = &program.nodes;
    let (sizes, lines) = (construct::sizes(nodes), construct::line_counts(nodes));
    let is_small =
        |i: usize| sizes[i] <= LARGEST_BUILT && construct::share_gate_count(nodes, i) <= MOST_BUILT;
    let of_output = |k: usize| {
        let output = program.outputs[k];
        if is_small(output) {
            // Far from a million.
            built(program, k).map(|count| count as u64)
        } else {
            let [gates, toffolis] = counted(nodes, output).map(|count| shown(&count));
            let lines = lines[output].most.min(LARGEST_EXACT as usize + 1);
            [gates, toffolis, lines as u64]
        }
    };
    (0..program.outputs.len()).map(of_output).collect()
}

fn shown(count: &Natural) -> u64 {
    count.at_most(LARGEST_EXACT).map_or(1_000_001, u64::from)
}

/// The gates, Toffolis and work lines of a share that is built.
fn built(program: &Program, k: usize) -> [usize; 3] {
    let (gates, lines) = construct::share_and_lines(program, k);
    let toffolis = gates.iter().filter(|gate| matches!(gate, Gate::Toffoli(..))).count();
    [gates.len(), toffolis, lines]
}

/// The gates and Toffolis of an output with this node, from the uses of the nodes below it.
fn counted(nodes: &[Node], output: usize) -> [Natural; 2] {
    let mut counts: [Natural; 2] = Default::default();
    let [gates, toffolis] = &mut counts;
    for (node, Uses { into_target, into_work_line }) in nodes.iter().zip(uses(nodes, output)) {
        // A gate on the target is in the share once, one on a work line is undone as well.
        let in_share = Natural::sum(&[&into_target, &into_work_line, &into_work_line]);
        if !matches!(node, Node::Zero | Node::Xor(..)) {
            gates.add(&in_share);
        }
        if let Node::And(a, b) | Node::MarkedAnd(a, b) = *node {
            if !name_one_input(nodes[a], nodes[b]) {
                toffolis.add(&in_share);
            }
        }
    }
    counts
}

/// The operands of an AND that are built into a work line: not an input, whose line is the control.
fn built_operands(nodes: &[Node], a: usize, b: usize) -> Vec<usize> {
    [a, b].into_iter().filter(|operand| !matches!(nodes[*operand], Node::Input(_))).collect()
}

/// Whether both operands of an AND name the same input, so that its gate is a CNOT.
fn name_one_input(a: Node, b: Node) -> bool {
    match (a, b) {
        (Node::Input(j), Node::Input(k)) => j == k,
        _ => false,
    }
}

/// How often a node is built for an output, or undone at a marked AND.
#[derive(Clone, Default)]
struct Uses {
    into_target: Natural,
    into_work_line: Natural,
}

/// The uses of each node up to an output's, from the output down. Only an AND builds its operands
/// into other lines than its own, and those that are inputs not at all; a marked one undoes them as
/// well.
fn uses(nodes: &[Node], output: usize) -> Vec<Uses> {
    let mut uses = vec![Uses::default(); output + 1];
    uses[output].into_target = Natural::one();
    for i in (0..=output).rev() {
        let (below, rest) = uses.split_at_mut(i);
        let Uses { into_target, into_work_line } = &rest[0];
        let operands = match nodes[i] {
            Node::Zero | Node::One | Node::Input(_) => vec![],
            Node::Not(a) => vec![a],
            Node::Xor(a, b) => vec![a, b],
            Node::And(a, b) | Node::MarkedAnd(a, b) => built_operands(nodes, a, b),
        };
        let both = Natural::sum(&[into_target, into_work_line]);
        for a in operands {
            let operand = &mut below[a];
            match nodes[i] {
                Node::And(..) => operand.into_work_line.add(&both),
                Node::MarkedAnd(..) => operand.into_work_line.add(&Natural::sum(&[&both, &both])),
                _ => {
                    operand.into_target.add(into_target);
                    operand.into_work_line.add(into_work_line);
                }
            }
        }
    }
    uses
}

#[cfg(test)]
mod tests {
    use super::*;
    use crate::program::tests::{every_table, AND};

    fn program(inputs: usize, nodes: &[Node], outputs: &[usize]) -> Program {
        Program { inputs, nodes: nodes.to_vec(), outputs: outputs.to_vec() }
    }

    /// The numbers that are counted, where they are at most so large.
    fn at_most(nodes: &[Node], output: usize, most: u32) -> [Option<u32>; 3] {
        let [gates, toffolis] = counted(nodes, output).map(|count| count.at_most(most));
        let lines = u32::try_from(construct::line_counts(nodes)[output].most).ok();
        [gates, toffolis, lines.filter(|lines| *lines <= most)]
    }

    /// The output's share has these numbers, built and counted.
    fn gives(program: &Program, k: usize, numbers: [usize; 3]) {
        assert_eq!(built(program, k), numbers, "built, output {k} of {:?}", program.nodes);
        counted_as_built(program, k);
    }

    fn counted_as_built(program: &Program, k: usize) {
        let nodes = &program.nodes;
        let built = built(program, k).map(|number| Some(number as u32));
        let counted = at_most(nodes, program.outputs[k], u32::MAX);
        assert_eq!(counted, built, "counted, then built, output {k} of {nodes:?}");
    }

    #[test]
    fn shares_by_hand() {
        use Node::{And, Input, Not, One, Xor, Zero};

        gives(&program(2, &[Input(0), Input(1), And(0, 1)], &[2]), 0, [1, 1, 0]);
        // NOR, and the AND of three and of four inputs.
        gives(&program(2, &[Input(0), Input(1), Not(0), Not(1), And(2, 3)], &[4]), 0, [9, 1, 2]);
        let ands = [Input(0), Input(1), And(0, 1), Input(2), And(2, 3), Input(3), And(4, 5)];
        let four = program(4, &ands, &[4, 6, 0]);
        gives(&four, 0, [3, 3, 1]);
        gives(&four, 1, [5, 5, 2]);
        gives(&four, 2, [1, 0, 0]);
        // The gates of a XOR of ANDs are all on the target, and are not undone.
        gives(&program(2, &[Input(0), Input(1), And(0, 1), Xor(2, 2)], &[3]), 0, [2, 2, 0]);
        gives(&program(0, &[Zero, One, Not(1), Xor(2, 2)], &[3]), 0, [4, 0, 0]);
        gives(&program(0, &[Zero, And(0, 0), Not(1)], &[2]), 0, [2, 1, 2]);
        // An input beside what is built, on either side: N, C, T, C, N, or T alone.
        for and in [And(0, 2), And(2, 0)] {
            gives(&program(2, &[Input(0), Input(1), Not(1), and], &[3]), 0, [5, 1, 1]);
            gives(&program(2, &[Input(0), Input(1), Zero, and], &[3]), 0, [1, 1, 1]);
        }
    }

    /// Marks at each of the two ANDs of three inputs of a XOR, at none, and at an AND of two inputs,
    /// which has nothing to undo.
    #[test]
    fn marked_shares_by_hand() {
        use Node::{And, Input, MarkedAnd, Xor};

        let of = |first: Node, second: Node, third: Node| {
            let nodes = [Input(0), Input(1), first, Input(2), second, third, Xor(4, 5), Xor(5, 4)];
            program(3, &nodes, &[6, 7, 4])
        };
        let (inner, outer, marked) = (And(0, 1), And(2, 3), MarkedAnd(2, 3));
        gives(&of(inner, outer, outer), 0, [6, 6, 2]);
        gives(&of(inner, marked, outer), 0, [8, 8, 1]);
        gives(&of(inner, marked, outer), 1, [8, 8, 2]);
        gives(&of(inner, marked, marked), 0, [10, 10, 1]);
        gives(&of(inner, marked, marked), 2, [5, 5, 1]);
        gives(&of(MarkedAnd(0, 1), outer, outer), 0, [6, 6, 2]);
        // A CNOT is undone as well, and is no Toffoli.
        gives(&of(And(0, 0), marked, outer), 0, [8, 2, 1]);
        gives(&of(MarkedAnd(0, 0), marked, marked), 0, [10, 2, 1]);
    }

    /// No Toffoli, by one node or by two: not on the target, and not on a work line.
    #[test]
    fn and_of_an_input_with_itself() {
        use Node::{And, Input};

        let itself = [Input(1), Input(1), Input(0), And(0, 0), And(0, 1), And(0, 2), And(3, 4)];
        let program = program(2, &itself, &[3, 4, 5, 6]);
        gives(&program, 0, [1, 0, 0]);
        gives(&program, 1, [1, 0, 0]);
        gives(&program, 2, [1, 1, 0]);
        gives(&program, 3, [5, 1, 2]);
    }

    /// Every table of five nodes over two inputs, its last as output: 1,096,704 of them.
    #[test]
    fn built_and_counted_alike_in_every_small_table() {
        let tables = every_table(5);
        assert_eq!(tables.len(), 4 * 8 * 18 * 34 * 56);
        for nodes in &tables {
            counted_as_built(&program(2, nodes, &[4]), 0);
        }
    }

    /// Of these outputs, the share's numbers, and its gates as compiling counts them.
    fn gates_counted_as_built(program: &Program, outputs: &[usize]) {
        for &k in outputs {
            counted_as_built(program, k);
            let gates = construct::share_gate_count(&program.nodes, program.outputs[k]);
            assert_eq!(built(program, k)[0], gates, "output {k}");
        }
    }

    /// A chain of XOR, NOT and AND in turn, up to sizes past those that are built for a quote.
    #[test]
    fn built_and_counted_alike_in_larger_trees() {
        let mut nodes = vec![Node::Input(0)];
        for i in (0..30).step_by(3) {
            nodes.extend([Node::Xor(i, i), Node::Not(i + 1), Node::And(i + 2, i / 2)]);
        }
        let outputs: Vec<usize> = (0..nodes.len()).collect();
        let sizes = construct::sizes(&nodes);
        let program = program(1, &nodes, &outputs);
        let small: Vec<usize> = outputs.into_iter().filter(|k| sizes[*k] <= 16_384).collect();
        assert!(small.iter().any(|k| sizes[*k] > LARGEST_BUILT));
        gates_counted_as_built(&program, &small);
    }

    /// The same with every other AND of it marked, as far as its gates can be built.
    #[test]
    fn built_and_counted_alike_in_larger_trees_with_marks() {
        let mut nodes = vec![Node::Input(0), Node::Input(1), Node::Xor(0, 1)];
        for i in (2..14).step_by(2) {
            nodes.extend([Node::MarkedAnd(i, i - 2), Node::And(i + 1, i)]);
        }
        let outputs: Vec<usize> = (0..nodes.len()).collect();
        let program = program(2, &nodes, &outputs);
        let small: Vec<usize> = outputs
            .into_iter()
            .filter(|k| construct::share_gate_count(&nodes, *k) <= 100_000)
            .collect();
        assert!(small.iter().any(|k| construct::share_gate_count(&nodes, *k) > MOST_BUILT));
        gates_counted_as_built(&program, &small);
    }

    /// Each marked AND has 2 times the gates of the one before, and 1: 2^d - 1 with depth d, and half
    /// of them and 1 are CNOTs. All but one are undone, and a line is taken for each depth but 1.
    #[test]
    fn nested_marks_double_the_gates() {
        let mut nodes = vec![Node::Input(0), Node::MarkedAnd(0, 0)];
        nodes.extend((1..4_000).map(|before| Node::MarkedAnd(before, 0)));
        let depths: Vec<usize> = (2..=20).chain([31, 32, 63, 64, 4_000]).collect();
        let shown = numbers(&program(1, &nodes, &depths));
        for (numbers, depth) in shown.into_iter().zip(depths) {
            let [gates, toffolis] = [depth + 1, depth].map(|power| match power {
                ..20 => (1 << power) - 3,
                _ => 1_000_001,
            });
            assert_eq!(numbers, [gates, toffolis, depth as u64 - 1], "depth {depth}");
        }
        assert_eq!(at_most(&nodes, 31, u32::MAX), [u32::MAX - 2, (1 << 31) - 3, 30].map(Some));
        assert_eq!(at_most(&nodes, 32, u32::MAX), [None, Some(u32::MAX - 2), Some(31)]);
    }

    /// 2^4000 gates; and with ANDs of ONE 2^4001 - 1 gates before undoing, two lines for each
    /// Toffoli.
    #[test]
    fn trees_that_no_memory_holds() {
        let chain = |first: Node, next: fn(usize) -> Node| {
            let mut nodes = vec![first];
            nodes.extend((0..4_000).map(next));
            nodes
        };
        let xors = chain(Node::Input(0), |before| Node::Xor(before, before));
        assert_eq!(at_most(&xors, 4_000, u32::MAX), [None, Some(0), Some(0)]);
        assert_eq!(at_most(&xors, 31, u32::MAX), [Some(1 << 31), Some(0), Some(0)]);
        assert_eq!(at_most(&xors, 32, u32::MAX), [None, Some(0), Some(0)]);

        let ands = chain(Node::One, |before| Node::And(before, before));
        assert_eq!(at_most(&ands, 4_000, u32::MAX), [None; 3]);
        // All but the last gate twice.
        let (built, toffolis): (u32, u32) = ((1 << 21) - 1, (1 << 20) - 1);
        let numbers = [2 * built - 1, 2 * toffolis - 1, 2 * toffolis].map(Some);
        assert_eq!(at_most(&ands, 20, u32::MAX), numbers);

        // Of an input, the lowest ANDs are CNOTs, which the next ones have on their lines.
        let ands = chain(Node::Input(0), |before| Node::And(before, before));
        assert_eq!(at_most(&ands, 4_000, u32::MAX), [None; 3]);
        let (cnots, toffolis): (u32, u32) = (1 << 19, (1 << 19) - 1);
        let gates = 2 * (cnots + toffolis) - 1;
        let numbers = [gates, 2 * toffolis - 1, 2 * toffolis].map(Some);
        assert_eq!(at_most(&ands, 20, u32::MAX), numbers);

        let zeros = chain(Node::Zero, |before| Node::Xor(before, before));
        assert_eq!(at_most(&zeros, 4_000, 0), [Some(0); 3]);
    }

    /// Nodes of which the last has so many gates: node i has 2^i of them up to node 19.
    fn of_gates(gates: usize) -> Vec<Node> {
        let mut nodes = vec![Node::Input(0)];
        nodes.extend((0..19).map(|before| Node::Xor(before, before)));
        nodes.push(Node::Zero);
        for power in (0..20).filter(|power| gates >> power & 1 == 1) {
            nodes.push(Node::Xor(nodes.len() - 1, power));
        }
        nodes
    }

    #[test]
    fn a_number_over_a_million_is_shown_as_the_next_one() {
        let shown = |gates: usize| {
            let nodes = of_gates(gates);
            numbers(&program(1, &nodes, &[nodes.len() - 1, 3]))
        };
        assert_eq!(shown(999_999), [[999_999, 0, 0], [8, 0, 0]]);
        assert_eq!(shown(1_000_000), [[1_000_000, 0, 0], [8, 0, 0]]);
        assert_eq!(shown(1_000_001), [[1_000_001, 0, 0], [8, 0, 0]]);
        assert_eq!(shown(1_000_002), [[1_000_001, 0, 0], [8, 0, 0]]);
        assert_eq!(shown(1_048_575), [[1_000_001, 0, 0], [8, 0, 0]]);
    }

    #[test]
    fn a_result_clears_the_counts_and_fills_the_answers() {
        for behind in [0, 1, 20] {
            let (mut counts, mut answers) = (vec![7; 24 + behind], vec![9; 3 + behind]);
            assert_eq!(quote(&AND, &mut counts, &mut answers), Ok(1));
            assert_eq!(counts, [vec![0; 24], vec![7; behind]].concat());
            assert_eq!(answers, [vec![1, 1, 0], vec![9; behind]].concat());
        }
    }

    #[test]
    fn the_first_cause_counts_and_the_lists_stay() {
        let refused = |file: &[u8], counts: usize, answers: usize| {
            let (mut after, mut answers_after) = (vec![7; counts], vec![9; answers]);
            let refusal = quote(file, &mut after, &mut answers_after).unwrap_err();
            assert_eq!((after, answers_after), (vec![7; counts], vec![9; answers]));
            (refusal.number, refusal.place)
        };
        assert_eq!(refused(&[], 0, 0), (1, 0));
        let mut bad_node = AND;
        bad_node[50] = 2;
        assert_eq!(refused(&bad_node, 23, 2), (5, 2));
        assert_eq!(refused(&AND, 23, 3), (7, 0));
        assert_eq!(refused(&AND, 24, 2), (7, 0));
        assert_eq!(refused(&AND, 23, 2), (7, 0));
        assert_eq!(refused(&AND, 0, 0), (7, 0));
    }
}
