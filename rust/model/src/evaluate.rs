//! Evaluating an output: causes 1 to 7, 14 and 15.

use crate::program::{self, Node};
use crate::Refusal;

/// Evaluates one output on the given input bits. A result fills the start of `values` with the
/// nodes' values; a refusal leaves all of it.
pub fn evaluate(
    file: &[u8],
    values: &mut [u8],
    inputs: &[u8],
    output: u64,
) -> Result<bool, Refusal> {
    // 1 to 6
    let program = program::read(file)?;

    // 7: the value list is shorter than the node count
    if values.len() < program.nodes.len() {
        return Err(Refusal::of(7));
    }

    // 14: not n input bytes, or one that is no bit
    if inputs.len() != program.inputs {
        return Err(Refusal::of(14));
    }
    if inputs.iter().any(|&byte| byte > 1) {
        return Err(Refusal::of(14));
    }

    // 15: no such output
    if output >= program.outputs.len() as u64 {
        return Err(Refusal::of(15));
    }

    fill(&program.nodes, inputs, values);
    Ok(values[program.outputs[output as usize]] == 1)
}

/// Fills the start of `values` with the nodes' values on these inputs.
pub(crate) fn fill(nodes: &[Node], inputs: &[u8], values: &mut [u8]) {
    for (i, node) in nodes.iter().enumerate() {
        values[i] = match *node {
            Node::Zero => 0,
            Node::One => 1,
            Node::Input(j) => inputs[j],
            Node::Not(a) => 1 ^ values[a],
            Node::Xor(a, b) => values[a] ^ values[b],
            Node::And(a, b) | Node::MarkedAnd(a, b) => values[a] & values[b],
        };
    }
}

#[cfg(test)]
mod tests {
    use super::*;

    /// n = 1, m = 2; nodes ONE, INPUT 0, NOT 1, XOR 0 1, AND 3 2; outputs 4 and 1.
    const FILE: [u8; 70] = [
        3, 0, //
        1, 0, 32, 0, 0, 0, 4, 0, 0, 0, //
        2, 0, 36, 0, 0, 0, 30, 0, 0, 0, //
        3, 0, 66, 0, 0, 0, 4, 0, 0, 0, //
        1, 0, 2, 0, //
        1, 0, 0, 0, 0, 0, //
        2, 0, 0, 0, 0, 0, //
        3, 0, 1, 0, 0, 0, //
        4, 0, 0, 0, 1, 0, //
        5, 0, 3, 0, 2, 0, //
        4, 0, 1, 0,
    ];

    #[test]
    fn a_result_fills_the_start_of_the_list() {
        let mut values = [9; 7];
        assert_eq!(evaluate(&FILE, &mut values, &[0], 0), Ok(true));
        assert_eq!(values, [1, 0, 1, 1, 1, 9, 9]);
        assert_eq!(evaluate(&FILE, &mut values, &[1], 0), Ok(false));
        assert_eq!(values, [1, 1, 0, 0, 0, 9, 9]);
        assert_eq!(evaluate(&FILE, &mut values, &[1], 1), Ok(true));
    }

    #[test]
    fn a_mark_changes_no_value() {
        let mut marked = FILE;
        marked[61] = 1;
        for (inputs, expected) in [([0], true), ([1], false)] {
            let (mut values, mut of_marked) = ([9; 7], [9; 7]);
            assert_eq!(evaluate(&FILE, &mut values, &inputs, 0), Ok(expected));
            assert_eq!(evaluate(&marked, &mut of_marked, &inputs, 0), Ok(expected));
            assert_eq!(values, of_marked);
        }
    }

    #[test]
    fn the_first_cause_counts_and_the_list_stays() {
        let refused = |file: &[u8], length: usize, inputs: &[u8], output: u64| {
            let mut values = vec![9; length];
            let refusal = evaluate(file, &mut values, inputs, output).unwrap_err();
            assert_eq!(values, vec![9; length]);
            (refusal.number, refusal.place)
        };
        assert_eq!(refused(&[], 0, &[], 0), (1, 0));
        assert_eq!(refused(&FILE, 4, &[2], 2), (7, 0));
        assert_eq!(refused(&FILE, 5, &[2], 2), (14, 0));
        assert_eq!(refused(&FILE, 5, &[], 2), (14, 0));
        assert_eq!(refused(&FILE, 5, &[0, 0], 2), (14, 0));
        assert_eq!(refused(&FILE, 5, &[0], 2), (15, 0));
        assert_eq!(refused(&FILE, 5, &[0], u64::MAX), (15, 0));
    }
}
