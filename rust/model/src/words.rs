//! Evaluating an output on 64 questions: causes 1 to 7, 14 and 15. It is done by the definition,
//! question by question, and no node is evaluated by the word.

use crate::evaluate;
use crate::program::{self, Node};
use crate::Refusal;

/// The bits of a word.
const QUESTIONS: usize = 64;

/// Evaluates one output on the questions of the given input words. A result fills the start of
/// `values` with the nodes' words; a refusal leaves all of it.
pub fn evaluate_words(
    file: &[u8],
    values: &mut [u64],
    inputs: &[u64],
    output: u64,
) -> Result<u64, Refusal> {
    // 1 to 6
    let program = program::read(file)?;

    // 7: the list is shorter than the node count
    if values.len() < program.nodes.len() {
        return Err(Refusal::of(7));
    }

    // 14: not n input words; every word is allowed
    if inputs.len() != program.inputs {
        return Err(Refusal::of(14));
    }

    // 15: no such output
    if output >= program.outputs.len() as u64 {
        return Err(Refusal::of(15));
    }

    fill(&program.nodes, inputs, values);
    Ok(values[program.outputs[output as usize]])
}

/// Fills the start of `values` with the nodes' words: bit k is the value on question k.
fn fill(nodes: &[Node], inputs: &[u64], values: &mut [u64]) {
    let words = &mut values[..nodes.len()];
    words.fill(0);
    for k in 0..QUESTIONS {
        let mut bits = vec![0; nodes.len()];
        evaluate::fill(nodes, &question(inputs, k), &mut bits);
        for (word, bit) in words.iter_mut().zip(bits) {
            *word |= u64::from(bit) << k;
        }
    }
}

/// The input bits of question k.
fn question(inputs: &[u64], k: usize) -> Vec<u8> {
    inputs.iter().map(|word| (word >> k & 1) as u8).collect()
}

#[cfg(test)]
mod tests {
    use super::*;

    /// n = 2, m = 3; nodes INPUT 0, INPUT 1, ZERO, ONE, NOT 0, XOR 0 1, AND 1 4; outputs 6, 5 and 3.
    const FILE: [u8; 84] = [
        3, 0, //
        1, 0, 32, 0, 0, 0, 4, 0, 0, 0, //
        2, 0, 36, 0, 0, 0, 42, 0, 0, 0, //
        3, 0, 78, 0, 0, 0, 6, 0, 0, 0, //
        2, 0, 3, 0, //
        2, 0, 0, 0, 0, 0, //
        2, 0, 1, 0, 0, 0, //
        0, 0, 0, 0, 0, 0, //
        1, 0, 0, 0, 0, 0, //
        3, 0, 0, 0, 0, 0, //
        4, 0, 0, 0, 1, 0, //
        5, 0, 1, 0, 4, 0, //
        6, 0, 5, 0, 3, 0,
    ];

    /// On 3 and 5 questions 0, 1 and 2 are 1 1, 1 0 and 0 1, and all others 0 0.
    #[test]
    fn a_result_fills_the_start_of_the_list() {
        let mut values = [9; 9];
        assert_eq!(evaluate_words(&FILE, &mut values, &[3, 5], 0), Ok(4));
        assert_eq!(values, [3, 5, 0, u64::MAX, u64::MAX - 3, 6, 4, 9, 9]);
        assert_eq!(evaluate_words(&FILE, &mut values, &[3, 5], 1), Ok(6));
        assert_eq!(evaluate_words(&FILE, &mut values, &[3, 5], 2), Ok(u64::MAX));
        assert_eq!(values[7..], [9, 9]);
    }

    /// Questions 0 and 1 are 1 0 and 0 1, question 62 is 0 1 and question 63 is 1 1.
    #[test]
    fn bit_k_is_question_k() {
        let (a, b) = (0x8000_0000_0000_0001, 0xc000_0000_0000_0002);
        let mut values = [9; 7];
        assert_eq!(evaluate_words(&FILE, &mut values, &[a, b], 1), Ok(0x4000_0000_0000_0003));
        let (not, and) = (0x7fff_ffff_ffff_fffe, 0x4000_0000_0000_0002);
        assert_eq!(values, [a, b, 0, u64::MAX, not, 0x4000_0000_0000_0003, and]);
        assert_eq!(evaluate_words(&FILE, &mut values, &[a, b], 0), Ok(and));
    }

    #[test]
    fn questions_are_read_from_the_lowest_bit_on() {
        let inputs = [0x8000_0001_0000_0001, 0x4000_0000_8000_0001, 0];
        assert_eq!(question(&inputs, 0), [1, 1, 0]);
        assert_eq!(question(&inputs, 1), [0, 0, 0]);
        assert_eq!(question(&inputs, 31), [0, 1, 0]);
        assert_eq!(question(&inputs, 32), [1, 0, 0]);
        assert_eq!(question(&inputs, 62), [0, 1, 0]);
        assert_eq!(question(&inputs, 63), [1, 0, 0]);
        assert_eq!(question(&[], 63), []);
    }

    #[test]
    fn a_mark_changes_no_value() {
        let mut marked = FILE;
        marked[73] = 1;
        let (mut values, mut of_marked) = ([9; 8], [9; 8]);
        assert_eq!(evaluate_words(&FILE, &mut values, &[3, 5], 0), Ok(4));
        assert_eq!(evaluate_words(&marked, &mut of_marked, &[3, 5], 0), Ok(4));
        assert_eq!(values, of_marked);
    }

    #[test]
    fn the_first_cause_counts_and_the_list_stays() {
        let refused = |file: &[u8], length: usize, inputs: &[u64], output: u64| {
            let mut values = vec![9; length];
            let refusal = evaluate_words(file, &mut values, inputs, output).unwrap_err();
            assert_eq!(values, vec![9; length]);
            (refusal.number, refusal.place)
        };
        assert_eq!(refused(&[], 0, &[], 3), (1, 0));
        assert_eq!(refused(&FILE, 6, &[3], 3), (7, 0));
        assert_eq!(refused(&FILE, 7, &[3], 3), (14, 0));
        assert_eq!(refused(&FILE, 7, &[], 0), (14, 0));
        assert_eq!(refused(&FILE, 7, &[3, 5, 0], 0), (14, 0));
        assert_eq!(refused(&FILE, 7, &[3, u64::MAX], 3), (15, 0));
        assert_eq!(refused(&FILE, 7, &[3, 5], u64::MAX), (15, 0));
    }
}
