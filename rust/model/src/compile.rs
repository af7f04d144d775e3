//! Compiling a program: causes 1 to 11.

use crate::program::{self, Program};
use crate::{circuit, construct, Refusal};

const LARGEST_SIZE: usize = 16_384;
const MOST_WORK_LINES: u64 = 1_024;
const MOST_GATES: usize = 8_000;

/// The largest number of gates that refusal 11 gives as it is. For every larger one it gives the
/// next.
const LARGEST_EXACT: usize = 3_000_000;

/// Writes the circuit file of a program and gives its length. Causes 1 to 7 leave both areas; from
/// then on the start of `sizes` is filled. Cause 11 makes all of `area` zero; every other refusal
/// leaves it.
pub fn compile(
    file: &[u8],
    grant: u64,
    sizes: &mut [u16],
    area: &mut [u8],
) -> Result<usize, Refusal> {
    // 1 to 6
    let program = program::read(file)?;

    // 7: the size list is shorter than the node count
    if sizes.len() < program.nodes.len() {
        return Err(Refusal::of(7));
    }
    let unfolded = construct::sizes(&program.nodes);
    for (entry, size) in sizes.iter_mut().zip(&unfolded) {
        *entry = *size as u16;
    }

    // 8 to 10
    check_limits(&program, &unfolded, grant)?;

    // 11: too many gates, or the area is too short
    let gates = construct::gates_needed(&program).min(LARGEST_EXACT + 1);
    if gates > MOST_GATES || area.len() < circuit::file_length(gates) {
        area.fill(0);
        return Err(Refusal::at(11, gates));
    }

    let written = circuit::write(&construct::circuit(&program));
    area[..written.len()].copy_from_slice(&written);
    Ok(written.len())
}

/// Causes 8 to 10.
fn check_limits(program: &Program, unfolded: &[usize], grant: u64) -> Result<(), Refusal> {
    // 8: an output that is too large, the lowest first
    if let Some(k) = program.outputs.iter().position(|i| unfolded[*i] > LARGEST_SIZE) {
        return Err(Refusal::at(8, k));
    }

    // 9: the grant
    if grant > MOST_WORK_LINES {
        return Err(Refusal::of(9));
    }

    // 10: more work lines than granted
    let lines = construct::most_work_lines(program);
    if lines as u64 > grant {
        return Err(Refusal::at(10, lines));
    }
    Ok(())
}

#[cfg(test)]
mod tests {
    use super::*;
    use crate::circuit::{Circuit, Gate};

    use Gate::{Cnot, Not, Toffoli};

    const ZERO: [u16; 3] = [0, 0, 0];
    const ONE: [u16; 3] = [1, 0, 0];

    fn input(j: u16) -> [u16; 3] {
        [2, j, 0]
    }

    fn not(a: u16) -> [u16; 3] {
        [3, a, 0]
    }

    fn xor(a: u16, b: u16) -> [u16; 3] {
        [4, a, b]
    }

    fn and(a: u16, b: u16) -> [u16; 3] {
        [5, a, b]
    }

    /// The same with its mark.
    fn marked(a: u16, b: u16) -> [u16; 3] {
        [0x105, a, b]
    }

    /// The program file of these nodes: kind, a, b. A kind's high byte is the mark.
    fn file(inputs: u16, nodes: &[[u16; 3]], outputs: &[u16]) -> Vec<u8> {
        let head = [inputs, outputs.len() as u16];
        let lengths = [4, 6 * nodes.len() as u32, 2 * outputs.len() as u32];
        let mut file = vec![3, 0];
        let mut start: u32 = 32;
        for (tag, length) in (1_u16..).zip(lengths) {
            file.extend(tag.to_le_bytes());
            file.extend(start.to_le_bytes());
            file.extend(length.to_le_bytes());
            start += length;
        }
        let numbers = head.iter().chain(nodes.iter().flatten()).chain(outputs);
        file.extend(numbers.flat_map(|number| number.to_le_bytes()));
        file
    }

    fn whole_case() -> Vec<u8> {
        file(2, &[input(0), input(1), and(0, 1)], &[2])
    }

    /// ZERO and 13 times XOR of the node before with itself, then NOT of it, and NOT of that.
    fn chain() -> Vec<[u16; 3]> {
        let mut nodes = vec![ZERO];
        nodes.extend((0..13).map(|before| xor(before, before)));
        nodes.extend([not(13), not(14)]);
        nodes
    }

    /// The program compiles to this circuit and these sizes, and what is behind them stays.
    fn gives(file: &[u8], sizes: &[u16], circuit: &Circuit) {
        let written = circuit::write(circuit);
        for behind in [0, 3] {
            let mut list = vec![7; sizes.len() + behind];
            let mut area = vec![9; written.len() + behind];
            let grant = circuit.work as u64;
            assert_eq!(compile(file, grant, &mut list, &mut area), Ok(written.len()));
            assert_eq!(list, [sizes, &vec![7; behind]].concat());
            assert_eq!(area, [&written[..], &vec![9; behind]].concat());
        }
    }

    /// The refusal of a call with areas of these lengths, and whether the size list was filled and
    /// the area cleared.
    fn refused(file: &[u8], grant: u64, entries: usize, length: usize) -> (u64, u64, bool, bool) {
        let (mut sizes, mut area) = (vec![0xffff; entries], vec![9; length]);
        let refusal = compile(file, grant, &mut sizes, &mut area).unwrap_err();
        let filled = sizes.iter().any(|size| *size != 0xffff);
        let cleared = area.iter().all(|byte| *byte == 0);
        assert!(cleared || area.iter().all(|byte| *byte == 9));
        (refusal.number, refusal.place, filled, cleared)
    }

    #[test]
    fn the_whole_case() {
        let circuit = Circuit { inputs: 2, outputs: 1, work: 0, gates: vec![Toffoli(0, 1, 2)] };
        gives(&whole_case(), &[1, 1, 3], &circuit);
        let written = circuit::write(&circuit);
        assert_eq!(written.len(), 36);
        for grant in 0..=1_024 {
            let (mut sizes, mut area) = ([0; 3], [9; 36]);
            assert_eq!(compile(&whole_case(), grant, &mut sizes, &mut area), Ok(36), "{grant}");
            assert_eq!(area[..], written, "grant {grant}");
            assert_eq!(refused(&whole_case(), grant, 3, 35), (11, 1, true, true));
        }
        assert_eq!(refused(&whole_case(), 1_025, 3, 36), (9, 0, true, false));
    }

    /// The gate is a CNOT, by one node or by two that name one input.
    #[test]
    fn and_of_an_input_with_itself() {
        let circuit = Circuit { inputs: 2, outputs: 1, work: 0, gates: vec![Cnot(1, 2)] };
        gives(&file(2, &[input(1), and(0, 0)], &[1]), &[1, 3], &circuit);
        gives(&file(2, &[input(1), input(1), and(0, 1)], &[2]), &[1, 1, 3], &circuit);
    }

    #[test]
    fn nor_as_and_of_two_nots() {
        let nor = file(2, &[input(0), input(1), not(0), not(1), and(2, 3)], &[4]);
        let build = [Not(3), Cnot(0, 3), Not(4), Cnot(1, 4), Toffoli(3, 4, 2)];
        let clean = [Cnot(1, 4), Not(4), Cnot(0, 3), Not(3)];
        let gates = [&build[..], &clean].concat();
        assert_eq!(gates.len(), 9);
        gives(&nor, &[1, 1, 2, 2, 5], &Circuit { inputs: 2, outputs: 1, work: 2, gates });
    }

    #[test]
    fn and_of_three_inputs() {
        let three = file(3, &[input(0), input(1), and(0, 1), input(2), and(2, 3)], &[4]);
        let gates = vec![Toffoli(0, 1, 4), Toffoli(2, 4, 3), Toffoli(0, 1, 4)];
        gives(&three, &[1, 1, 3, 1, 5], &Circuit { inputs: 3, outputs: 1, work: 1, gates });
        assert_eq!(refused(&three, 0, 5, 100), (10, 1, true, false));
        assert_eq!(refused(&three, 0, 5, 51), (10, 1, true, false));
        assert_eq!(refused(&three, 1, 5, 51), (11, 3, true, true));
    }

    #[test]
    fn xor_with_itself_and_zero() {
        let circuit = |inputs, gates: &[Gate]| {
            let gates = gates.to_vec();
            Circuit { inputs, outputs: 1, work: 0, gates }
        };
        let itself = file(1, &[input(0), xor(0, 0)], &[1]);
        gives(&itself, &[1, 3], &circuit(1, &[Cnot(0, 1), Cnot(0, 1)]));
        gives(&file(0, &[ZERO], &[0]), &[1], &circuit(0, &[]));
        gives(&file(0, &[ONE], &[0]), &[1], &circuit(0, &[Not(0)]));
    }

    /// NOT of the node of size 16,383 is accepted, and NOT of that only where no output names it.
    #[test]
    fn the_largest_size() {
        let mut sizes: Vec<u16> = (1..=14).map(|power| (1 << power) - 1).collect();
        assert_eq!(sizes[13], 16_383);
        sizes.extend([16_384, 16_385]);
        let gates = vec![Not(0)];
        let circuit = Circuit { inputs: 0, outputs: 1, work: 0, gates };
        gives(&file(0, &chain(), &[14]), &sizes, &circuit);

        let (mut list, mut area) = ([7; 17], [9; 99]);
        let two_large = file(0, &chain(), &[14, 15, 13, 15]);
        let refusal = compile(&two_large, 0, &mut list, &mut area);
        assert_eq!(refusal, Err(Refusal { number: 8, place: 1 }));
        assert_eq!((&list[..16], list[16], area), (&sizes[..], 7, [9; 99]));
    }

    #[test]
    fn eight_thousand_gates_are_the_most() {
        let mut nodes = vec![input(0)];
        nodes.extend((0..12).map(|before| xor(before, before)));
        nodes.extend([xor(12, 11), xor(13, 10), xor(14, 9), xor(15, 8), xor(16, 6)]);
        let (mut sizes, mut area) = ([0; 18], vec![9; 64_029]);
        let most = file(1, &nodes, &[17]);
        assert_eq!(compile(&most, 0, &mut sizes, &mut area), Ok(64_028));
        assert_eq!(area[64_028], 9);
        assert_eq!(refused(&most, 0, 18, 64_027), (11, 8_000, true, true));
        assert_eq!(refused(&file(1, &nodes, &[17, 0]), 0, 18, 70_000), (11, 8_001, true, true));
    }

    /// The XOR of an AND of three inputs with itself needs a line less with a mark, and four gates
    /// more.
    #[test]
    fn marks_are_counted() {
        let three = |and: [u16; 3]| [input(0), input(1), input(2), [5, 0, 1], and, xor(4, 4)];
        let twice = file(3, &three(and(3, 2)), &[5]);
        assert_eq!(refused(&twice, 1, 6, 100), (10, 2, true, false));
        assert_eq!(refused(&twice, 2, 6, 75), (11, 6, true, true));
        let twice = file(3, &three(marked(3, 2)), &[5]);
        assert_eq!(refused(&twice, 0, 6, 200), (10, 1, true, false));
        assert_eq!(refused(&twice, 1, 6, 107), (11, 10, true, true));
        let build = [Toffoli(0, 1, 4), Toffoli(2, 4, 3), Toffoli(0, 1, 4)];
        let gates = [&build[..], &build, &[Toffoli(0, 1, 4); 4]].concat();
        let circuit = Circuit { inputs: 3, outputs: 1, work: 1, gates };
        gives(&twice, &[1, 1, 1, 3, 5, 11], &circuit);
    }

    /// ANDs of the one before, all marked: the share of node i + 1 has 2^(i + 2) - 3 gates.
    fn nested(outputs: &[u16]) -> Vec<u8> {
        let mut nodes = vec![input(0), marked(0, 0)];
        nodes.extend((1..1_025).map(|before| marked(before, 0)));
        file(1, &nodes, outputs)
    }

    /// 3,000,000 is 2^21 + 2^19 + 2^18 + 2^16 + 2^15 + 2^14 + 2^10 + 2^9 + 2^7 + 2^6. A share has 3
    /// gates fewer than a power of two, and two shares of 13 gates and four of 1 make up for that.
    #[test]
    fn over_three_million_gates_one_more_is_shown() {
        let place = |outputs: &[u16]| {
            let (number, place, filled, cleared) = refused(&nested(outputs), 1_024, 1_026, 70_000);
            assert_eq!((number, filled, cleared), (11, true, true));
            place
        };
        let powers = [20, 18, 17, 15, 14, 13, 9, 8, 6, 5];
        let most = [&powers[..], &[3, 3, 1, 1, 1, 1]].concat();
        assert_eq!(place(&most[1..]), 3_000_000 - (2_097_152 - 3));
        assert_eq!(place(&most), 3_000_000);
        assert_eq!(place(&[&most[..], &[1]].concat()), 3_000_001);
        assert_eq!(place(&[&most[..], &[1, 1]].concat()), 3_000_001);
        assert_eq!(place(&[21]), 3_000_001);
        for far in [31, 32, 63, 64, 1_025] {
            assert_eq!(place(&[far]), 3_000_001);
            assert_eq!(place(&[far; 4]), 3_000_001);
        }
        assert_eq!(refused(&nested(&[1_025]), 1_023, 1_026, 9), (10, 1_024, true, false));
    }

    #[test]
    fn the_first_cause_counts() {
        assert_eq!(refused(&[], u64::MAX, 1, 1), (1, 0, false, false));
        assert_eq!(refused(&whole_case()[..55], u64::MAX, 2, 1), (2, 0, false, false));
        let bad_output = file(2, &[input(0), input(1), and(0, 1)], &[2, 3]);
        assert_eq!(refused(&bad_output, u64::MAX, 2, 1), (6, 1, false, false));
        let large = file(0, &chain(), &[15]);
        assert_eq!(refused(&large, 1_025, 15, 1), (7, 0, false, false));
        assert_eq!(refused(&large, 1_025, 16, 1), (8, 0, true, false));
        assert_eq!(refused(&whole_case(), 1_025, 3, 1), (9, 0, true, false));
        assert_eq!(refused(&whole_case(), u64::MAX, 3, 1), (9, 0, true, false));
        let with_a_line = file(2, &[input(0), not(0), and(0, 1)], &[2]);
        assert_eq!(refused(&with_a_line, 0, 3, 1), (10, 1, true, false));
        assert_eq!(refused(&with_a_line, 1, 3, 1), (11, 5, true, true));
    }
}
