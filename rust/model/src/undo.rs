//! Undoing a circuit except on chosen lines: causes 1 to 4, 12, 13, and 11 last.

use crate::circuit::{self, Circuit, Gate};
use crate::Refusal;

/// Writes the circuit file of the gates whose target is not chosen, reversed, and gives its length.
/// Cause 11 makes all of `area` zero; every other refusal leaves it.
pub fn undo(file: &[u8], choices: &[u8], area: &mut [u8]) -> Result<usize, Refusal> {
    // 1 to 4, 12
    let circuit = circuit::read(file)?;

    // 13
    circuit.check_bits(choices)?;

    let kept = |gate: &&Gate| choices[gate.target()] == 0;
    let gates: Vec<Gate> = circuit.gates.iter().rev().filter(kept).copied().collect();
    let gate_count = gates.len();
    let written = circuit::write(&Circuit { gates, ..circuit });

    // 11, here the last: the area is too short
    if area.len() < written.len() {
        area.fill(0);
        return Err(Refusal::at(11, gate_count));
    }

    area[..written.len()].copy_from_slice(&written);
    Ok(written.len())
}

#[cfg(test)]
mod tests {
    use super::*;

    fn circuit(gates: &[Gate]) -> Circuit {
        Circuit { inputs: 1, outputs: 1, work: 1, gates: gates.to_vec() }
    }

    fn all() -> Vec<u8> {
        let gates = [Gate::Not(0), Gate::Cnot(0, 1), Gate::Toffoli(0, 1, 2), Gate::Cnot(2, 0)];
        circuit::write(&circuit(&gates))
    }

    #[test]
    fn what_remains_is_reversed() {
        let kept = |choices: [u8; 3], gates: &[Gate]| {
            let wanted = circuit::write(&circuit(gates));
            let mut area = vec![9; wanted.len() + 3];
            assert_eq!(undo(&all(), &choices, &mut area), Ok(wanted.len()));
            assert_eq!(area, [&wanted[..], &[9; 3]].concat());
        };
        let (not, first, toffoli, last) =
            (Gate::Not(0), Gate::Cnot(0, 1), Gate::Toffoli(0, 1, 2), Gate::Cnot(2, 0));
        kept([0, 0, 0], &[last, toffoli, first, not]);
        kept([1, 0, 0], &[toffoli, first]);
        kept([0, 1, 0], &[last, toffoli, not]);
        kept([0, 0, 1], &[last, first, not]);
        kept([1, 1, 1], &[]);
    }

    #[test]
    fn room_is_checked_last_and_alone_clears_the_area() {
        let refused = |file: &[u8], choices: &[u8], length: usize, after: u8| {
            let mut area = vec![9; length];
            let refusal = undo(file, choices, &mut area).unwrap_err();
            assert_eq!(area, vec![after; length]);
            (refusal.number, refusal.place)
        };
        assert_eq!(refused(&[], &[2], 7, 9), (1, 0));
        let mut bad_gate = all();
        bad_gate[44] = 4;
        assert_eq!(refused(&bad_gate, &[2], 7, 9), (12, 2));
        let exchanged = circuit::write(&circuit(&[Gate::Not(0), Gate::Toffoli(1, 0, 2)]));
        assert_eq!(refused(&exchanged, &[2], 7, 9), (12, 1));
        assert_eq!(refused(&exchanged, &[0, 0, 1], 99, 9), (12, 1));
        assert_eq!(refused(&all(), &[0, 0, 2], 7, 9), (13, 0));
        assert_eq!(refused(&all(), &[0, 0], 7, 9), (13, 0));
        assert_eq!(refused(&all(), &[0, 1, 0], 51, 0), (11, 3));
        assert_eq!(refused(&all(), &[1, 1, 1], 27, 0), (11, 0));
        assert_eq!(refused(&all(), &[0, 0, 0], 0, 0), (11, 4));
    }
}
