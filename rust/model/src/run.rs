//! Running a circuit: causes 1 to 4, 12 and 13.

use crate::circuit::{self, Circuit, Gate};
use crate::Refusal;

/// Runs a circuit file on the lines, the first gate first. A refusal leaves them.
pub fn forwards(file: &[u8], lines: &mut [u8]) -> Result<(), Refusal> {
    let circuit = circuit_for(file, lines)?;
    for gate in &circuit.gates {
        step(*gate, lines);
    }
    Ok(())
}

/// Runs a circuit file on the lines, the last gate first. A refusal leaves them.
pub fn backwards(file: &[u8], lines: &mut [u8]) -> Result<(), Refusal> {
    let circuit = circuit_for(file, lines)?;
    for gate in circuit.gates.iter().rev() {
        step(*gate, lines);
    }
    Ok(())
}

/// The circuit of a file, if these are lines for it.
fn circuit_for(file: &[u8], lines: &[u8]) -> Result<Circuit, Refusal> {
    // 1 to 4, 12
    let circuit = circuit::read(file)?;

    // 13
    circuit.check_bits(lines)?;
    Ok(circuit)
}

/// Runs one gate on the lines, the controls of a Toffoli in any order.
pub fn step(gate: Gate, lines: &mut [u8]) {
    match gate {
        Gate::Not(target) => lines[target] ^= 1,
        Gate::Cnot(control, target) => lines[target] ^= lines[control],
        Gate::Toffoli(control, second, target) => lines[target] ^= lines[control] & lines[second],
    }
}

#[cfg(test)]
mod tests {
    use super::*;

    /// n = 1, m = 1, w = 1; gates N 0, C 0 1, T 0 1 2, C 2 0.
    const FILE: [u8; 60] = [
        2, 0, //
        17, 0, 22, 0, 0, 0, 6, 0, 0, 0, //
        18, 0, 28, 0, 0, 0, 32, 0, 0, 0, //
        1, 0, 1, 0, 1, 0, //
        1, 0, 0, 0, 0, 0, 0, 0, //
        2, 0, 0, 0, 0, 0, 1, 0, //
        3, 0, 0, 0, 1, 0, 2, 0, //
        2, 0, 2, 0, 0, 0, 0, 0,
    ];

    #[test]
    fn gates_run_in_their_order() {
        let mut lines = [0, 0, 0];
        assert_eq!(forwards(&FILE, &mut lines), Ok(()));
        assert_eq!(lines, [0, 1, 1]);
        assert_eq!(backwards(&FILE, &mut lines), Ok(()));
        assert_eq!(lines, [0, 0, 0]);

        // Not what running forwards gives.
        assert_eq!(backwards(&FILE, &mut lines), Ok(()));
        assert_eq!(lines, [1, 0, 0]);
    }

    #[test]
    fn the_order_of_controls_does_not_matter() {
        for bits in 0..8 {
            let start = [bits & 1, bits >> 1 & 1, bits >> 2];
            for gate in [Gate::Toffoli(0, 2, 1), Gate::Toffoli(2, 0, 1)] {
                let mut lines = start;
                step(gate, &mut lines);
                assert_eq!(lines, [start[0], start[1] ^ start[0] & start[2], start[2]]);
            }
        }
    }

    #[test]
    fn the_first_cause_counts_and_the_lines_stay() {
        let refused = |file: &[u8], lines: &[u8]| {
            let mut after = lines.to_vec();
            let refusal = forwards(file, &mut after).unwrap_err();
            assert_eq!(backwards(file, &mut after), Err(refusal));
            assert_eq!(after, lines);
            (refusal.number, refusal.place)
        };
        assert_eq!(refused(&[], &[2]), (1, 0));
        assert_eq!(refused(&FILE, &[0, 0]), (13, 0));
        assert_eq!(refused(&FILE, &[0, 0, 0, 0]), (13, 0));
        assert_eq!(refused(&FILE, &[0, 0, 2]), (13, 0));

        let mut bad_gate = FILE;
        bad_gate[52] = 0;
        assert_eq!(refused(&bad_gate, &[0, 0, 2]), (12, 3));
        bad_gate[46..50].copy_from_slice(&[1, 0, 0, 0]);
        assert_eq!(refused(&bad_gate, &[0, 0, 2]), (12, 2));
    }
}
