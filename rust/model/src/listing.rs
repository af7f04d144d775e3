//! What the listing program prints.

use crate::circuit::{self, Circuit, Gate};
use crate::{compile, Refusal};

const MOST_INPUT: usize = 32_768;
const MOST_NODES: usize = 4_096;
const MOST_GATES: usize = 8_000;

/// The text for these bytes of standard input, compiled with this grant.
pub fn listing(input: &[u8], grant: u64) -> String {
    match compiled(&input[..input.len().min(MOST_INPUT)], grant) {
        Ok(circuit) => text(&circuit),
        Err(refusal) => format!("refused {} {}\n", refusal.number, refusal.place),
    }
}

fn compiled(file: &[u8], grant: u64) -> Result<Circuit, Refusal> {
    let mut sizes = [0; MOST_NODES];
    let mut area = vec![0; circuit::file_length(MOST_GATES)];
    let length = compile::compile(file, grant, &mut sizes, &mut area)?;
    circuit::read(&area[..length])
}

/// The text for this circuit.
pub fn text(circuit: &Circuit) -> String {
    let Circuit { inputs, outputs, work, gates } = circuit;
    let mut text = format!("lines {inputs} {outputs} {work} gates {}\n", gates.len());
    for gate in gates {
        text += &match gate {
            Gate::Not(target) => format!("N {target}\n"),
            Gate::Cnot(control, target) => format!("C {control} {target}\n"),
            Gate::Toffoli(control, second, target) => format!("T {control} {second} {target}\n"),
        };
    }
    text
}

#[cfg(test)]
mod tests {
    use super::*;
    use crate::program::tests::AND;

    #[test]
    fn the_whole_case() {
        let lines = "lines 2 1 0 gates 1\nT 0 1 2\n";
        assert_eq!(listing(&AND, 1_024), lines);
        assert_eq!(listing(&AND, 0), lines);
    }

    /// The whole case with ONE for its first input.
    #[test]
    fn a_work_line() {
        let mut file = AND;
        file[36] = 1;
        let lines = "lines 2 1 1 gates 3\nN 3\nT 1 3 2\nN 3\n";
        assert_eq!(listing(&file, 1_024), lines);
        assert_eq!(listing(&file, 1), lines);
        assert_eq!(listing(&file, 0), "refused 10 1\n");
    }

    #[test]
    fn each_letter() {
        let gates = vec![Gate::Not(10), Gate::Cnot(0, 255), Gate::Toffoli(256, 1_151, 64)];
        let circuit = Circuit { inputs: 64, outputs: 64, work: 1_024, gates };
        let lines = "lines 64 64 1024 gates 3\nN 10\nC 0 255\nT 256 1151 64\n";
        assert_eq!(text(&circuit), lines);
        assert_eq!(text(&Circuit { gates: vec![], ..circuit }), "lines 64 64 1024 gates 0\n");
    }

    #[test]
    fn a_refusal_is_one_line() {
        assert_eq!(listing(&[], 1_024), "refused 1 0\n");
        assert_eq!(listing(&AND[..55], 1_024), "refused 2 0\n");
        assert_eq!(listing(&AND, 1_025), "refused 9 0\n");
    }

    /// The last of 5,455 nodes ends with byte 32,766: too many of them (3), if no byte is behind.
    #[test]
    fn bytes_behind_the_first_32768_are_not_read() {
        let nodes: u32 = 6 * 5_455;
        let mut file = AND[..36].to_vec();
        file[18..22].copy_from_slice(&nodes.to_le_bytes());
        file[24..28].copy_from_slice(&(36 + nodes).to_le_bytes());
        file.resize(MOST_INPUT, 0);
        assert_eq!(listing(&file, 1_024), "refused 3 0\n");
        file.push(0);
        assert_eq!(listing(&file, 1_024), "refused 3 0\n");
        assert_eq!(listing(&file[..MOST_INPUT - 1], 1_024), "refused 2 0\n");
    }
}
