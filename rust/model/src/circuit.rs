//! Reading a circuit file, causes 1 to 4 and 12, and writing one.

use crate::contents::{self, put_entry};
use crate::{put_u16, u16_at, Refusal};

const HEAD_LENGTH: usize = 6;
const GATE_LENGTH: usize = 8;
const HEAD_START: usize = 22;
const GATES_START: usize = HEAD_START + HEAD_LENGTH;

/// A gate, with its lines in the order of the file: controls, then target.
#[derive(Debug, Clone, Copy, PartialEq, Eq)]
pub enum Gate {
    /// Flips the target.
    Not(usize),
    /// XORs the control into the target.
    Cnot(usize, usize),
    /// XORs the AND of the two controls into the target. A file has the lower control first.
    Toffoli(usize, usize, usize),
}

impl Gate {
    /// The line that the gate writes.
    pub fn target(self) -> usize {
        match self {
            Gate::Not(target) => target,
            Gate::Cnot(_, target) => target,
            Gate::Toffoli(_, _, target) => target,
        }
    }
}

/// A circuit whose file was accepted.
#[derive(Debug, Clone, PartialEq, Eq)]
pub struct Circuit {
    /// The number of inputs, n.
    pub inputs: usize,
    /// The number of outputs, m.
    pub outputs: usize,
    /// The number of work lines, w.
    pub work: usize,
    /// The gates, the first to run first.
    pub gates: Vec<Gate>,
}

impl Circuit {
    /// The number of lines, n + m + w.
    pub fn lines(&self) -> usize {
        self.inputs + self.outputs + self.work
    }

    /// 13: not a byte for each line, or one that is no bit.
    pub(crate) fn check_bits(&self, bytes: &[u8]) -> Result<(), Refusal> {
        if bytes.len() != self.lines() {
            return Err(Refusal::of(13));
        }
        if bytes.iter().any(|&byte| byte > 1) {
            return Err(Refusal::of(13));
        }
        Ok(())
    }
}

/// Reads a circuit file.
pub fn read(file: &[u8]) -> Result<Circuit, Refusal> {
    // 1 and 2
    let [head, gates] = contents::bodies(file, [17, 18])?;

    // 3: the length of a body
    if head.len() != HEAD_LENGTH {
        return Err(Refusal::of(3));
    }
    if gates.len() % GATE_LENGTH != 0 {
        return Err(Refusal::of(3));
    }
    if gates.len() / GATE_LENGTH > 8000 {
        return Err(Refusal::of(3));
    }

    // 4: n, m or w out of range
    let n = usize::from(u16_at(head, 0));
    let m = usize::from(u16_at(head, 2));
    let w = usize::from(u16_at(head, 4));
    if n > 64 {
        return Err(Refusal::of(4));
    }
    if !(1..=64).contains(&m) {
        return Err(Refusal::of(4));
    }
    if w > 1024 {
        return Err(Refusal::of(4));
    }

    // 12: a gate, the lowest first
    let gates = gates
        .chunks_exact(GATE_LENGTH)
        .enumerate()
        .map(|(i, record)| gate(record, n + m + w).ok_or(Refusal::at(12, i)))
        .collect::<Result<Vec<_>, _>>()?;

    Ok(Circuit { inputs: n, outputs: m, work: w, gates })
}

/// The gate of a circuit with so many lines, unless its record is bad: its lines are below that
/// number and all different, and of two controls the lower one is first.
fn gate(record: &[u8], lines: usize) -> Option<Gate> {
    let kind = record[0];
    let zero = record[1];
    let a = usize::from(u16_at(record, 2));
    let b = usize::from(u16_at(record, 4));
    let t = usize::from(u16_at(record, 6));
    let in_range = a < lines && b < lines && t < lines;
    match (kind, zero, a, b) {
        (1, 0, 0, 0) if in_range => Some(Gate::Not(t)),
        (2, 0, a, 0) if in_range && a != t => Some(Gate::Cnot(a, t)),
        (3, 0, a, b) if in_range && a < b && a != t && b != t => Some(Gate::Toffoli(a, b, t)),
        _ => None,
    }
}

/// The length of the file of so many gates.
pub(crate) fn file_length(gate_count: usize) -> usize {
    GATES_START + GATE_LENGTH * gate_count
}

/// Writes a circuit file.
pub fn write(circuit: &Circuit) -> Vec<u8> {
    let mut file = Vec::new();
    put_u16(&mut file, 2);
    put_entry(&mut file, 17, HEAD_START, HEAD_LENGTH);
    put_entry(&mut file, 18, GATES_START, GATE_LENGTH * circuit.gates.len());
    put_u16(&mut file, circuit.inputs);
    put_u16(&mut file, circuit.outputs);
    put_u16(&mut file, circuit.work);
    for gate in &circuit.gates {
        let (kind, control, second, target) = match *gate {
            Gate::Not(target) => (1, 0, 0, target),
            Gate::Cnot(control, target) => (2, control, 0, target),
            Gate::Toffoli(control, second, target) => (3, control, second, target),
        };
        file.extend([kind, 0]);
        put_u16(&mut file, control);
        put_u16(&mut file, second);
        put_u16(&mut file, target);
    }
    file
}

#[cfg(test)]
mod tests {
    use super::*;

    /// The circuit of the whole case of 01, as 02's A5 has it: T 0 1 2.
    const WHOLE_CASE: [u8; 36] = [
        2, 0, //
        17, 0, 22, 0, 0, 0, 6, 0, 0, 0, //
        18, 0, 28, 0, 0, 0, 8, 0, 0, 0, //
        2, 0, 1, 0, 0, 0, //
        3, 0, 0, 0, 1, 0, 2, 0,
    ];

    /// The AND of two inputs from copies of them, with gates of two kinds and work lines.
    const COPIES: [u8; 68] = [
        2, 0, //
        17, 0, 22, 0, 0, 0, 6, 0, 0, 0, //
        18, 0, 28, 0, 0, 0, 40, 0, 0, 0, //
        2, 0, 1, 0, 2, 0, //
        2, 0, 0, 0, 0, 0, 3, 0, //
        2, 0, 1, 0, 0, 0, 4, 0, //
        3, 0, 3, 0, 4, 0, 2, 0, //
        2, 0, 1, 0, 0, 0, 4, 0, //
        2, 0, 0, 0, 0, 0, 3, 0,
    ];

    fn copies() -> Circuit {
        let (first, second) = (Gate::Cnot(0, 3), Gate::Cnot(1, 4));
        let gates = vec![first, second, Gate::Toffoli(3, 4, 2), second, first];
        Circuit { inputs: 2, outputs: 1, work: 2, gates }
    }

    fn with(changes: &[(usize, u8)]) -> Result<Circuit, Refusal> {
        let mut file = COPIES;
        for &(at, byte) in changes {
            file[at] = byte;
        }
        read(&file)
    }

    fn refused(number: u64, place: u64) -> Result<Circuit, Refusal> {
        Err(Refusal { number, place })
    }

    #[test]
    fn files_are_read_and_written() {
        let gates = vec![Gate::Toffoli(0, 1, 2)];
        let whole_case = Circuit { inputs: 2, outputs: 1, work: 0, gates };
        assert_eq!(read(&WHOLE_CASE), Ok(whole_case.clone()));
        assert_eq!(write(&whole_case), WHOLE_CASE);
        assert_eq!(read(&COPIES), Ok(copies()));
        assert_eq!(write(&copies()), COPIES);
    }

    #[test]
    fn each_kind_is_read() {
        assert_eq!(gate(&[1, 0, 0, 0, 0, 0, 2, 0], 3), Some(Gate::Not(2)));
        assert_eq!(gate(&[1, 0, 0, 0, 0, 0, 0, 0], 1), Some(Gate::Not(0)));
        assert_eq!(gate(&[2, 0, 2, 0, 0, 0, 0, 0], 3), Some(Gate::Cnot(2, 0)));
        assert_eq!(gate(&[3, 0, 0, 0, 2, 0, 1, 0], 3), Some(Gate::Toffoli(0, 2, 1)));
        assert_eq!(gate(&[0, 0, 0, 0, 2, 0, 1, 0], 3), None);
        assert_eq!(gate(&[4, 0, 0, 0, 2, 0, 1, 0], 3), None);
    }

    #[test]
    fn a_table_that_is_not_there_is_cause_1() {
        for length in [0, 1, 2, 21] {
            assert_eq!(read(&COPIES[..length]), refused(1, 0));
        }
        assert_eq!(with(&[(0, 3)]), refused(1, 0));
        assert_eq!(with(&[(1, 1)]), refused(1, 0));
    }

    #[test]
    fn a_wrong_tag_start_or_end_is_cause_2() {
        assert_eq!(read(&COPIES[..22]), refused(2, 0));
        assert_eq!(read(&COPIES[..67]), refused(2, 0));
        assert_eq!(read(&[&COPIES[..], &[0]].concat()), refused(2, 0));
        for at in [2, 4, 8, 12, 14, 18] {
            assert_eq!(with(&[(at, COPIES[at] + 1)]), refused(2, 0));
        }
        // The first body ends at 2^32 + 20, the second starts at 20.
        let wrapped = [(8, 0xfe), (9, 0xff), (10, 0xff), (11, 0xff), (14, 20), (18, 48)];
        assert_eq!(with(&wrapped), refused(2, 0));
    }

    #[test]
    fn a_body_of_the_wrong_length_is_cause_3() {
        // One byte, then eight, go from the gates to the head, or the other way; n is wrong too.
        assert_eq!(with(&[(8, 7), (14, 29), (18, 39), (22, 65)]), refused(3, 0));
        assert_eq!(with(&[(8, 14), (14, 36), (18, 32), (22, 65)]), refused(3, 0));
        assert_eq!(with(&[(8, 5), (14, 27), (18, 41), (22, 65)]), refused(3, 0));
        let mut file = COPIES[..67].to_vec();
        file[18] = 39;
        assert_eq!(read(&file), refused(3, 0));
    }

    #[test]
    fn eight_thousand_gates_are_the_most() {
        let circuit = |count| Circuit { gates: vec![Gate::Not(1); count], ..copies() };
        assert_eq!(read(&write(&circuit(8000))), Ok(circuit(8000)));
        assert_eq!(read(&write(&circuit(8001))), refused(3, 0));
    }

    #[test]
    fn n_m_or_w_out_of_range_is_cause_4() {
        assert_eq!(with(&[(22, 65)]), refused(4, 0));
        assert_eq!(with(&[(23, 1)]), refused(4, 0));
        assert_eq!(with(&[(24, 0)]), refused(4, 0));
        assert_eq!(with(&[(24, 65)]), refused(4, 0));
        assert_eq!(with(&[(26, 1), (27, 4)]), refused(4, 0));
        assert_eq!(with(&[(26, 0), (27, 4)]), Ok(Circuit { work: 1024, ..copies() }));
    }

    #[test]
    fn the_lowest_bad_gate_is_cause_12() {
        // A kind, a zero byte, an unused control.
        assert_eq!(with(&[(28, 0)]), refused(12, 0));
        assert_eq!(with(&[(37, 1)]), refused(12, 1));
        assert_eq!(with(&[(40, 1)]), refused(12, 1));
        // Lines that are too high: both controls, the second one, the target.
        assert_eq!(with(&[(46, 5), (48, 6)]), refused(12, 2));
        assert_eq!(with(&[(48, 5)]), refused(12, 2));
        assert_eq!(with(&[(50, 5)]), refused(12, 2));
        // Equal lines.
        assert_eq!(with(&[(46, 4)]), refused(12, 2));
        assert_eq!(with(&[(46, 2)]), refused(12, 2));
        assert_eq!(with(&[(46, 1), (48, 2)]), refused(12, 2));
        assert_eq!(with(&[(58, 1)]), refused(12, 3));
        assert_eq!(with(&[(60, 9), (54, 4)]), refused(12, 3));
    }

    fn toffoli(a: u16, b: u16, t: u16) -> Option<Gate> {
        gate(&[[3, 0], a.to_le_bytes(), b.to_le_bytes(), t.to_le_bytes()].concat(), 1152)
    }

    #[test]
    fn the_lower_control_is_first() {
        // The target is above the controls, between them and below.
        let next = [(0, 1, 2), (0, 2, 1), (1, 2, 0), (1149, 1150, 1151), (1150, 1151, 1149)];
        // The low bytes fall, are equal, or rise with the high bytes equal.
        let bytes = [(255, 256, 0), (511, 512, 1151), (1, 256, 2), (256, 512, 511), (383, 384, 0)];
        for (a, b, t) in next.into_iter().chain(bytes) {
            let read = Gate::Toffoli(a.into(), b.into(), t.into());
            assert_eq!(toffoli(a, b, t), Some(read));
            assert_eq!(toffoli(b, a, t), None, "{b} {a} {t}");
            assert_eq!(toffoli(a, a, t), None, "{a} {a} {t}");
            assert_eq!(toffoli(b, b, t), None, "{b} {b} {t}");
        }
        // A CNOT has one control, above its target or below.
        assert_eq!(gate(&[2, 0, 0, 0, 0, 0, 2, 0], 3), Some(Gate::Cnot(0, 2)));
        assert_eq!(gate(&[2, 0, 2, 0, 0, 0, 0, 0], 3), Some(Gate::Cnot(2, 0)));
    }

    #[test]
    fn the_lowest_gate_with_its_higher_control_first_is_cause_12() {
        let with_others = |others: &[(usize, u8)]| with(&[&[(46, 4), (48, 3)], others].concat());
        assert_eq!(with_others(&[]), refused(12, 2));
        // Another reason at an earlier gate, the same and a later one.
        assert_eq!(with_others(&[(28, 0)]), refused(12, 0));
        assert_eq!(with_others(&[(37, 1)]), refused(12, 1));
        assert_eq!(with_others(&[(42, 5)]), refused(12, 1));
        assert_eq!(with_others(&[(45, 1)]), refused(12, 2));
        assert_eq!(with_others(&[(50, 3)]), refused(12, 2));
        assert_eq!(with_others(&[(52, 0)]), refused(12, 2));
        assert_eq!(with_others(&[(66, 5)]), refused(12, 2));

        let (rising, falling) = (Gate::Toffoli(0, 1, 2), Gate::Toffoli(1, 0, 2));
        let of = |gates: [Gate; 3]| read(&write(&Circuit { gates: gates.to_vec(), ..copies() }));
        assert!(of([rising; 3]).is_ok());
        assert_eq!(of([falling, rising, rising]), refused(12, 0));
        assert_eq!(of([rising, falling, rising]), refused(12, 1));
        assert_eq!(of([rising, rising, falling]), refused(12, 2));
        assert_eq!(of([rising, falling, falling]), refused(12, 1));
        assert_eq!(of([falling; 3]), refused(12, 0));
    }
}
