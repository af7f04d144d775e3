//! The services on circuit files.

use oracle::CircuitHead;

use super::{bodies, u16_at, Gate, Refused, GATES_START, GATE_LENGTH, MOST_GATES};

/// A circuit whose file was accepted. The gates stay in the file.
struct Circuit<'a> {
    head: &'a [u8],
    gates: &'a [Gate],
    lines: usize,
}

impl Circuit<'_> {
    fn check_bits(&self, bytes: &[u8]) -> Result<(), Refused> {
        if bytes.len() == self.lines && bytes.iter().all(|&byte| byte <= 1) {
            Ok(())
        } else {
            Err((13, 0))
        }
    }
}

/// Reads and checks a circuit file and gives its numbers.
pub fn read_circuit(file: &[u8]) -> Result<CircuitHead, Refused> {
    let circuit = read(file)?;
    let [inputs, outputs, work] = numbers(circuit.head);
    Ok(CircuitHead { inputs, outputs, work, gates: circuit.gates.len() })
}

/// Runs a circuit file, the first gate first.
pub fn run_forwards(file: &[u8], lines: &mut [u8]) -> Result<(), Refused> {
    let circuit = read(file)?;
    circuit.check_bits(lines)?;
    for gate in circuit.gates {
        step(gate, lines);
    }
    Ok(())
}

/// Runs a circuit file, the last gate first.
pub fn run_backwards(file: &[u8], lines: &mut [u8]) -> Result<(), Refused> {
    let circuit = read(file)?;
    circuit.check_bits(lines)?;
    for gate in circuit.gates.iter().rev() {
        step(gate, lines);
    }
    Ok(())
}

/// Writes the circuit file of the gates whose target is not chosen, the last one first.
pub fn undo(file: &[u8], choices: &[u8], area: &mut [u8]) -> Result<usize, Refused> {
    let circuit = read(file)?;
    circuit.check_bits(choices)?;

    let kept = |gate: &&Gate| choices[usize::from(u16_at(*gate, 6))] == 0;
    let gates = || circuit.gates.iter().rev().filter(kept);
    let count = gates().count();
    let length = GATES_START + GATE_LENGTH * count;
    if area.len() < length {
        area.fill(0);
        return Err((11, count as u64));
    }

    let (start, body) = area[..length].split_at_mut(GATES_START);
    start.copy_from_slice(&file[..GATES_START]);
    start[18..22].copy_from_slice(&(body.len() as u32).to_le_bytes());
    start[22..].copy_from_slice(circuit.head);
    for (to, gate) in body.as_chunks_mut().0.iter_mut().zip(gates()) {
        *to = *gate;
    }
    Ok(length)
}

fn read(file: &[u8]) -> Result<Circuit<'_>, Refused> {
    let [head, gates] = bodies(file, 17)?;
    let (gates, rest) = gates.as_chunks();
    if head.len() != 6 || !rest.is_empty() || gates.len() > MOST_GATES {
        return Err((3, 0));
    }

    let [n, m, w] = numbers(head);
    if n > 64 || !(1..=64).contains(&m) || w > 1024 {
        return Err((4, 0));
    }

    let lines = n + m + w;
    match gates.iter().position(|gate| !is_good(gate, lines)) {
        Some(index) => Err((12, index as u64)),
        None => Ok(Circuit { head, gates, lines }),
    }
}

/// The numbers of inputs, outputs and work lines.
fn numbers(head: &[u8]) -> [usize; 3] {
    [0, 2, 4].map(|at| usize::from(u16_at(head, at)))
}

/// The kind of a gate, whose second byte has to be zero, its controls and its target.
fn fields(gate: &Gate) -> [usize; 4] {
    [0, 2, 4, 6].map(|at| usize::from(u16_at(gate, at)))
}

fn is_good(gate: &Gate, lines: usize) -> bool {
    let [kind, a, b, t] = fields(gate);
    match kind {
        1 => t < lines && a == 0 && b == 0,
        2 => a < lines && t < lines && b == 0 && a != t,
        3 => a < b && b < lines && t < lines && a != t && b != t,
        _ => false,
    }
}

/// A control that a gate does not use is 0, so there is a line for each field.
fn step(gate: &Gate, lines: &mut [u8]) {
    let [kind, a, b, t] = fields(gate);
    let (a, b) = (lines[a], lines[b]);
    lines[t] ^= match kind {
        1 => 1,
        2 => a,
        _ => a & b,
    };
}
