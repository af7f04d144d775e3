//! Circuit files: written from their fields, drawn at random, and damaged.

use std::ops::RangeInclusive;

use crate::layout::Layout;
use crate::random::Random;
use crate::{bits, damage};

/// The fields of a gate.
#[derive(Debug, Clone, Copy, PartialEq, Eq, PartialOrd, Ord)]
pub struct Gate {
    /// The kind, 1 to 3 if good.
    pub kind: u8,
    /// The byte that has to be zero.
    pub zero: u8,
    /// The control.
    pub control: u16,
    /// The second control.
    pub second: u16,
    /// The target.
    pub target: u16,
}

/// A gate from its kind and lines.
pub const fn gate(kind: u8, control: u16, second: u16, target: u16) -> Gate {
    Gate { kind, zero: 0, control, second, target }
}

/// NOT of the target.
pub const fn not(target: u16) -> Gate {
    gate(1, 0, 0, target)
}

/// The control into the target.
pub const fn cnot(control: u16, target: u16) -> Gate {
    gate(2, control, 0, target)
}

/// The AND of two controls into the target.
pub const fn toffoli(control: u16, second: u16, target: u16) -> Gate {
    gate(3, control, second, target)
}

/// The same with the lower of the two controls first, as it has to be.
pub fn sorted_toffoli(a: u16, b: u16, target: u16) -> Gate {
    toffoli(a.min(b), a.max(b), target)
}

/// Every Toffoli on so many lines, with the lower control first.
pub fn every_toffoli(lines: u16) -> Vec<Gate> {
    let controls = (0..lines).flat_map(|b| (0..b).map(move |a| (a, b)));
    let on = |(a, b)| {
        let others = (0..lines).filter(move |target| ![a, b].contains(target));
        others.map(move |target| toffoli(a, b, target))
    };
    controls.flat_map(on).collect()
}

impl Gate {
    /// The same with another byte in the place of the zero byte.
    pub const fn with_zero_byte(mut self, byte: u8) -> Gate {
        self.zero = byte;
        self
    }

    /// The same with its two controls exchanged.
    pub const fn exchanged(self) -> Gate {
        Gate { control: self.second, second: self.control, ..self }
    }

    /// The controls that a gate of this kind has.
    pub fn controls(&self) -> Vec<u16> {
        match self.kind {
            1 => vec![],
            2 => vec![self.control],
            _ => vec![self.control, self.second],
        }
    }
}

/// The fields of a circuit file below its table of contents.
#[derive(Debug, Clone)]
pub struct Circuit {
    /// n as written.
    pub inputs: u16,
    /// m as written.
    pub outputs: u16,
    /// w as written.
    pub work: u16,
    /// The gates.
    pub gates: Vec<Gate>,
}

impl Circuit {
    /// A circuit of n inputs, m outputs and w work lines.
    pub fn new(inputs: u16, outputs: u16, work: u16, gates: &[Gate]) -> Circuit {
        Circuit { inputs, outputs, work, gates: gates.to_vec() }
    }

    /// The number of lines that n, m and w give.
    pub fn lines(&self) -> usize {
        usize::from(self.inputs) + usize::from(self.outputs) + usize::from(self.work)
    }

    /// The numbers of the gates that are Toffolis.
    pub fn toffolis(&self) -> Vec<usize> {
        (0..self.gates.len()).filter(|i| self.gates[*i].kind == 3).collect()
    }

    /// The same with the controls of these gates exchanged.
    pub fn with_exchanged(mut self, gates: &[usize]) -> Circuit {
        for i in gates {
            self.gates[*i] = self.gates[*i].exchanged();
        }
        self
    }

    /// The circuit with the controls of some of its Toffolis exchanged, for each choice of these,
    /// and their numbers: first with none of them, last with all.
    pub fn writings(&self) -> Vec<(Vec<usize>, Circuit)> {
        let toffolis = self.toffolis();
        let chosen = |choice: u64| {
            let bits = bits(choice, toffolis.len());
            toffolis.iter().zip(bits).filter(|(_, bit)| *bit == 1).map(|(i, _)| *i).collect()
        };
        let writing = |gates: Vec<usize>| {
            let circuit = self.clone().with_exchanged(&gates);
            (gates, circuit)
        };
        (0..1 << toffolis.len()).map(chosen).map(writing).collect()
    }

    /// The file laid open.
    pub fn layout(&self) -> Layout {
        let head = [self.inputs, self.outputs, self.work].map(u16::to_le_bytes).concat();

        let mut gates = Vec::with_capacity(8 * self.gates.len());
        for gate in &self.gates {
            gates.extend([gate.kind, gate.zero]);
            gates.extend(gate.control.to_le_bytes());
            gates.extend(gate.second.to_le_bytes());
            gates.extend(gate.target.to_le_bytes());
        }
        Layout::new(vec![(17, head), (18, gates)])
    }

    /// The file.
    pub fn bytes(&self) -> Vec<u8> {
        self.layout().bytes()
    }
}

/// A random circuit that every check accepts: all kinds, any line as target, mostly few gates.
pub fn valid(random: &mut Random) -> Circuit {
    let inputs = mostly_few(random, 0..=64, 4);
    let outputs = mostly_few(random, 1..=64, 3);
    let work = mostly_few(random, 0..=1024, 4);
    let gate_count = match random.below(256) {
        0 => 8000,
        1 => random.within(0..=8000),
        2..=15 => random.within(0..=300),
        16..=31 => 0,
        _ => random.within(1..=24),
    };

    let lines = inputs + outputs + work;
    let gates: Vec<Gate> = (0..gate_count).map(|_| valid_gate(random, lines)).collect();
    Circuit::new(inputs as u16, outputs as u16, work as u16, &gates)
}

/// A number of a range, mostly of its first few, sometimes any or the last.
fn mostly_few(random: &mut Random, range: RangeInclusive<usize>, few: usize) -> usize {
    match random.below(8) {
        0 => *range.end(),
        1 => random.within(range),
        _ => random.within(*range.start()..=few),
    }
}

/// A random gate of a circuit with so many lines.
pub fn valid_gate(random: &mut Random, lines: usize) -> Gate {
    // A gate of kind k has k lines.
    let kind = random.within(1..=lines.min(3));
    let mut drawn = Vec::with_capacity(kind);
    while drawn.len() < kind {
        let line = line(random, lines);
        if !drawn.contains(&line) {
            drawn.push(line);
        }
    }
    match drawn[..] {
        [a, b, target] => sorted_toffoli(a, b, target),
        [control, target] => cnot(control, target),
        _ => not(drawn[0]),
    }
}

/// A line, often the first, the last or one of the first few, so that gates meet.
fn line(random: &mut Random, lines: usize) -> u16 {
    let any = random.below(lines);
    let few = random.below(lines.min(6));
    random.pick(&[0, lines - 1, few, few, any, any]) as u16
}

/// A random circuit file with something changed, mostly so that it is refused.
pub fn damaged(random: &mut Random) -> Vec<u8> {
    let mut circuit = valid(random);
    // Two damages at a time show that the lowest cause is the one reported.
    if random.once_in(4) {
        damage_fields(random, &mut circuit);
    }
    match random.below(10) {
        0 => damage_head(random, &mut circuit),
        1..=2 => damage_fields(random, &mut circuit),
        _ => return damage::in_some_way(random, circuit.layout(), 8),
    }
    circuit.bytes()
}

/// Changes the head, the number of gates or, mostly, a field of one or two gates.
fn damage_fields(random: &mut Random, circuit: &mut Circuit) {
    match random.below(64) {
        0 => {
            let count = random.pick(&[8001, 8002, 8192, 8193]);
            circuit.gates.resize(count, not(0));
        }
        1..=9 => damage_head(random, circuit),
        10..=24 => {
            damage_gate(random, circuit);
            damage_gate(random, circuit);
        }
        _ => damage_gate(random, circuit),
    }
}

fn damage_head(random: &mut Random, circuit: &mut Circuit) {
    match random.below(3) {
        0 => circuit.inputs = random.pick(&[0, 1, 63, 64, 65, 256, 320, 65535]),
        1 => circuit.outputs = random.pick(&[0, 1, 2, 63, 64, 65, 256, 257, 65535]),
        _ => circuit.work = random.pick(&[0, 1, 1023, 1024, 1025, 1280, 2048, 65535]),
    }
}

/// Changes a field of a gate, mostly to a value next to a limit or to another of its lines, or
/// exchanges its controls.
fn damage_gate(random: &mut Random, circuit: &mut Circuit) {
    if circuit.gates.is_empty() {
        return damage_head(random, circuit);
    }
    let lines = circuit.lines() as u16;
    let i = random.below(circuit.gates.len());
    let gate = &mut circuit.gates[i];
    let fields = [
        0,
        1,
        gate.control,
        gate.second,
        gate.target,
        lines.wrapping_sub(1),
        lines,
        lines.wrapping_add(1),
        256,
        65535,
    ];
    match random.below(6) {
        0 => gate.kind = random.pick(&[0, 1, 2, 3, 4, 18, 128, 255]),
        1 => gate.zero = random.pick(&[1, 128, 255]),
        2 => gate.control = random.pick(&fields),
        3 => gate.second = random.pick(&fields),
        4 => gate.target = random.pick(&fields),
        _ => *gate = gate.exchanged(),
    }
}

/// Bytes for so many lines: bits, and where they need not be good, every other time too few or too
/// many of them, or one that is no bit.
pub fn line_bytes(random: &mut Random, lines: usize, good: bool) -> Vec<u8> {
    let mut bytes = random.bits(lines);
    if good || random.once_in(2) {
        return bytes;
    }
    match random.below(5) {
        0 => {
            bytes.pop();
        }
        1 => bytes.push(0),
        2 => bytes.clear(),
        3 => {
            let length = random.within(0..=1300);
            bytes = random.bits(length);
        }
        _ if lines > 0 => {
            let any = random.below(lines);
            let at = random.pick(&[0, lines - 1, any]);
            bytes[at] = random.pick(&[2, 3, 128, 254, 255]);
        }
        _ => bytes.push(2),
    }
    bytes
}

#[cfg(test)]
mod tests {
    use std::collections::BTreeSet;

    use super::*;
    use crate::compare::NO_GATES;

    /// Every gate in order on so many lines.
    fn in_order(lines: u16) -> BTreeSet<Gate> {
        let mut gates = BTreeSet::from_iter(every_toffoli(lines));
        for target in 0..lines {
            gates.insert(not(target));
            gates.extend((0..lines).filter(|a| *a != target).map(|a| cnot(a, target)));
        }
        gates
    }

    #[test]
    fn every_gate_in_order_is_drawn_and_no_other() {
        let mut random = Random::new(0x6f72_6465);
        for (lines, count) in (1..).zip([1, 4, 12, 28, 55]) {
            let drawn: BTreeSet<Gate> =
                (0..40_000).map(|_| valid_gate(&mut random, lines)).collect();
            assert_eq!(drawn, in_order(lines as u16), "{lines} lines");
            assert_eq!(drawn.len(), count, "{lines} lines");
        }
    }

    /// The target below the controls, between them and above, and lines of all parts in each place.
    #[test]
    fn toffolis_are_drawn_on_all_lines() {
        let mut random = Random::new(0x7769_6465);
        let mut targets = [0; 3];
        let mut met = [[false; 3]; 16];
        for _ in 0..20_000 {
            let Gate { kind, control, second, target, .. } = valid_gate(&mut random, 1152);
            if kind == 3 {
                assert!(control < second, "{control} {second} {target}");
                targets[usize::from(control < target) + usize::from(second < target)] += 1;
                for (place, line) in [control, second, target].into_iter().enumerate() {
                    met[usize::from(line / 72)][place] = true;
                }
            }
        }
        assert!(targets.iter().all(|count| *count > 500), "{targets:?}");
        assert!(met.iter().all(|places| *places == [true; 3]), "{met:?}");
    }

    /// The number of the Toffoli whose controls are exchanged, if that is all that is wrong.
    fn only_exchanged(mut file: Vec<u8>) -> Option<usize> {
        let refusal = model::circuit::read(&file).err().filter(|refusal| refusal.number == 12)?;
        let i = refusal.place as usize;
        let gate = &mut file[NO_GATES + 8 * i..][..8];
        gate[2..6].rotate_left(2);
        (gate[0] == 3 && model::circuit::read(&file).is_ok()).then_some(i)
    }

    #[test]
    fn controls_are_exchanged_in_damaged_files() {
        let mut random = Random::new(0x6661_6c6c);
        let files = (0..32_000).map(|_| damaged(&mut random));
        let exchanged: Vec<usize> = files.filter_map(only_exchanged).collect();
        let first = exchanged.iter().filter(|i| **i == 0).count();
        println!("{} files with controls exchanged, {first} of them at gate 0", exchanged.len());
        assert!(first > 20 && exchanged.len() > first + 100, "too few files");
    }

    #[test]
    fn a_circuit_has_a_writing_for_each_choice_of_toffolis() {
        let [a, b, c] = [toffoli(0, 1, 2), cnot(2, 1), toffoli(1, 2, 0)];
        let writings = Circuit::new(0, 3, 0, &[a, b, c]).writings();
        let (first, last) = (toffoli(1, 0, 2), toffoli(2, 1, 0));
        let expected = [
            (vec![], [a, b, c]),
            (vec![0], [first, b, c]),
            (vec![2], [a, b, last]),
            (vec![0, 2], [first, b, last]),
        ];
        assert_eq!(writings.len(), expected.len());
        for ((exchanged, circuit), (choice, gates)) in writings.into_iter().zip(expected) {
            assert_eq!((exchanged, &circuit.gates[..]), (choice, &gates[..]));
        }
    }
}
