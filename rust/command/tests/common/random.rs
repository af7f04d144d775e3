//! Random numbers that are the same in every run, and random tables and circuits.

use std::fmt::Write;

use model::circuit::{Circuit, Gate};

/// A generator, SplitMix64, started by its seed.
pub struct Random(pub u64);

impl Random {
    pub fn number(&mut self) -> u64 {
        self.0 = self.0.wrapping_add(0x9e37_79b9_7f4a_7c15);
        let mut z = self.0;
        z = (z ^ (z >> 30)).wrapping_mul(0xbf58_476d_1ce4_e5b9);
        z = (z ^ (z >> 27)).wrapping_mul(0x94d0_49bb_1331_11eb);
        z ^ (z >> 31)
    }

    /// A number below a limit, which is not 0.
    pub fn below(&mut self, limit: usize) -> usize {
        (self.number() % limit as u64) as usize
    }

    /// So many bits, a byte each.
    pub fn bits(&mut self, count: usize) -> Vec<u8> {
        (0..count).map(|_| self.below(2) as u8).collect()
    }

    /// A table of up to 10 inputs, 16 nodes of all kinds and 4 outputs.
    pub fn table(&mut self) -> String {
        let (inputs, nodes) = (self.below(11), 1 + self.below(16));
        let mut text = format!("inputs {inputs}\n");
        for i in 0..nodes {
            let _ = writeln!(text, "{i} = {}", self.node(i, inputs));
        }
        for _ in 0..1 + self.below(4) {
            let _ = writeln!(text, "output {}", self.below(nodes));
        }
        text
    }

    /// A circuit of up to 11 lines and 40 gates, of which any line may be the target.
    pub fn circuit(&mut self) -> Circuit {
        let (inputs, outputs, work) = (self.below(5), 1 + self.below(3), self.below(4));
        let lines = inputs + outputs + work;
        let gates = (0..self.below(41)).map(|_| self.gate(lines)).collect();
        Circuit { inputs, outputs, work, gates }
    }

    fn gate(&mut self, lines: usize) -> Gate {
        match [0; 3].map(|_| self.below(lines)) {
            [a, b, target] if a < b && a != target && b != target => Gate::Toffoli(a, b, target),
            [a, _, target] if a != target => Gate::Cnot(a, target),
            [_, _, target] => Gate::Not(target),
        }
    }

    fn node(&mut self, index: usize, inputs: usize) -> String {
        if index < 2 || self.below(4) == 0 {
            return match self.below(6) {
                0 => "ZERO".to_string(),
                1 => "ONE".to_string(),
                _ if inputs == 0 => "ONE".to_string(),
                _ => format!("INPUT {}", self.below(inputs)),
            };
        }
        let (a, b) = (self.below(index), self.below(index));
        match self.below(5) {
            0 => format!("NOT {a}"),
            1 => format!("XOR {a} {b}"),
            2 => format!("AND {a} {b} marked"),
            _ => format!("AND {a} {b}"),
        }
    }
}
