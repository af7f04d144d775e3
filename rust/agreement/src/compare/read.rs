//! read_program and read_circuit.

use crate::{hex, Outcome};

/// What both sides are brought to where a reader gives a result.
#[derive(Debug, Clone, Copy, PartialEq, Eq)]
pub struct Head {
    /// The number of inputs.
    pub inputs: usize,
    /// The number of outputs.
    pub outputs: usize,
    /// The number of work lines, 0 for a program.
    pub work: usize,
    /// The number of nodes of a program, or of gates of a circuit.
    pub count: usize,
}

impl Head {
    /// The number of lines of a circuit.
    pub fn lines(&self) -> usize {
        self.inputs + self.outputs + self.work
    }
}

/// A service that reads a file and gives its numbers.
pub struct Reader {
    /// The service's name.
    pub name: &'static str,
    archive: fn(&[u8]) -> Result<Head, oracle::Refusal>,
    model: fn(&[u8]) -> Result<Head, model::Refusal>,
}

/// The reader of program files.
pub const PROGRAM: Reader = Reader {
    name: "read_program",
    archive: |file| {
        let oracle::ProgramHead { inputs, outputs, nodes } = oracle::read_program(file)?;
        Ok(Head { inputs, outputs, work: 0, count: nodes })
    },
    model: |file| {
        let model::program::Program { inputs, nodes, outputs } = model::program::read(file)?;
        Ok(Head { inputs, outputs: outputs.len(), work: 0, count: nodes.len() })
    },
};

/// The reader of circuit files.
pub const CIRCUIT: Reader = Reader {
    name: "read_circuit",
    archive: |file| {
        let oracle::CircuitHead { inputs, outputs, work, gates } = oracle::read_circuit(file)?;
        Ok(Head { inputs, outputs, work, count: gates })
    },
    model: |file| model::circuit::read(file).map(|circuit| head_of(&circuit)),
};

/// The numbers of a circuit.
pub fn head_of(circuit: &model::circuit::Circuit) -> Head {
    let (inputs, outputs, work) = (circuit.inputs, circuit.outputs, circuit.work);
    Head { inputs, outputs, work, count: circuit.gates.len() }
}

impl Reader {
    /// What the archive answers.
    pub fn archive(&self, file: &[u8]) -> Outcome<Head> {
        super::archive(file, |file| ((self.archive)(file), ())).0
    }

    /// What the model answers.
    pub fn model(&self, file: &[u8]) -> Outcome<Head> {
        super::model((self.model)(file))
    }

    /// Holds both sides to each other.
    pub fn compare(&self, file: &[u8]) -> Outcome<Head> {
        let (given, expected) = (self.archive(file), self.model(file));
        assert_eq!(given, expected, "{}: archive, then model, on {}", self.name, hex(file));
        given
    }
}
