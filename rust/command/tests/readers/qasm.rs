//! OpenQASM, versions 2 and 3, as far as registers and the gates `x`, `cx` and `ccx` go.
//!
//! A program is statements, each with `;` behind it: the version first, then the file with the
//! gates, then declarations, then gates. `//` starts a comment, up to the end of its line.

use model::circuit::Circuit;

use super::{gate, name, number, Read};

/// How a version is opened, the file where its gates are, and a declaration: name and size.
struct Version {
    opening: &'static str,
    include: &'static str,
    declaration: fn(&str) -> Option<(&str, &str)>,
}

const VERSION_2: Version = Version {
    opening: "OPENQASM 2.0",
    include: "include \"qelib1.inc\"",
    // qreg NAME[SIZE]
    declaration: |statement| {
        let declared = statement.strip_prefix("qreg ")?.strip_suffix(']')?;
        declared.split_once('[')
    },
};

const VERSION_3: Version = Version {
    opening: "OPENQASM 3.0",
    include: "include \"stdgates.inc\"",
    // qubit[SIZE] NAME
    declaration: |statement| {
        let (size, name) = statement.strip_prefix("qubit[")?.split_once("] ")?;
        Some((name, size))
    },
};

pub fn read_2(text: &str) -> Read<Circuit> {
    read(text, &VERSION_2)
}

pub fn read_3(text: &str) -> Read<Circuit> {
    read(text, &VERSION_3)
}

fn read(text: &str, version: &Version) -> Read<Circuit> {
    let statements = statements(text)?;
    let mut statements = statements.iter().map(|statement| statement.trim()).peekable();
    for wanted in [version.opening, version.include] {
        let statement = statements.next();
        if statement != Some(wanted) {
            return Err(format!("`{wanted}` is wanted, not {statement:?}"));
        }
    }
    let mut registers = Registers(Vec::new());
    while let Some((name, size)) = statements.peek().and_then(|next| (version.declaration)(next)) {
        registers.declare(name, size)?;
        statements.next();
    }
    let gates = statements.map(|statement| registers.gate(statement)).collect::<Read<Vec<_>>>()?;
    let [inputs, outputs, work] = registers.sizes()?;
    Ok(Circuit { inputs, outputs, work, gates })
}

/// The statements, without comments; behind the last `;` is nothing.
fn statements(text: &str) -> Read<Vec<String>> {
    let without_comments: Vec<&str> =
        text.lines().map(|line| line.split("//").next().unwrap_or("")).collect();
    let text = without_comments.join("\n");
    let mut statements: Vec<String> = text.split(';').map(str::to_string).collect();
    match statements.pop() {
        Some(rest) if rest.trim().is_empty() => Ok(statements),
        rest => Err(format!("a statement without its end: {rest:?}")),
    }
}

/// Names and sizes. Lines are counted through the registers in their order.
struct Registers(Vec<(String, usize)>);

impl Registers {
    fn declare(&mut self, word: &str, size: &str) -> Read<()> {
        let (name, size) = (name(word)?.to_string(), number(size)?);
        if size == 0 || self.0.iter().any(|(other, _)| *other == name) {
            return Err(format!("{name} is empty, or there for the second time"));
        }
        self.0.push((name, size));
        Ok(())
    }

    /// A gate: its name, then its operands, parted by commas.
    fn gate(&self, statement: &str) -> Read<model::circuit::Gate> {
        let (kind, operands) = statement.split_once(' ').ok_or(format!("`{statement}`"))?;
        let lines = operands.split(',').map(|operand| self.line(operand.trim()));
        let lines = lines.collect::<Read<Vec<usize>>>()?;
        let wanted = ["x", "cx", "ccx"].get(lines.len() - 1);
        if wanted != Some(&kind) {
            return Err(format!("`{kind}` with {} operands", lines.len()));
        }
        gate(&lines)
    }

    /// The line of an operand, NAME[INDEX].
    fn line(&self, operand: &str) -> Read<usize> {
        let (name, index) = operand
            .strip_suffix(']')
            .and_then(|operand| operand.split_once('['))
            .ok_or(format!("`{operand}` is no operand"))?;
        let index = number(index)?;
        let mut first = 0;
        for (register, size) in &self.0 {
            if register == name && index < *size {
                return Ok(first + index);
            }
            first += size;
        }
        Err(format!("there is no {operand}"))
    }

    /// The sizes of the registers of a circuit, 0 where one is left out. They stand in this order.
    fn sizes(&self) -> Read<[usize; 3]> {
        let mut sizes = [0; 3];
        let mut next = 0;
        for (name, size) in &self.0 {
            let at = ["inputs", "targets", "work"].iter().position(|known| known == name);
            let at = at.filter(|at| *at >= next).ok_or(format!("the register {name}"))?;
            sizes[at] = *size;
            next = at + 1;
        }
        Ok(sizes)
    }
}

#[cfg(test)]
mod tests {
    use super::*;
    use crate::readers::is_strict;

    const GATES: &str = "x targets[0];\ncx inputs[0],work[0];\nccx inputs[0],work[0],inputs[1];\n\
                         ccx inputs[1],work[0],inputs[0];\ncx work[1],targets[0];\nx work[1];\n";

    /// What both versions refuse.
    const DAMAGED: [(&str, &str); 20] = [
        ("x targets[0];", "x targets[0]"),
        ("x work[1];\n", "x work[1]"),
        ("x work[1];", "x work[1]; x"),
        ("x work[1];", "x work[2];"),
        ("x targets[0];", "x targets[1];"),
        ("x targets[0];", "x targets;"),
        ("x targets[0];", "x target[0];"),
        ("x targets[0];", "x[0];"),
        ("x targets[0];", "y targets[0];"),
        ("x targets[0];", "X targets[0];"),
        ("x targets[0];", "x;"),
        ("x targets[0];", "x targets[-1];"),
        ("x targets[0];", "cx targets[0];"),
        ("x targets[0];", "x targets[0],inputs[0];"),
        ("cx inputs[0],work[0];", "cx inputs[0],inputs[0];"),
        ("cx inputs[0],work[0];", "cx inputs[0] work[0];"),
        ("cx inputs[0],work[0];", "cx inputs[0],,work[0];"),
        ("ccx inputs[0],work[0],inputs[1];", "ccx inputs[0],work[0];"),
        ("ccx inputs[0],work[0],inputs[1];", "ccx inputs[0],work[0],work[0];"),
        ("ccx inputs[0],work[0],inputs[1];", "ccx inputs[0],work[0],inputs[1],work[1];"),
    ];

    #[test]
    fn version_2_is_read_strictly() {
        let head = "OPENQASM 2.0;\ninclude \"qelib1.inc\";\nqreg inputs[2];\nqreg targets[1];\n\
                    qreg work[2];\n";
        let good = format!("{head}{GATES}");
        is_strict(read_2, &good, &DAMAGED);
        let damaged = [
            ("OPENQASM 2.0", "OPENQASM 3.0"),
            ("OPENQASM 2.0;", "x targets[0]; OPENQASM 2.0;"),
            ("qelib1", "stdgates"),
            ("qreg inputs[2]", "qubit[2] inputs"),
            ("qreg inputs[2]", "creg inputs[2]"),
            ("qreg inputs[2]", "qreg inputs[0]"),
            ("qreg inputs[2];", "qreg inputs[2]; qreg inputs[2];"),
            ("qreg inputs[2];", "qreg inputs[2]; qreg spare[2];"),
            ("qreg inputs[2];\nqreg targets[1];", "qreg targets[1];\nqreg inputs[2];"),
        ];
        is_strict(read_2, &good, &damaged);
        assert!(read_2("").is_err());
        assert!(read_3(&good).is_err());
    }

    #[test]
    fn version_3_is_read_strictly() {
        let head =
            "OPENQASM 3.0;\ninclude \"stdgates.inc\";\nqubit[2] inputs;\nqubit[1] targets;\n\
                    qubit[2] work;\n";
        let good = format!("{head}{GATES}");
        is_strict(read_3, &good, &DAMAGED);
        let damaged = [
            ("OPENQASM 3.0", "OPENQASM 2.0"),
            ("stdgates", "qelib1"),
            ("qubit[2] inputs", "qreg inputs[2]"),
            ("qubit[2] inputs", "qubit[0] inputs"),
            ("qubit[2] inputs", "qubit inputs"),
            ("qubit[2] inputs", "bit[2] inputs"),
            ("qubit[2] inputs", "qubit[2] inputs[2]"),
        ];
        is_strict(read_3, &good, &damaged);
        assert!(read_3("").is_err());
        assert!(read_2(&good).is_err());
    }

    #[test]
    fn an_empty_register_is_left_out_and_comments_are_passed_over() {
        let text = "// a; b\nOPENQASM 2.0; // c\ninclude \"qelib1.inc\";\n\nqreg targets[1];\n\
                    x targets[0]; // x targets[0];\n";
        let gates = vec![gate(&[0]).unwrap()];
        assert_eq!(read_2(text), Ok(Circuit { inputs: 0, outputs: 1, work: 0, gates }));
        let empty = text.replace("qreg targets[1];", "qreg targets[1];\nqreg work[0];");
        assert!(read_2(&empty).is_err());
    }
}
