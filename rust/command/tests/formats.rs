//! What `export` writes, read back: the gates are those of the circuit, one by one, and the BLIF
//! models of a circuit and of its program compute what the model of the services says.

mod common;
mod readers;

use common::functions::{self, after, bits, compiled, of_formula, of_table, outputs, MOST_WORK};
use common::random::Random;
use common::Folder;
use model::circuit::Gate::{self, Cnot, Not, Toffoli};
use model::circuit::{write, Circuit};
use model::program::Node;
use readers::{blif, gates, qasm, real, Read};

/// A format, what a comment in it starts with, and its reader.
type Format = (&'static str, &'static str, fn(&str) -> Read<Circuit>);

const FORMATS: [Format; 4] = [
    ("qasm2", "// ", qasm::read_2),
    ("qasm3", "// ", qasm::read_3),
    ("real", "# ", real::read),
    ("blif", "# ", gates::read),
];

/// All questions to few inputs, otherwise 200 at random.
fn questions(random: &mut Random, inputs: usize) -> Vec<Vec<u8>> {
    if inputs <= 8 {
        return (0..1 << inputs).map(|number| bits(number, inputs)).collect();
    }
    (0..200).map(|_| random.bits(inputs)).collect()
}

/// A BLIF model, evaluated by its covers alone, answers the questions so.
fn computes(name: &str, text: &str, questions: &[Vec<u8>], answer: impl Fn(&[u8]) -> Vec<u8>) {
    let network = blif::read(text).unwrap_or_else(|fault| panic!("{name}: {fault}\n{text}"));
    for questions in questions.chunks(64) {
        let word = |j: usize| {
            (0..).zip(questions).fold(0, |word, (k, question)| word | u64::from(question[j]) << k)
        };
        let inputs: Vec<u64> = (0..network.inputs.len()).map(word).collect();
        let words = network.evaluate(&inputs).expect("no circle");
        for (k, question) in questions.iter().enumerate() {
            let answered: Vec<u8> = words.iter().map(|word| (word >> k & 1) as u8).collect();
            assert_eq!(answered, answer(question), "{name} of {question:?}");
        }
    }
}

/// A circuit file is exported in every format with its gates and with its head as a comment, and its
/// BLIF computes its targets from lines at 0.
fn circuit_is_exported(name: &str, random: &mut Random, file: &[u8]) {
    let (folder, circuit) = (Folder::new(), functions::circuit(file));
    let Circuit { inputs, outputs, work, ref gates } = circuit;
    let count = gates.len();
    let head = format!("inputs {inputs}, outputs {outputs}, work lines {work}, gates {count}");
    folder.put("the.circuit", file);
    for (format, comment, read) in FORMATS {
        let text = folder.text(&["export", "the.circuit", "--to", format], "");
        assert!(text.ends_with('\n'), "{name}: the last line has no end");
        let has_head = text.lines().take(3).any(|line| line == format!("{comment}{head}"));
        assert!(has_head, "{name}: `{head}` is not in the first lines of {format}:\n{text}");
        let read = read(&text).unwrap_or_else(|fault| panic!("{name}, {format}: {fault}\n{text}"));
        assert!(read == circuit, "{name}: {format} is read as\n{read:?}, not\n{circuit:?}");
    }
    let text = folder.text(&["export", "the.circuit", "--to", "blif"], "");
    computes(name, &text, &questions(random, inputs), |question| {
        let start = [question, &vec![0; outputs + work]].concat();
        after(file, &start)[inputs..inputs + outputs].to_vec()
    });
}

/// A program file is exported as its circuit, and as BLIF by its nodes, which compute its outputs.
fn program_is_exported(name: &str, random: &mut Random, file: &[u8]) {
    let folder = Folder::new();
    folder.put("the.program", file);
    let circuit = folder.printed(&["compile", "the.program"], "");
    folder.put("the.circuit", &circuit);
    circuit_is_exported(name, random, &circuit);
    for format in ["qasm2", "qasm3", "real"] {
        let [of_program, of_circuit] = ["the.program", "the.circuit"]
            .map(|input| folder.text(&["export", input, "--to", format], ""));
        assert!(of_program == of_circuit, "{name}: another {format}\n{of_program}\n{of_circuit}");
    }
    let nodes = folder.text(&["export", "the.program", "--to", "blif"], "");
    has_nodes(name, &nodes, file);
    let questions = questions(random, functions::program(file).inputs);
    computes(name, &nodes, &questions, |question| outputs(file, question));
    let of_circuit = folder.text(&["export", "the.circuit", "--to", "blif"], "");
    computes(name, &of_circuit, &questions, |question| outputs(file, question));
}

/// The BLIF of a program has a signal for each node, which looks at nothing but the node's operands,
/// and one for each output.
fn has_nodes(name: &str, text: &str, file: &[u8]) {
    let network = blif::read(text).unwrap_or_else(|fault| panic!("{name}: {fault}\n{text}"));
    let program = functions::program(file);
    let numbered = |group: &str, count: usize| {
        (0..count).map(|at| format!("{group}_{at}")).collect::<Vec<String>>()
    };
    let targets = numbered("target", program.outputs.len());
    assert_eq!(network.model, "program", "{name}");
    assert_eq!(network.inputs, numbered("input", program.inputs), "{name}");
    assert_eq!(network.outputs, targets, "{name}");
    let made: Vec<&String> = network.tables.iter().map(|table| &table.output).collect();
    let nodes = numbered("node", program.nodes.len());
    assert_eq!(made, nodes.iter().chain(&targets).collect::<Vec<_>>(), "{name}");
    let of_nodes = program.nodes.iter().map(|node| match *node {
        Node::Zero | Node::One => vec![],
        Node::Input(j) => vec![format!("input_{j}")],
        Node::Not(a) => vec![nodes[a].clone()],
        Node::Xor(a, b) | Node::And(a, b) | Node::MarkedAnd(a, b) => {
            vec![nodes[a].clone(), nodes[b].clone()]
        }
    });
    let of_outputs = program.outputs.iter().map(|output| vec![nodes[*output].clone()]);
    for (table, operands) in network.tables.iter().zip(of_nodes.chain(of_outputs)) {
        let looks_at_them = table.inputs.iter().all(|signal| operands.contains(signal));
        assert!(looks_at_them, "{name}: {} looks at {:?}", table.output, table.inputs);
    }
}

#[test]
fn the_examples() {
    let mut random = Random(0x6578_616d);
    for name in functions::names() {
        program_is_exported(&name, &mut random, &functions::file(&name, "program"));
    }
}

/// No input, no work line, no gate, each kind of gate, inputs that are not named, and many.
#[test]
fn formulas() {
    let formulas = [
        ("0", 0),
        ("1", 0),
        ("!1^0", 0),
        ("1&!0", 0),
        ("0", 3),
        ("x0", 1),
        ("!x0", 1),
        ("x0&x1", 2),
        ("x1&x0", 2),
        ("x0&x0", 1),
        ("x0^x1&x2", 3),
        ("x2^x0&(x1^x2)", 3),
        ("!x0&!x1", 5),
        ("x0&x1&(x2&x3)^x7", 8),
        ("x63&x62^!x0", 64),
        ("!(!(!x0&x1)&x2)&!(x3&!x4)", 9),
    ];
    let mut random = Random(0x666f_726d);
    for (formula, inputs) in formulas {
        program_is_exported(formula, &mut random, &of_formula(formula, inputs));
    }
}

/// A formula as the argument is exported as its program file is.
#[test]
fn arguments() {
    let folder = Folder::new();
    folder.put("the.program", of_formula("x0&!x1", 3));
    for (format, ..) in FORMATS {
        let wanted = folder.text(&["export", "the.program", "--to", format], "");
        folder.gives(&["export", "x0&!x1", "--inputs", "3", "--to", format], "", &wanted);
    }
}

fn circuit(inputs: usize, outputs: usize, work: usize, gates: &[Gate]) -> Vec<u8> {
    write(&Circuit { inputs, outputs, work, gates: gates.to_vec() })
}

/// Circuit files that no program has: targets above, between and below their controls, gates on
/// inputs, lines without a gate, no gate at all, the highest lines, the most gates.
#[test]
fn circuits_of_other_tools() {
    let gates = [Not(0), Cnot(2, 0), Toffoli(0, 2, 1), Toffoli(1, 2, 0), Toffoli(0, 1, 2), Not(2)];
    let last = [Toffoli(1150, 1151, 63), Cnot(63, 64), Toffoli(0, 1151, 127), Not(1151)];
    let circuits = [
        ("no gate", circuit(0, 1, 0, &[])),
        ("lines without a gate", circuit(3, 2, 4, &[Not(3), Cnot(8, 2)])),
        ("three inputs", circuit(2, 1, 0, &gates)),
        ("no input", circuit(0, 1, 2, &gates)),
        ("the readers' example", write(&readers::example())),
        ("two outputs", circuit(1, 2, 0, &gates)),
        ("the highest lines", circuit(64, 64, 1_024, &last)),
        ("the most gates", circuit(2, 1, 0, &gates.repeat(1_334)[..8_000])),
    ];
    let mut random = Random(0x6369_7263);
    for (name, file) in circuits {
        circuit_is_exported(name, &mut random, &file);
    }
}

#[test]
fn random_circuits() {
    let mut random = Random(0x6761_7465);
    for number in 0..60 {
        let file = write(&random.circuit());
        circuit_is_exported(&format!("circuit {number}"), &mut random, &file);
    }
}

#[test]
fn random_programs() {
    let mut random = Random(0x7072_6f67);
    let mut exported = 0;
    for number in 0..150 {
        let file = of_table(&random.table());
        if compiled(&file, MOST_WORK).is_ok() {
            program_is_exported(&format!("program {number}"), &mut random, &file);
            exported += 1;
        }
    }
    assert!(exported >= 100, "only {exported} programs have a circuit");
}

/// The nodes of a program are exported where its circuit would be too large.
#[test]
fn programs_without_a_circuit() {
    let (folder, mut random) = (Folder::new(), Random(0x6c61_7267));
    let chain = |kind: &str| {
        let nodes = (2..60).map(|i| format!("{i} = {kind} {} {}\n", i - 1, i - 2));
        let nodes: String = nodes.collect();
        format!("inputs 2\n0 = INPUT 0\n1 = INPUT 1\n{nodes}output 59\noutput 58\n")
    };
    for kind in ["XOR", "AND"] {
        let file = of_table(&chain(kind));
        folder.put("the.table", chain(kind));
        folder.refused(&["export", "the.table", "--to", "qasm2"], "", "refused 8: ");
        let text = folder.text(&["export", "the.table", "--to", "blif"], "");
        has_nodes(kind, &text, &file);
        computes(kind, &text, &questions(&mut random, 2), |question| outputs(&file, question));
    }
}

/// A grant counts for circuits. Nodes take no work line, and to grant them some is a mistake.
#[test]
fn grants() {
    let (folder, nor) = (Folder::new(), functions::path("nor", "program"));
    folder.refused(&["export", &nor, "--to", "real", "--grant", "1"], "", "refused 10: ");
    folder.usage(&["export", &nor, "--to", "blif", "--grant", "2"]);
}
