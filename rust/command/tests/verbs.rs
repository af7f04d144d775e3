//! Each verb with each kind of input, what it prints byte for byte, and files written with `-o`.

mod common;

use std::ffi::OsStr;
use std::os::unix::ffi::OsStrExt;

use common::functions::{
    self, circuit, compiled, file, found, names, of_formula, of_table, path, program, undone,
    MOST_WORK,
};
use common::random::Random;
use common::{each_verb, ended, Folder};
use model::circuit::{write, Circuit, Gate};
use model::listing;
use table::functions::{adder, and, less, Form};

/// An input of the command: its argument, what is on standard input, what `check` calls it, and the
/// program file that it means.
struct Input {
    argument: String,
    stdin: Vec<u8>,
    kind: &'static str,
    program: Vec<u8>,
}

/// The majority of three inputs in every way: as a file, on standard input, as the argument.
fn inputs(folder: &Folder) -> Vec<Input> {
    let (program, formula) = (file("majority", "program"), file("majority", "formula"));
    let parsed = of_formula("x0^(x0^x1)&(x0^x2)", 3);
    let with = |end: &str| [&formula[..], end.as_bytes()].concat();
    let with_returns = String::from_utf8(file("majority", "table")).unwrap().replace('\n', "\r\n");
    let contents = [
        ("program file", program.clone(), &program),
        ("table", file("majority", "table"), &program),
        ("table", with_returns.into_bytes(), &program),
        ("formula", with(""), &parsed),
        ("formula", with("\n"), &parsed),
        ("formula", with("\r\n"), &parsed),
    ];
    let argument = String::from_utf8(formula.clone()).unwrap();
    let mut inputs = vec![(argument, vec![], "formula", &parsed)];
    for (at, (kind, content, program)) in contents.into_iter().enumerate() {
        let name = format!("majority.{at}");
        folder.put(&name, &content);
        inputs.extend([(name, vec![], kind, program), ("-".to_string(), content, kind, program)]);
    }
    let input = |(argument, stdin, kind, program): (String, Vec<u8>, &'static str, &Vec<u8>)| {
        Input { argument, stdin, kind, program: program.clone() }
    };
    inputs.into_iter().map(input).collect()
}

const QUOTE_OF_MAJORITY: &str = "\
output  gates  Toffolis  work lines
     0     10         1           2
 total     10         1           2
grant to ask for: 2
";

#[test]
fn every_verb_takes_every_input() {
    let folder = Folder::new();
    let compiled = compiled(&file("majority", "program"), MOST_WORK).unwrap();
    folder.put("the.circuit", &compiled);
    for Input { argument, stdin, kind, program } in inputs(&folder) {
        let gives = |verb: &str, more: &[&str], wanted: &[u8]| {
            folder.gives(&[&[verb, &argument], more].concat(), &stdin, wanted);
        };
        let nodes = functions::program(&program).nodes.len();
        let head = format!("{kind}: inputs 3, outputs 1, nodes {nodes}, marked 0\n");
        gives("check", &[], head.as_bytes());
        gives("make", &[], &program);
        gives("list", &[], &file("majority", "listing"));
        gives("quote", &[], QUOTE_OF_MAJORITY.as_bytes());
        gives("compile", &[], &compiled);
        gives("evaluate", &["110"], b"1\n");
        gives("evaluate", &["001"], b"0\n");
        gives("run", &["110"], b"before 110 0 00\nafter  110 1 00\n");
        gives("back", &["1101"], b"before 110 1 00\nafter  110 0 00\n");
        gives("undo", &[], &undone(&compiled, &[]));
        for format in ["qasm2", "qasm3", "real"] {
            let wanted = folder.text(&["export", "the.circuit", "--to", format], "");
            gives("export", &["--to", format], wanted.as_bytes());
        }
        folder.put("the.program", &program);
        let nodes = folder.text(&["export", "the.program", "--to", "blif"], "");
        gives("export", &["--to", "blif"], nodes.as_bytes());
    }
}

/// The verbs for circuits take circuit files too, which other tools may have made.
#[test]
fn verbs_for_circuits_take_circuit_files() {
    use Gate::{Cnot, Not, Toffoli};
    let gates = vec![Not(0), Cnot(3, 0), Toffoli(0, 2, 1), Cnot(1, 2), Toffoli(0, 1, 3)];
    let file = write(&Circuit { inputs: 1, outputs: 2, work: 1, gates });
    let folder = Folder::new();
    folder.put("the.circuit", &file);
    let exported = folder.text(&["export", "the.circuit", "--to", "qasm3"], "");
    for (argument, stdin) in [("the.circuit", &[][..]), ("./the.circuit", &[]), ("-", &file)] {
        let head = "circuit file: inputs 1, outputs 2, work lines 1, gates 5, Toffolis 2\n";
        folder.gives(&["check", argument], stdin, head);
        folder.gives(&["run", argument, "0011"], stdin, "before 0 01 1\nafter  0 01 1\n");
        folder.gives(&["back", argument, "0011"], stdin, "before 0 01 1\nafter  0 01 1\n");
        folder.gives(&["run", argument, "0"], stdin, "before 0 00 0\nafter  1 00 0\n");
        folder.gives(&["run", argument, "001"], stdin, "before 0 01 0\nafter  1 10 1\n");
        folder.gives(&["back", argument, "1101"], stdin, "before 1 10 1\nafter  0 01 0\n");
        folder.gives(&["undo", argument], stdin, undone(&file, &[]));
        folder.gives(&["export", argument, "--to", "qasm3"], stdin, &exported);
    }
}

#[test]
fn checks_of_the_examples() {
    let folder = Folder::new();
    for name in names() {
        let table = String::from_utf8(file(&name, "table")).unwrap();
        let of_nodes = |line: &str| line.split('#').next().unwrap_or("").trim_end().to_string();
        let marked = table.lines().filter(|line| of_nodes(line).ends_with(" marked")).count();
        let read = program(&file(&name, "program"));
        let (inputs, outputs, nodes) = (read.inputs, read.outputs.len(), read.nodes.len());
        let numbers =
            format!("inputs {inputs}, outputs {outputs}, nodes {nodes}, marked {marked}\n");
        folder.gives(&["check", &path(&name, "program")], "", format!("program file: {numbers}"));
        folder.gives(&["check", &path(&name, "table")], "", format!("table: {numbers}"));

        let compiled = compiled(&file(&name, "program"), MOST_WORK).unwrap();
        let Circuit { inputs, outputs, work, gates } = circuit(&compiled);
        let toffolis = gates.iter().filter(|gate| matches!(gate, Gate::Toffoli(..))).count();
        let (count, start) = (gates.len(), "circuit file: inputs");
        let head = format!(
            "{start} {inputs}, outputs {outputs}, work lines {work}, gates {count}, Toffolis {toffolis}\n"
        );
        folder.gives(&["check", "-"], &compiled, head);
    }
}

#[test]
fn the_examples_are_made_listed_and_compiled() {
    let folder = Folder::new();
    for name in names() {
        let program = file(&name, "program");
        folder.gives(&["make", &path(&name, "table")], "", &program);
        folder.gives(&["make", &path(&name, "program")], "", &program);
        let circuit = compiled(&program, MOST_WORK).unwrap();
        let formula = found(&name, "formula").map(|_| "formula");
        for extension in ["program", "table"].into_iter().chain(formula) {
            let input = path(&name, extension);
            folder.gives(&["list", &input], "", file(&name, "listing"));
            folder.gives(&["compile", &input], "", &circuit);
        }
    }
}

/// What `make`, `list` and `compile` give is what the model gives, or refuses.
#[test]
fn random_tables() {
    let (folder, mut random) = (Folder::new(), Random(0x7461_626c));
    for _ in 0..100 {
        let table = random.table();
        let program = of_table(&table);
        folder.gives(&["make", "-"], &table, &program);
        match compiled(&program, MOST_WORK) {
            Ok(circuit) => {
                folder.gives(&["compile", "-"], &table, &circuit);
                folder.gives(&["list", "-"], &table, listing::listing(&program, MOST_WORK));
            }
            Err(refusal) => {
                let start = format!("refused {}: ", refusal.number);
                folder.refused(&["compile", "-"], &table, &start);
                folder.refused(&["list", "-"], &table, &start);
            }
        }
    }
}

/// The inputs of a formula are those up to the highest that it names, or as many as are asked for.
#[test]
fn inputs_of_formulas() {
    let folder = Folder::new();
    let formulas = [("0", 0), ("!1", 0), ("x0", 1), ("x5", 6), ("x2&x10", 11), ("x10^x2", 11)];
    for (formula, inputs) in formulas.into_iter().chain([("(x63)", 64), ("x9&!x9", 10)]) {
        folder.gives(&["make", formula], "", of_formula(formula, inputs));
        for more in [inputs, inputs + 1, 64].map(|inputs| inputs.min(64)) {
            let wanted = of_formula(formula, more);
            folder.gives(&["make", formula, "--inputs", &more.to_string()], "", &wanted);
            folder.gives(&["make", "-", &format!("--inputs={more}")], formula, &wanted);
        }
    }
}

/// The most nodes, each above the one before, and as many comments.
#[test]
fn a_long_table() {
    let comment = "# ".to_string() + &"a comment ".repeat(10);
    let nodes = (1..4_096).map(|i| format!("{i} = NOT {} {comment}\n{comment}\n", i - 1));
    let table = format!("inputs 1\n0 = INPUT 0\n{}output 4095\n", nodes.collect::<String>());
    assert!(table.len() > 800_000);
    let program = of_table(&table);
    let folder = Folder::new();
    folder.gives(&["make", "-"], &table, &program);
    folder.gives(&["compile", "-"], &table, compiled(&program, MOST_WORK).unwrap());
    folder.gives(&["evaluate", "-", "1"], &table, "0\n");
    folder.gives(&["run", "-", "1"], &table, "before 1 0\nafter  1 0\n");
}

/// Without `--grant` as many work lines are granted as can be. Each AND here takes two more.
#[test]
fn the_most_work_lines() {
    let table = |ands: usize| {
        let nodes = (1..=ands).map(|i| format!("{i} = AND {} 0\n", i - 1));
        format!("inputs 0\n0 = ONE\n{}output {ands}\n", nodes.collect::<String>())
    };
    let folder = Folder::new();
    let wanted = compiled(&of_table(&table(512)), MOST_WORK).unwrap();
    assert_eq!(circuit(&wanted).work, 1_024);
    folder.gives(&["compile", "-"], table(512), &wanted);
    folder.gives(&["compile", "-", "--grant", "1024"], table(512), &wanted);
    folder.refused(&["compile", "-"], table(513), "refused 10: ");
}

/// Each verb that takes a formula takes its number of inputs.
#[test]
fn inputs_of_formulas_with_every_verb() {
    let folder = Folder::new();
    folder.put("the.program", of_formula("!x0", 2));
    for (of_file, of_formula) in each_verb("the.program").iter().zip(each_verb("!x0")) {
        let wanted = folder.text(of_file, "").replace("program file: ", "formula: ");
        folder.gives(&[&of_formula[..], &["--inputs", "2"]].concat(), "", wanted);
    }
}

#[test]
fn tables_of_functions() {
    let folder = Folder::new();
    for (form, marked) in [(Form::Plain, None), (Form::Marked, Some("--marked"))] {
        let gives = |option: &str, number: usize, wanted: String| {
            let number = number.to_string();
            let arguments: Vec<&str> =
                ["make", option, &number].into_iter().chain(marked).collect();
            folder.gives(&arguments, "", &wanted);
            let joined = format!("{option}={number}");
            let arguments: Vec<&str> =
                ["make"].into_iter().chain(marked).chain([&joined[..]]).collect();
            folder.gives(&arguments, "", &wanted);
        };
        for bits in [1, 2, 8, 31, 32] {
            gives("--adder", bits, adder(bits, form));
            gives("--less", bits, less(bits, form));
        }
        for inputs in [2, 3, 32, 63, 64] {
            gives("--and", inputs, and(inputs, form));
        }
    }
}

/// With `-o` a verb prints nothing and writes what it would print, also where a file was before.
#[test]
fn every_verb_writes_a_file() {
    let folder = Folder::new();
    for arguments in each_verb("x0&x1") {
        let wanted = folder.printed(&arguments, "");
        for old in [None, Some("old and longer".repeat(1_000))] {
            old.map(|old| folder.put("written", old));
            folder.gives(&[&arguments[..], &["-o", "written"]].concat(), "", "");
            assert!(folder.get("written") == wanted, "{arguments:?}");
            assert_eq!(folder.names(), ["written"], "{arguments:?}");
            std::fs::remove_file(folder.path.join("written")).unwrap();
        }
    }
    folder.gives(&["make", "--adder", "8", "-o", "written"], "", "");
    assert_eq!(folder.get("written"), adder(8, Form::Plain).as_bytes());
}

/// A grant that is enough changes nothing.
#[test]
fn grants() {
    let folder = Folder::new();
    let (path, circuit) = (path("majority", "program"), file("majority", "listing"));
    for grant in ["2", "3", "1024"] {
        folder.gives(&["list", &path, "--grant", grant], "", &circuit);
        folder.gives(&["list", &format!("--grant={grant}"), &path], "", &circuit);
    }
    for mut arguments in each_verb(&path) {
        let takes_it = ["list", "compile", "run", "back", "undo", "export"].contains(&arguments[0]);
        let wanted = (takes_it).then(|| folder.printed(&arguments, ""));
        arguments.extend(["--grant", "2"]);
        match wanted {
            Some(wanted) => folder.gives(&arguments, "", wanted),
            None => drop(folder.usage(&arguments)),
        }
    }
}

/// Options stand anywhere behind the verb, up to `--`; behind it are names alone.
#[test]
fn options_end_at_two_dashes() {
    let folder = Folder::new();
    let listing = file("and", "listing");
    folder.put("--help", file("and", "program"));
    folder.put("-o", file("and", "program"));
    for name in ["--help", "-o", "./-o"] {
        folder.gives(&["list", "--", name], "", &listing);
        folder.gives(&["list", "--grant", "0", "--", name], "", &listing);
    }
    folder.gives(&["list", "--", "x0&x1"], "", &listing);
    folder.gives(&["list", "--", "-"], "x0&x1", &listing);
    folder.gives(&["evaluate", "--", "x0&x1", "11"], "", "1\n");
}

/// The name of a file may be any bytes.
#[test]
fn names_that_are_no_text() {
    let folder = Folder::new();
    let name = OsStr::from_bytes(b"\xff\xfe(.program");
    std::fs::write(folder.path.join(name), file("and", "program")).unwrap();
    let output = folder.run(&[OsStr::new("list"), name], "");
    ended(&["list"], &output, 0);
    assert_eq!(output.stdout, file("and", "listing"));
}
