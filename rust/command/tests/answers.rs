//! What functions answer and circuits do, and what they take: `evaluate`, `run`, `back`, `undo` and
//! `quote`, held to the model.

mod common;

use common::functions::{
    self, after, bits, circuit, compiled, digits, file, names, of_table, outputs, path, program,
    undone, MOST_WORK,
};
use common::random::Random;
use common::Folder;
use model::circuit::{write, Circuit, Gate};

#[test]
fn one_question() {
    let (folder, mut random) = (Folder::new(), Random(0x6f6e_6531));
    for name in names() {
        let file = file(&name, "program");
        for _ in 0..8 {
            let question = random.bits(program(&file).inputs);
            let answer = digits(&outputs(&file, &question)) + "\n";
            folder.gives(&["evaluate", &path(&name, "program"), &digits(&question)], "", answer);
        }
    }
    folder.gives(&["evaluate", "1", ""], "", "1\n");
    folder.gives(&["evaluate", "0", ""], "", "0\n");
    folder.gives(&["evaluate", "-", "10"], "x0&!x1", "1\n");
    folder.gives(&["evaluate", "-", "01"], "x0&!x1", "0\n");
}

/// Sixty-four are asked at a time: the numbers are around that.
#[test]
fn many_questions() {
    let (folder, mut random) = (Folder::new(), Random(0x6d61_6e79));
    for name in ["full_adder", "adder8", "adder32_marked"] {
        let (file, path) = (file(name, "program"), path(name, "program"));
        for count in [0, 1, 2, 63, 64, 65, 127, 128, 130] {
            let questions: Vec<Vec<u8>> =
                (0..count).map(|_| random.bits(program(&file).inputs)).collect();
            let asked: String = questions.iter().map(|question| digits(question) + "\n").collect();
            let answers: String =
                questions.iter().map(|question| digits(&outputs(&file, question)) + "\n").collect();
            folder.gives(&["evaluate", &path, "--questions", "-"], &asked, &answers);
            folder.put("questions", &asked);
            folder.gives(&["evaluate", &path, "--questions", "questions"], "", &answers);
            folder.gives(&["evaluate", "-", "--questions=questions"], &file, &answers);
            folder.put("questions", asked.trim_end());
            folder.gives(&["evaluate", "--questions", "questions", &path], "", &answers);
        }
    }
}

/// As a sample has them.
#[test]
fn thousands_of_questions() {
    let (folder, mut random) = (Folder::new(), Random(0x7361_6d70));
    let file = file("less8", "program");
    let questions: Vec<Vec<u8>> = (0..20_000).map(|_| random.bits(16)).collect();
    let asked: String = questions.iter().map(|question| digits(question) + "\n").collect();
    let answers: String =
        questions.iter().map(|question| digits(&outputs(&file, question)) + "\n").collect();
    folder.gives(&["evaluate", &path("less8", "table"), "--questions", "-"], asked, answers);
}

/// Where there is no input, a question is an empty line.
#[test]
fn questions_to_no_input() {
    let folder = Folder::new();
    for count in [0, 1, 64, 65] {
        let (asked, answers) = ("\n".repeat(count), "1\n".repeat(count));
        folder.gives(&["evaluate", "!0", "--questions", "-"], asked, answers);
    }
}

/// Input 0 changes fastest.
#[test]
fn all_questions() {
    let folder = Folder::new();
    folder.gives(&["evaluate", "1", "--all"], "", " 1\n");
    folder.gives(&["evaluate", "!x0", "--all"], "", "0 1\n1 0\n");
    folder.gives(&["evaluate", "x0&!x1", "--all"], "", "00 0\n10 1\n01 0\n11 0\n");
    let wide = ["x0", "x5^x0", "x6&x1", "x7^!x3&x2"].map(|formula| {
        let inputs = formula.split('x').filter_map(|part| part.get(..1)?.parse::<u64>().ok());
        functions::of_formula(formula, inputs.max().unwrap() + 1)
    });
    for file in names().iter().map(|name| file(name, "program")).chain(wide) {
        let inputs = program(&file).inputs;
        if inputs <= 16 {
            let row = |number: u64| {
                let question = bits(number, inputs);
                format!("{} {}\n", digits(&question), digits(&outputs(&file, &question)))
            };
            folder.gives(
                &["evaluate", "-", "--all"],
                &file,
                (0..1 << inputs).map(row).collect::<String>(),
            );
        }
    }
}

/// The lines of a circuit in their groups, of which those without a line are left out.
fn shown(circuit: &Circuit, lines: &[u8]) -> String {
    let (inputs, rest) = lines.split_at(circuit.inputs);
    let (targets, work) = rest.split_at(circuit.outputs);
    let groups = [inputs, targets, work].map(digits);
    groups.into_iter().filter(|group| !group.is_empty()).collect::<Vec<_>>().join(" ")
}

/// A circuit, by the argument and standard input that name it, is run from any start, and back to it.
fn runs(random: &mut Random, argument: &str, stdin: &[u8], file: &[u8]) {
    let (folder, circuit) = (Folder::new(), circuit(file));
    for round in 0..4 {
        // Lines that are left out start at 0.
        let given = if round == 0 { circuit.inputs } else { random.below(circuit.lines() + 1) };
        let mut start = random.bits(given);
        let bits = digits(&start);
        start.resize(circuit.lines(), 0);
        let end = after(file, &start);
        let (before, behind) = (shown(&circuit, &start), shown(&circuit, &end));
        let there = format!("before {before}\nafter  {behind}\n");
        let back = format!("before {behind}\nafter  {before}\n");
        folder.gives(&["run", argument, &bits], stdin, &there);
        folder.gives(&["run", argument, &before], stdin, &there);
        folder.gives(&["back", argument, &behind], stdin, &back);
        folder.gives(&["back", argument, &digits(&end)], stdin, &back);
    }
}

/// The circuits of programs do the same forwards and backwards, others do not.
#[test]
fn runs_and_runs_back() {
    let mut random = Random(0x7275_6e73);
    for name in names() {
        let file = compiled(&file(&name, "program"), MOST_WORK).unwrap();
        runs(&mut random, &path(&name, "program"), &[], &file);
        runs(&mut random, "-", &file, &file);
    }
    for _ in 0..40 {
        let file = write(&random.circuit());
        runs(&mut random, "-", &file, &file);
    }
}

/// Blanks in the bits are passed over, and there may be none of either.
#[test]
fn starts_of_a_run() {
    let folder = Folder::new();
    let mux = "x2^x0&(x1^x2)";
    for bits in ["110", "1 1 0", " 110 ", "110 0 0", "1100 0", "11"] {
        folder.gives(&["run", mux, bits], "", "before 110 0 0\nafter  110 1 0\n");
    }
    for bits in ["", " ", "0", "00000"] {
        folder.gives(&["run", mux, bits], "", "before 000 0 0\nafter  000 0 0\n");
    }
    folder.gives(&["run", mux, "1101"], "", "before 110 1 0\nafter  110 0 0\n");
    folder.gives(&["run", mux, "00001"], "", "before 000 0 1\nafter  000 0 1\n");
    folder.gives(&["run", mux, "10001"], "", "before 100 0 1\nafter  100 1 1\n");
    folder.gives(&["run", "x0", "1"], "", "before 1 0\nafter  1 1\n");
    folder.gives(&["run", "1", ""], "", "before 0\nafter  1\n");
}

/// Running a circuit and then its undoing cleans up all but what is kept.
#[test]
fn undoing() {
    let folder = Folder::new();
    // Lines 0 to 2 are inputs, 3 and 4 targets, 5 and 6 work lines.
    let adder = compiled(&file("full_adder", "program"), MOST_WORK).unwrap();
    let gates = (0..7).flat_map(|line| [Gate::Not(line), Gate::Cnot(line, (line + 3) % 7)]);
    let other = write(&Circuit { gates: gates.collect(), ..circuit(&adder) });
    let choices: [(&str, &[usize]); 14] = [
        ("inputs", &[0, 1, 2]),
        ("targets", &[3, 4]),
        ("work", &[5, 6]),
        ("0", &[0]),
        ("3", &[3]),
        ("6", &[6]),
        ("0,6", &[0, 6]),
        ("6,2,4", &[2, 4, 6]),
        ("targets,work", &[3, 4, 5, 6]),
        ("work,inputs", &[0, 1, 2, 5, 6]),
        ("inputs,5", &[0, 1, 2, 5]),
        ("4,targets,work", &[3, 4, 5, 6]),
        ("inputs,targets,work", &[0, 1, 2, 3, 4, 5, 6]),
        ("0,1,2,3,4,5,6", &[0, 1, 2, 3, 4, 5, 6]),
    ];
    for file in [&adder, &other] {
        folder.gives(&["undo", "-"], file, undone(file, &[]));
        for (keep, lines) in choices {
            folder.gives(&["undo", "-", "--keep", keep], file, undone(file, lines));
            folder.gives(&["undo", &format!("--keep={keep}"), "-"], file, undone(file, lines));
        }
    }
    let table = path("full_adder", "table");
    folder.gives(&["undo", &table, "--keep", "targets"], "", undone(&adder, &[3, 4]));
}

/// The columns of a quote, each right below its name.
fn row(fields: [&str; 4]) -> String {
    let [output, gates, toffolis, work] = fields;
    format!("{output:>6}  {gates:>5}  {toffolis:>8}  {work:>10}\n")
}

fn quoted(file: &[u8]) -> String {
    let numbers = model::quote::numbers(&program(file));
    let mut text = row(["output", "gates", "Toffolis", "work lines"]);
    let mut line = |name: String, numbers: [u64; 3]| {
        let [gates, toffolis, work] = numbers.map(|number| number.to_string());
        text += &row([&name, &gates, &toffolis, &work]);
    };
    for (k, numbers) in numbers.iter().enumerate() {
        line(k.to_string(), *numbers);
    }
    let sum = |at: usize| numbers.iter().map(|numbers| numbers[at]).sum();
    let work = numbers.iter().map(|numbers| numbers[2]).max().unwrap();
    line("total".to_string(), [sum(0), sum(1), work]);
    text + &format!("grant to ask for: {work}\n")
}

#[test]
fn quotes_of_the_examples() {
    let folder = Folder::new();
    let full_adder = "\
output  gates  Toffolis  work lines
     0      3         0           0
     1     10         1           2
 total     13         1           2
grant to ask for: 2
";
    folder.gives(&["quote", &path("full_adder", "program")], "", full_adder);
    for name in names() {
        folder.gives(&["quote", &path(&name, "table")], "", quoted(&file(&name, "program")));
    }
    let mut random = Random(0x7175_6f74);
    for _ in 0..60 {
        let table = random.table();
        let wanted = quoted(&of_table(&table));
        let gates = wanted.lines().nth_back(1).and_then(|line| line.split_whitespace().nth(1));
        if gates.unwrap().parse::<u64>().unwrap() <= 8_000 {
            folder.gives(&["quote", "-"], &table, wanted);
        }
    }
}

/// A table in which each node doubles the one before, up to the last, with these outputs.
fn doubling(first: &str, kind: &str, last: usize, outputs: &[usize]) -> String {
    let nodes = (1..=last).map(|i| format!("{i} = {kind} {} {}\n", i - 1, i - 1));
    let outputs = outputs.iter().map(|output| format!("output {output}\n"));
    format!("inputs 1\n0 = {first}\n{}", nodes.chain(outputs).collect::<String>())
}

/// The fields of each line of a quote, which are two blanks or more apart.
fn fields(quote: &str) -> Vec<Vec<&str>> {
    let line = |line| str::split(line, "  ").map(str::trim).filter(|field| !field.is_empty());
    quote.lines().map(|text| line(text).collect()).collect()
}

const TOO_MANY: &str = "too many gates for a circuit file, which has at most 8,000";
const NO_GRANT: &str = "no grant is enough: at most 1,024 work lines can be granted";

/// Node i has 2^i gates. A circuit file has at most 8,000, of all outputs together.
#[test]
fn quotes_of_many_gates() {
    let folder = Folder::new();
    let quote =
        |outputs: &[usize]| folder.text(&["quote", "-"], doubling("INPUT 0", "XOR", 24, outputs));
    let most = [12, 11, 10, 9, 8, 6];
    let (enough, over) = (quote(&most), quote(&[&most[..], &[0]].concat()));
    assert!(fields(&enough).contains(&vec!["total", "8000", "0", "0"]), "{enough}");
    assert!(!enough.contains("too many") && enough.ends_with("grant to ask for: 0\n"), "{enough}");
    assert!(fields(&over).contains(&vec!["total", "8001", "0", "0"]), "{over}");
    assert!(fields(&over).contains(&vec![TOO_MANY]), "{over}");
    assert!(fields(&over).contains(&vec!["grant to ask for: 0"]), "{over}");

    let large = quote(&[19, 20, 24]);
    let rows = fields(&large);
    assert_eq!(rows[1], ["0", "524288", "0", "0"], "{large}");
    assert_eq!(rows[2], ["1", "over 1,000,000", "0", "0"], "{large}");
    assert_eq!(rows[3], ["2", "over 1,000,000", "0", "0"], "{large}");
    assert_eq!(rows[4], ["total", "over 1,000,000", "0", "0"], "{large}");
    assert!(rows.contains(&vec![TOO_MANY]), "{large}");
    // Columns stand below each other.
    let ends: Vec<usize> = large.lines().take(5).map(str::len).collect();
    assert!(ends.iter().all(|end| *end == ends[0]), "{large}");
}

/// Of an AND, node i takes 2^(i+1) - 2 work lines, and at most 1,024 can be granted.
#[test]
fn quotes_of_many_work_lines() {
    let folder = Folder::new();
    let quote = |output: usize| folder.text(&["quote", "-"], doubling("ONE", "AND", 24, &[output]));
    let (enough, over, large) = (quote(9), quote(10), quote(24));
    assert!(fields(&enough).contains(&vec!["grant to ask for: 1022"]), "{enough}");
    assert!(!enough.contains("no grant"), "{enough}");
    assert_eq!(fields(&over)[1][3], "2046", "{over}");
    assert!(fields(&over).contains(&vec![NO_GRANT]), "{over}");
    assert!(!over.contains("grant to ask for") && !over.contains(TOO_MANY), "{over}");
    let over_all = ["over 1,000,000"; 3];
    assert_eq!(fields(&large)[1][1..], over_all, "{large}");
    assert_eq!(fields(&large)[2][1..], over_all, "{large}");
    assert!(fields(&large).contains(&vec![NO_GRANT]), "{large}");
    assert!(fields(&large).contains(&vec![TOO_MANY]), "{large}");
}
