//! The functions of `examples/functions`: each program file is that of its table, each listing that
//! of its program file, each formula has the circuit of its program file, and each function
//! computes on bits what its name says on numbers.

use agreement::compare::compile::written;
use agreement::compare::run::after;
use agreement::compare::{evaluate, parse, MOST_NODES};
use agreement::listing_cases::GRANT;
use agreement::random::Random;
use agreement::{bits, repository};
use model::listing::{listing, text};
use model::program::{Node, Program};
use oracle::{LONGEST_PARSED, QUESTIONS};
use table::functions::{adder, and, less, Form};

/// A function: its name, the number of its inputs and outputs, and its outputs as the bits of a
/// number, the first output lowest, for its inputs as the bits of a number.
struct Function {
    name: &'static str,
    inputs: usize,
    outputs: usize,
    value: fn(u64) -> u64,
}

const FUNCTIONS: [Function; 11] = [
    Function { name: "and", inputs: 2, outputs: 1, value: |x| u64::from(x == 3) },
    Function { name: "nor", inputs: 2, outputs: 1, value: |x| u64::from(x == 0) },
    Function { name: "majority", inputs: 3, outputs: 1, value: |x| u64::from(x.count_ones() >= 2) },
    Function { name: "full_adder", inputs: 3, outputs: 2, value: |x| u64::from(x.count_ones()) },
    Function { name: "adder8", inputs: 16, outputs: 9, value: |x| (x & 0xff) + (x >> 8) },
    Function { name: "adder32", inputs: 64, outputs: 33, value: sum_of_32_bits },
    Function { name: "adder32_marked", inputs: 64, outputs: 33, value: sum_of_32_bits },
    Function { name: "less8", inputs: 16, outputs: 1, value: is_less_of_8_bits },
    Function { name: "less8_marked", inputs: 16, outputs: 1, value: is_less_of_8_bits },
    Function { name: "and32", inputs: 32, outputs: 1, value: |x| u64::from(x == 0xffff_ffff) },
    Function {
        name: "and32_marked",
        inputs: 32,
        outputs: 1,
        value: |x| u64::from(x == 0xffff_ffff),
    },
];

fn sum_of_32_bits(x: u64) -> u64 {
    (x & 0xffff_ffff) + (x >> 32)
}

fn is_less_of_8_bits(x: u64) -> u64 {
    u64::from((x & 0xff) < (x >> 8))
}

fn file(name: &str, extension: &str) -> Vec<u8> {
    repository::read(format!("examples/functions/{name}.{extension}"))
}

/// The circuit file that the archive compiles a program file to.
fn compiled(program: &[u8]) -> Vec<u8> {
    written(program, GRANT).expect("it compiles")
}

/// Inputs to try: all of them where they are few, otherwise the ends and some at random.
fn inputs_to_try(random: &mut Random, count: usize) -> Vec<u64> {
    if count <= 3 {
        return (0..1 << count).collect();
    }
    let half = count / 2;
    let ones = u64::MAX >> (64 - count);
    let low = u64::MAX >> (64 - half);
    // A carry through every bit, equal numbers, and numbers that differ by one.
    let mut numbers = vec![0, ones, low, ones ^ low, low | 1 << half, 1 | low << half];
    // One input at 0.
    numbers.extend((0..count).map(|at| ones ^ 1 << at));
    for _ in 0..2_000 {
        let (any, near) = (random.number() & low, random.below(3) as u64);
        numbers.push(random.number() & ones);
        numbers.push(any | (any.wrapping_add(near).wrapping_sub(1) & low) << half);
    }
    numbers
}

/// Whether a formula can say this function: it has one output and no marks.
fn has_formula(function: &Function) -> bool {
    let program = model::program::read(&file(function.name, "program"));
    let Program { nodes, outputs, .. } = program.expect("a good program file");
    outputs.len() == 1 && !nodes.iter().any(|node| matches!(node, Node::MarkedAnd(..)))
}

#[test]
fn the_folder_holds_these_functions() {
    let files = |function: &Function| {
        let formula = has_formula(function).then_some("formula");
        let extensions = ["table", "program", "listing"].into_iter().chain(formula);
        extensions.map(|extension| format!("{}.{extension}", function.name)).collect::<Vec<_>>()
    };
    assert_eq!(repository::names("examples/functions"), FUNCTIONS.iter().flat_map(files).collect());
}

#[test]
fn the_tables_of_the_tool() {
    let tables = [
        ("adder8", adder(8, Form::Plain)),
        ("adder32", adder(32, Form::Plain)),
        ("adder32_marked", adder(32, Form::Marked)),
        ("less8", less(8, Form::Plain)),
        ("less8_marked", less(8, Form::Marked)),
        ("and32", and(32, Form::Plain)),
        ("and32_marked", and(32, Form::Marked)),
    ];
    for (name, text) in tables {
        assert!(file(name, "table") == text.as_bytes(), "{name}: `table` writes another table");
    }
}

/// The table of the examples has a row for each, with the numbers of its listing.
#[test]
fn the_numbers_in_the_readme() {
    let readme = repository::text("examples/README.md");
    for Function { name, inputs, outputs, .. } in &FUNCTIONS {
        let listing = String::from_utf8(file(name, "listing")).expect("text");
        let first: Vec<&str> = listing.lines().next().expect("a first line").split(' ').collect();
        let row = readme.lines().find(|line| line.starts_with(&format!("| `{name}` |")));
        let row = row.unwrap_or_else(|| panic!("{name}: no row")).replace(',', "");
        let numbers = format!("| {inputs} {outputs} | {} {} |", first[3], first[5]);
        assert!(row.ends_with(&numbers), "{name}: {numbers}");
    }
}

/// A marked form takes fewer lines than the plain one, and more gates.
#[test]
fn marks_save_lines() {
    for name in ["adder32", "less8", "and32"] {
        let [plain, marked] = [name.to_string(), format!("{name}_marked")].map(|name| {
            let circuit = compiled(&file(&name, "program"));
            model::circuit::read(&circuit).expect("it reads back")
        });
        assert!(marked.work < plain.work, "{name}: {} and {} lines", marked.work, plain.work);
        assert!(marked.gates.len() > plain.gates.len(), "{name}: more gates");
    }
}

#[test]
fn program_files_are_those_of_the_tables() {
    for Function { name, inputs, outputs, .. } in &FUNCTIONS {
        let table = table::read(&file(name, "table"));
        let made = table.unwrap_or_else(|fault| panic!("{name}: {fault}")).program_file();
        assert!(made == file(name, "program"), "{name}: the table gives another file");
        let program = model::program::read(&made).expect("a good program file");
        assert_eq!((program.inputs, program.outputs.len()), (*inputs, *outputs), "{name}");
    }
}

#[test]
fn listings_are_those_of_the_program_files() {
    for Function { name, .. } in &FUNCTIONS {
        let program = file(name, "program");
        let wanted = String::from_utf8(file(name, "listing")).expect("text");
        assert!(listing(&program, GRANT) == wanted, "{name}: the model lists it otherwise");
        let circuit = model::circuit::read(&compiled(&program)).expect("it reads back");
        assert!(text(&circuit) == wanted, "{name}: the archive compiles it otherwise");
        println!("{name}: {}", wanted.lines().next().expect("a first line"));
    }
}

/// A program file may use a node twice, where its formula has two alike. What is compiled is the
/// same, as nodes are unfolded.
#[test]
fn formulas_compile_to_the_same_circuits() {
    let mut random = Random::new(0x666f_726d);
    let formulas: Vec<&Function> =
        FUNCTIONS.iter().filter(|function| has_formula(function)).collect();
    let names: Vec<&str> = formulas.iter().map(|function| function.name).collect();
    assert_eq!(names, ["and", "nor", "majority", "less8", "and32"]);
    for Function { name, inputs, value, .. } in formulas {
        let formula = parse::Case::new(file(name, "formula"), *inputs as u64, LONGEST_PARSED);
        assert!(parse::compare(&formula).is_ok(), "{name}: its formula is refused");
        let parsed = parse::written(&formula.text, formula.inputs).expect("it is parsed");
        let wanted = String::from_utf8(file(name, "listing")).expect("text");
        assert!(compiled(&parsed) == compiled(&file(name, "program")), "{name}: another circuit");
        assert!(listing(&parsed, GRANT) == wanted, "{name}: the formula is listed otherwise");
        for number in inputs_to_try(&mut random, *inputs) {
            let values = evaluate::outputs(&parsed, &bits(number, *inputs), 1);
            assert_eq!(values, bits(value(number), 1), "{name} of {number:#x}");
        }
    }
}

/// Evaluated, one by one and by the word, and compiled and run forwards: the outputs are XORed into
/// the targets, whatever these were, and the inputs and the work lines, zero at the start, end as they
/// started.
#[test]
fn each_computes_what_its_name_says() {
    let mut random = Random::new(0x6675_6e63);
    for function in &FUNCTIONS {
        computes(&mut random, function);
    }
}

fn computes(random: &mut Random, function: &Function) {
    let program = file(function.name, "program");
    let circuit = compiled(&program);
    let numbers = inputs_to_try(random, function.inputs);
    for number in &numbers {
        let expected = bits((function.value)(*number), function.outputs);
        let inputs = bits(*number, function.inputs);
        let name = format!("{} of {number:#x}", function.name);
        let values = evaluate::outputs(&program, &inputs, function.outputs);
        assert_eq!(values, expected, "{name}");
        runs(&name, &circuit, &inputs, &expected, &random.bits(function.outputs));
    }
    for questions in numbers.chunks(QUESTIONS) {
        answers(function, &program, questions);
    }
    println!("{}: {} inputs", function.name, numbers.len());
}

/// Each output of up to 64 numbers in one call, number k as question k.
fn answers(function: &Function, program: &[u8], numbers: &[u64]) {
    let word = |numbers: &[u64], at: usize| -> u64 {
        (0..).zip(numbers).map(|(k, number)| (number >> at & 1) << k).sum()
    };
    let values: Vec<u64> = numbers.iter().map(|number| (function.value)(*number)).collect();
    let inputs: Vec<u64> = (0..function.inputs).map(|j| word(numbers, j)).collect();
    let asked = u64::MAX >> (QUESTIONS - numbers.len());
    for output in 0..function.outputs {
        let answer = oracle::evaluate_words(program, &mut [9; MOST_NODES], &inputs, output as u64);
        let answer = answer.map(|answer| answer & asked);
        let name = format!("output {output} of {}, {numbers:x?}", function.name);
        assert_eq!(answer, Ok(word(&values, output)), "{name}");
    }
}

fn runs(name: &str, circuit: &[u8], inputs: &[u8], expected: &[u8], targets: &[u8]) {
    let work = vec![0; model::circuit::read(circuit).expect("it reads back").work];
    let flipped: Vec<u8> = targets.iter().zip(expected).map(|(line, bit)| line ^ bit).collect();
    let start = [inputs, targets, &work].concat();
    assert_eq!(after(circuit, &start), [inputs, &flipped, &work].concat(), "{name}, run");
}
