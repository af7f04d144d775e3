//! From a program file to the lines after a run, through the archive alone: compiled, read back and
//! run, and held to what evaluation answers, after the shares of the first j outputs for every j.
//! And what the program `end_to_end_case` wrote of such runs, held to the model.

use agreement::compare::compile::{archive, random_list, Case};
use agreement::compare::evaluate;
use agreement::compare::run::after as run;
use agreement::drawn::{self, read, starts};
use agreement::lent::lent;
use agreement::program::Program;
use agreement::random::Random;
use agreement::seen::Seen;
use agreement::{hex, limits, repository, shaped};
use model::circuit::{Circuit, Gate};
use model::construct;

/// Where a circuit file says how long its gates are, and where they start.
const GATES_LENGTH: usize = 18;
const GATES_START: usize = 28;
const GATE_LENGTH: usize = 8;

/// A program, the file that the archive compiled it to, and the circuit as it reads back.
struct Compiled {
    program: Program,
    file: Vec<u8>,
    circuit: Circuit,
    /// How many gates the shares of the first j outputs have, for j from 0 to m.
    shares: Vec<usize>,
}

impl Compiled {
    fn describe(&self) -> String {
        format!("program of {}", hex(&self.program.bytes()))
    }

    /// The file of these gates, from one number to another, under the same head.
    fn part(&self, from: usize, to: usize) -> Vec<u8> {
        let at = |gate: usize| GATES_START + GATE_LENGTH * gate;
        let mut file = self.file[..GATES_START].to_vec();
        let length = (GATE_LENGTH * (to - from)) as u32;
        file[GATES_LENGTH..GATES_LENGTH + 4].copy_from_slice(&length.to_le_bytes());
        file.extend(&self.file[at(from)..at(to)]);
        file
    }

    fn inputs(&self) -> usize {
        self.circuit.inputs
    }

    fn first_work_line(&self) -> usize {
        self.circuit.inputs + self.circuit.outputs
    }
}

/// Compiles with a grant and an area that are enough or more, and random content in both areas.
fn compiled(random: &mut Random, program: Program) -> Compiled {
    let nodes = read(&program).nodes;
    let work = construct::most_work_lines(&read(&program));
    let counts = program.outputs.iter().map(|i| construct::share_gate_count(&nodes, (*i).into()));
    let mut shares = vec![0];
    for count in counts {
        shares.push(shares[shares.len() - 1] + count);
    }
    let needed = GATES_START + GATE_LENGTH * shares[shares.len() - 1];

    let grant = random.pick(&[work, work, 1_024]) as u64;
    let sizes = random_list(random, nodes.len());
    let length = needed + random.pick(&[0, 0, 1, 64]);
    let area = random.bytes(length);
    let (outcome, _, mut file) = archive(&Case { file: program.bytes(), grant, sizes, area });
    file.truncate(outcome.expect("there is room for every gate and line"));
    let circuit = model::circuit::read(&file).expect("what was compiled reads back");
    let gates = shares[shares.len() - 1];
    let (inputs, outputs) = (program.inputs.into(), program.outputs.len());
    let head = oracle::CircuitHead { inputs, outputs, work, gates };
    assert_eq!(oracle::read_circuit(&file), Ok(head));
    let compiled = Compiled { program, file, circuit, shares };
    assert_eq!(compiled.file.len(), needed, "{}", compiled.describe());
    assert_eq!(compiled.circuit.work, work, "{}", compiled.describe());
    compiled
}

/// Prints the runs, and fails where values or work lines say nothing.
fn finish(seen: &Seen, written: u64, name: &str) {
    seen.print(name);
    println!("{name}: {written} shares write work lines");
    assert!(seen.values.iter().all(|count| *count > 0), "values of one kind only");
    assert!(written > 0, "no work line was written");
}

/// What 01 says of the lines after the shares of the first j outputs: for every start the inputs,
/// the work lines and the later targets are as they were, and where the work lines started at
/// zero, each earlier target has its output's value in it.
fn check_lines(compiled: &Compiled, j: usize, (start, after): (&[u8], &[u8]), values: &[u8]) {
    let (inputs, work) = (compiled.inputs(), compiled.first_work_line());
    let mut expected = start.to_vec();
    if start[work..].contains(&1) {
        expected[inputs..inputs + j].copy_from_slice(&after[inputs..inputs + j]);
    } else {
        for (k, value) in values[..j].iter().enumerate() {
            expected[inputs + k] ^= value;
        }
    }
    assert_eq!(after, expected, "{j} shares from {start:?}, {}", compiled.describe());
}

/// Runs from one start: the first j shares for every j, and each share from where the ones before
/// left the lines; then the file itself, and back.
fn check_start(seen: &mut Seen, compiled: &Compiled, start: &[u8]) {
    let outputs = compiled.circuit.outputs;
    let inputs = &start[..compiled.inputs()];
    let values = evaluate::outputs(&compiled.program.bytes(), inputs, outputs);
    let mut before = start.to_vec();
    for j in 0..=outputs {
        let after = run(&compiled.part(0, compiled.shares[j]), start);
        check_lines(compiled, j, (start, &after), &values);
        if j > 0 {
            let share = compiled.part(compiled.shares[j - 1], compiled.shares[j]);
            let expected = run(&share, &before);
            assert_eq!(after, expected, "share {j} from {before:?}, {}", compiled.describe());
        }
        before = after;
    }

    assert_eq!(compiled.part(0, compiled.shares[outputs]), compiled.file, "the last j");
    let (outcome, back) = lent(&before, |lines| oracle::run_backwards(&compiled.file, lines));
    assert_eq!((outcome, &back[..]), (Ok(()), start), "backwards, {}", compiled.describe());

    // The model runs the same file to the same lines, the targets of dirty starts included.
    let mut expected = start.to_vec();
    assert_eq!(model::run::forwards(&compiled.file, &mut expected), Ok(()));
    assert_eq!(before, expected, "the archive, then the model, {}", compiled.describe());

    seen.runs(outputs as u64 + 1, &start[compiled.first_work_line()..], &values);
}

/// A program from its file to the lines, from many starts. Gives the number of shares with a gate on
/// a work line, so that there was something to clean.
fn holds(random: &mut Random, seen: &mut Seen, program: Program) -> u64 {
    let compiled = compiled(random, program);
    let circuit = &compiled.circuit;
    seen.program(&read(&compiled.program), circuit.gates.len(), circuit.work);
    for start in starts(random, circuit) {
        check_start(seen, &compiled, &start);
    }

    let work = compiled.first_work_line();
    let writes_work = |gate: &Gate| gate.target() >= work;
    let written = |share: &&[usize]| circuit.gates[share[0]..share[1]].iter().any(writes_work);
    compiled.shares.windows(2).filter(written).count() as u64
}

/// Several programs, each from its file to the lines.
fn all_hold(name: &str, seed: u64, programs: &[Program]) -> Seen {
    let mut random = Random::new(seed);
    let mut seen = Seen::default();
    let written =
        programs.iter().map(|program| holds(&mut random, &mut seen, program.clone())).sum();
    finish(&seen, written, name);
    seen
}

/// So many drawn programs; and how many of their shares write work lines.
fn drawn_hold(
    name: &str,
    seed: u64,
    programs: usize,
    draw: fn(&mut Random) -> Program,
) -> (Seen, u64) {
    let mut random = Random::new(seed);
    let mut seen = Seen::default();
    let mut written = 0;
    for _ in 0..programs {
        let program = draw(&mut random);
        written += holds(&mut random, &mut seen, program);
    }
    finish(&seen, written, name);
    (seen, written)
}

#[test]
fn the_examples() {
    let mut examples = vec![
        shaped::program::whole_case(),
        shaped::program::nor(),
        shaped::program::and_of_three(),
        shaped::program::and_of_four(),
        shaped::program::xor_with_itself(),
        shaped::program::output_zero(),
    ];
    examples.extend(shaped::operands::all().into_iter().map(|example| example.program));
    examples.extend(shaped::marks::all().into_iter().map(|example| example.program));
    all_hold("end to end, examples", 0x6578_616d, &examples);
}

/// 01's words on the whole case, and 02's: from inputs 1 1 and target 1 the target ends 0. With a work
/// line starting at 1, line 4 of the three-input case, it stays 1, and the line ends 1.
#[test]
fn two_examples_from_their_starts() {
    let mut random = Random::new(0x7477_6f73);
    let whole = compiled(&mut random, shaped::program::whole_case());
    assert_eq!(run(&whole.file, &[1, 1, 1]), [1, 1, 0]);
    let three = compiled(&mut random, shaped::program::and_of_three());
    assert_eq!(run(&three.file, &[1, 1, 1, 1, 0]), [1, 1, 1, 0, 0]);
    assert_eq!(run(&three.file, &[1, 1, 1, 1, 1]), [1, 1, 1, 1, 1]);
}

/// The lines of the AND of three inputs as digits, with a blank before the target and the work line.
fn shown(lines: &[u8]) -> String {
    let blank = |line: usize| if [3, 4].contains(&line) { " " } else { "" };
    lines.iter().enumerate().map(|(line, bit)| format!("{}{bit}", blank(line))).collect()
}

/// A call on the AND of three inputs as the model has it: the lines before, the answer, the lines
/// after.
fn compiled_and_run(start: &[u8]) -> String {
    let file = shaped::program::and_of_three().bytes();
    let (mut sizes, mut area, mut lines) = ([0; 5], [0; 52], start.to_vec());
    let answer = model::compile::compile(&file, 1_024, &mut sizes, &mut area)
        .and_then(|length| model::run::forwards(&area[..length], &mut lines));
    let answer = match answer {
        Ok(()) => "done".to_string(),
        Err(refusal) => format!("refused {} {}", refusal.number, refusal.place),
    };
    format!("before {}\n{answer}\nafter  {}\n", shown(start), shown(&lines))
}

/// What the program `end_to_end_case`, which calls `compile_and_run`, wrote: from starts with the
/// work lines zero and not, and from one with a line missing.
#[test]
fn the_case_of_proved_code() {
    let starts: [&[u8]; 6] = [
        &[1, 1, 1, 0, 0],
        &[1, 1, 1, 1, 0],
        &[1, 0, 1, 1, 0],
        &[1, 1, 1, 0, 1],
        &[0, 0, 1, 0, 1],
        &[1, 1, 1, 0],
    ];
    let expected: String = starts.into_iter().map(compiled_and_run).collect();
    let text = repository::text("crates/end_to_end_case/stdout");
    assert_eq!(text, expected, "the proved code, then the model");
}

/// As wide, as long and as deep as a file can be: nobody can try all the starts.
#[test]
fn at_the_limits() {
    let seen = all_hold("end to end, limits", 0x7769_6465, &limits::accepted());
    assert_eq!((seen.most_lines, seen.most_gates), (1_152, 8_000));
}

#[test]
fn random_programs() {
    let (seen, written) = drawn_hold("end to end", 0x656e_6432, 3_000, drawn::accepted);
    assert!(seen.runs_from_zero > 100_000 && seen.other_runs > 50_000, "too few runs");
    assert!(seen.values.iter().all(|count| *count > 20_000), "too few values of one kind");
    assert!(seen.most_lines > 1_000 && seen.most_gates > 7_000, "no large circuit");
    assert!(written > 10_000, "too few shares with work lines");
    seen.ands.finish(200);
    seen.marks.finish(200);
}

/// Marks at some or all of the ANDs, in most programs one above another.
#[test]
fn random_markings() {
    let (seen, _) = drawn_hold("end to end, marks", 0x6d61_726b, 2_000, drawn::marked);
    assert!(seen.runs_from_zero > 50_000 && seen.other_runs > 50_000, "too few runs");
    assert!(seen.values.iter().all(|count| *count > 10_000), "too few values of one kind");
    seen.marks.finish(300);
}
