//! The construction: the model's circuits as files that the archive reads and runs, held to what
//! the archive's evaluation answers.

use agreement::compare::read::{head_of, CIRCUIT};
use agreement::compare::run::after as run;
use agreement::compare::{evaluate, undo};
use agreement::drawn::{self, read, starts};
use agreement::program::Program;
use agreement::random::Random;
use agreement::seen::Seen;
use agreement::{bits, hex, limits, repository, shaped};
use model::circuit::{self, Circuit, Gate};
use model::construct;
use model::program::Node::{self, And, Input, MarkedAnd, Not, One, Xor, Zero};

/// Prints the run, and fails unless it met enough of everything.
fn finish(seen: &Seen, name: &str, at_least: u64) {
    seen.print(name);
    assert!(seen.programs >= at_least, "too few programs");
    assert!(seen.with_shared_nodes >= at_least / 10, "too few shared nodes");
    assert!(seen.with_64_inputs_and_64_outputs >= at_least / 100, "too few wide programs");
    assert!(seen.most_gates > 7_000, "no circuit with many gates");
    assert!(seen.most_work_lines > 1_000, "no circuit with many work lines");
    assert!(seen.largest_size > 5_000, "no large node");
    assert!(seen.deepest > 3_000, "no deep node");
    seen.ands.finish(at_least / 20);
    seen.marks.finish(at_least / 20);
}

/// Holds the lines after the shares of the first j outputs, for every j, to what 01 says of them.
fn holds(random: &mut Random, seen: &mut Seen, program: &Program) {
    let file = program.bytes();
    let program = read(program);
    let whole = construct::circuit(&program);
    seen.program(&program, whole.gates.len(), whole.work);
    let runs: Vec<Run> = starts(random, &whole)
        .into_iter()
        .map(|start| Run {
            values: evaluate::outputs(&file, &start[..whole.inputs], whole.outputs),
            start,
        })
        .collect();
    for j in 0..=whole.outputs {
        let first = Circuit { gates: construct::shares(&program, j), ..whole };
        assert!(whole.gates.starts_with(&first.gates), "{j} shares of {}", hex(&file));
        assert!(j < whole.outputs || first == whole, "all shares of {}", hex(&file));
        holds_after(seen, &first, j, &runs);
    }
}

/// A start, and the outputs' values on its inputs.
struct Run {
    start: Vec<u8>,
    values: Vec<u8>,
}

/// The same of one j, whose shares are the gates of this circuit.
fn holds_after(seen: &mut Seen, circuit: &Circuit, j: usize, runs: &[Run]) {
    let file = circuit::write(circuit);
    assert_eq!(CIRCUIT.archive(&file), Ok(head_of(circuit)), "{}", hex(&file));
    let first_work_line = circuit.inputs + circuit.outputs;
    for Run { start, values } in runs {
        let after = run(&file, start);
        let mut expected = start.clone();
        let targets = circuit.inputs..circuit.inputs + j;
        seen.runs(1, &start[first_work_line..], &values[..j]);
        if start[first_work_line..].contains(&1) {
            // Of a start like this, nothing is said of the targets.
            expected[targets.clone()].copy_from_slice(&after[targets]);
        } else {
            expected[targets].iter_mut().zip(values).for_each(|(line, value)| *line ^= value);
        }
        assert_eq!(after, expected, "{j} shares from {start:?}, circuit of {}", hex(&file));
    }
}

/// Circuits as large as a file holds them, and the largest node.
#[test]
fn at_the_limits() {
    let mut random = Random::new(0x6c69_6d69);
    let mut seen = Seen::default();
    let mut check = |name: &str, program: Program, gates: usize, work: usize, size: usize| {
        let circuit = construct::circuit(&read(&program));
        let node = usize::from(program.outputs[0]);
        assert_eq!((circuit.gates.len(), circuit.work), (gates, work), "{name}");
        assert_eq!(construct::size(&read(&program).nodes, node), size, "{name}");
        holds(&mut random, &mut seen, &program);
    };

    check("8,000 gates", limits::most_gates(), 8_000, 0, 15_999);
    check("64 outputs", limits::most_outputs(), 8_000, 62, 127);
    for input_first in [false, true] {
        check("1,024 work lines", limits::ands(1_025, input_first), 2_049, 1_024, 2_051);
    }
    check("two work lines an AND", limits::ands_of_nots(512), 3_075, 1_024, 1_538);
    check("4,095 NOTs", limits::deepest(), 4_096, 0, 4_096);
    check("8,000 gates by marks", limits::of_marked_gates(&[8_000]), 8_000, 10, 127);
    check("a mark above 1,024 work lines", limits::lines_taken_twice(), 7_994, 999, 4_003);

    let mut chain = shaped::program::xor_chain();
    chain.outputs = vec![14];
    chain.output_count = 1;
    check("the largest size", chain, 1, 0, 16_384);

    assert!(seen.values.iter().all(|count| *count > 0), "values of one kind only");
}

#[test]
fn random_programs_run() {
    let mut random = Random::new(0x6275_696c);
    let mut seen = Seen::default();
    for _ in 0..4_000 {
        let program = drawn::accepted(&mut random);
        holds(&mut random, &mut seen, &program);
    }
    finish(&seen, "construct, run", 4_000);
    assert!(seen.runs_from_zero > 20_000 && seen.other_runs > 20_000, "too few runs");
    assert!(seen.values.iter().all(|count| *count > 20_000), "too few values of one kind");
}

/// The lines that a gate reads.
fn controls(gate: &Gate) -> Vec<usize> {
    match *gate {
        Gate::Not(_) => vec![],
        Gate::Cnot(control, _) => vec![control],
        Gate::Toffoli(control, second, _) => vec![control, second],
    }
}

/// One step of the construction: the gates of a node from those of its operands, the second built
/// on the lines that the first has left free.
fn from_operands(nodes: &[Node], i: usize, t: usize, f: usize) -> Vec<Gate> {
    let build = |i, t, f| construct::build(nodes, i, t, f);
    match nodes[i] {
        Zero => vec![],
        One => vec![Gate::Not(t)],
        Input(j) => vec![Gate::Cnot(j, t)],
        Not(a) => [vec![Gate::Not(t)], build(a, t, f)].concat(),
        Xor(a, b) => {
            let kept = construct::line_counts(nodes)[a].kept;
            [build(a, t, f), build(b, t, f + kept)].concat()
        }
        And(a, b) | MarkedAnd(a, b) => {
            let (operands, last) = of_and(nodes, (a, b), t, f);
            let undone = operands.iter().rev().copied();
            let undone = undone.filter(|_| matches!(nodes[i], MarkedAnd(..))).collect();
            [operands.clone(), vec![last], undone].concat()
        }
    }
}

/// The gates of both operands of an AND, and its own.
fn of_and(nodes: &[Node], (a, b): (usize, usize), t: usize, f: usize) -> (Vec<Gate>, Gate) {
    let kept = construct::line_counts(nodes);
    // The line of an operand, its gates, and the lowest line that is then free.
    let control = |operand: usize, f: usize| match nodes[operand] {
        Input(j) => (j, vec![], f),
        _ => (f, construct::build(nodes, operand, f, f + 1), f + 1 + kept[operand].kept),
    };
    let (first, of_first, free) = control(a, f);
    let (second, of_second, _) = control(b, free);
    let last = if first == second {
        Gate::Cnot(first, t)
    } else {
        Gate::Toffoli(first.min(second), first.max(second), t)
    };
    ([of_first, of_second].concat(), last)
}

/// The file that the archive's undoing writes of these gates with the target chosen.
fn undone(circuit: &Circuit, gates: &[Gate], target: usize) -> Vec<u8> {
    let file = circuit::write(&Circuit { gates: gates.to_vec(), ..*circuit });
    let mut choices = vec![0; circuit.lines()];
    choices[target] = 1;
    undo::written(&file, &choices)
}

/// How many shares reached the bounds that the size gives.
#[derive(Default)]
struct Reached {
    lines: u64,
    gates: u64,
}

/// The gates of each output, the numbers that are told of them, and the bounds by the size.
#[test]
fn gates_of_random_programs() {
    let mut random = Random::new(0x6e75_6d62);
    let mut seen = Seen::default();
    let mut reached = Reached::default();
    for _ in 0..4_000 {
        let program = read(&drawn::accepted(&mut random));
        let circuit = construct::circuit(&program);
        seen.program(&program, circuit.gates.len(), circuit.work);
        let shares = (0..program.outputs.len())
            .flat_map(|k| checked_share(&mut reached, &program, &circuit, k));
        let gates: Vec<Gate> = shares.collect();
        assert_eq!(circuit.gates, gates, "{program:?}");
        let lines = |i: &usize| construct::work_lines(&program.nodes, *i);
        assert_eq!(Some(circuit.work), program.outputs.iter().map(lines).max(), "{program:?}");
    }
    finish(&seen, "construct, gates", 4_000);
    println!(
        "construct, gates: size - 1 work lines in {} shares, 2 size - 1 gates in {}",
        reached.lines, reached.gates
    );
    assert!(reached.lines > 100 && reached.gates > 100, "the bounds were hardly reached");
}

/// The share of output k, whose gates and numbers are as they should be.
fn checked_share(
    reached: &mut Reached,
    program: &model::program::Program,
    circuit: &Circuit,
    k: usize,
) -> Vec<Gate> {
    let (nodes, i) = (&program.nodes, program.outputs[k]);
    let target = program.inputs + k;
    let first_work_line = program.inputs + program.outputs.len();
    let build = construct::build(nodes, i, target, first_work_line);
    let share = construct::share(program, k);
    let own = build.iter().filter(|gate| gate.target() == target).count();
    assert_eq!(build.len(), construct::gate_count(nodes, i), "{program:?}");
    assert_eq!(own, construct::own_gate_count(nodes, i), "{program:?}");
    assert_eq!(share.len(), construct::share_gate_count(nodes, i), "{program:?}");
    assert_eq!(share[..build.len()], build, "{program:?}");
    let expected = from_operands(nodes, i, target, first_work_line);
    assert_eq!(build, expected, "output {k} and its operands, {program:?}");
    let rest = Circuit { gates: share[build.len()..].to_vec(), ..*circuit };
    let expected = undone(circuit, &build, target);
    assert_eq!(circuit::write(&rest), expected, "output {k} undone, {program:?}");
    check_lines(program, k, &build, &share);
    check_bounds(reached, program, i, &share);
    share
}

/// The lines taken are the lowest ones, and no other line but an input is a control. Without marks
/// each is the control of one gate that builds, so each operand of AND that is no input has a line of
/// its own.
fn check_lines(program: &model::program::Program, k: usize, build: &[Gate], share: &[Gate]) {
    let mut taken: Vec<usize> =
        build.iter().flat_map(controls).filter(|line| *line >= program.inputs).collect();
    taken.sort_unstable();
    if has_marks(program) {
        taken.dedup();
    }
    let first = program.inputs + program.outputs.len();
    let lowest = first..first + construct::work_lines(&program.nodes, program.outputs[k]);
    assert!(taken.into_iter().eq(lowest.clone()), "the lines taken, {program:?}");
    for gate in share {
        let written = gate.target();
        let own = written == program.inputs + k;
        assert!(own || lowest.contains(&written), "{gate:?}, {program:?}");
    }
}

fn has_marks(program: &model::program::Program) -> bool {
    program.nodes.iter().any(|node| matches!(node, MarkedAnd(..)))
}

/// The bound of gates is for programs without marks.
fn check_bounds(
    reached: &mut Reached,
    program: &model::program::Program,
    i: usize,
    share: &[Gate],
) {
    let (size, gates) = (construct::size(&program.nodes, i), share.len());
    let work = construct::work_lines(&program.nodes, i);
    assert_eq!(size, construct::sizes(&program.nodes)[i], "{program:?}");
    assert!(work < size, "{work} work lines, size {size}, {program:?}");
    reached.lines += u64::from(size > 1 && work == size - 1);
    if !has_marks(program) {
        assert!(gates < 2 * size, "{gates} gates, size {size}, {program:?}");
        reached.gates += u64::from(size > 1 && gates == 2 * size - 1);
    }
}

/// The examples of 01, every kind of operand and every kind of mark, gate by gate as they are written
/// out beside the circuit files.
#[test]
fn the_examples() {
    let check = |name: &str, program: Program, expected: Vec<u8>| {
        let written = circuit::write(&construct::circuit(&read(&program)));
        assert_eq!(written, expected, "{name}");
    };
    check("the whole case", shaped::program::whole_case(), shaped::circuit::WHOLE_CASE.to_vec());
    check("NOR", shaped::program::nor(), shaped::circuit::nor().bytes());
    let three = shaped::program::and_of_three();
    check("AND of three inputs", three, shaped::circuit::and_of_three().bytes());
    for example in shaped::operands::all().into_iter().chain(shaped::marks::all()) {
        check(example.name, example.program, example.circuit.bytes());
    }

    let four = read(&shaped::program::and_of_four());
    let built =
        Circuit { gates: construct::build(&four.nodes, 6, 4, 5), ..construct::circuit(&four) };
    assert_eq!(circuit::write(&built), shaped::circuit::and_of_four_built().bytes());
}

/// The circuit file of the AND of four inputs, as the proved code wrote it, is the model's, and runs
/// as 01 says from every start.
#[test]
fn the_worked_case() {
    let file = repository::read("crates/worked_case/stdout");
    let written = circuit::write(&construct::circuit(&read(&shaped::program::and_of_four())));
    for (at, (byte, expected)) in file.iter().zip(&written).enumerate() {
        assert_eq!(byte, expected, "byte {at}, the proved code, then the model");
    }
    assert_eq!(file.len(), written.len(), "the proved code, then the model");

    let head = oracle::CircuitHead { inputs: 4, outputs: 1, work: 2, gates: 5 };
    assert_eq!(oracle::read_circuit(&file), Ok(head));
    let mut from_zero = 0;
    for state in 0..1 << 7 {
        let start = bits(state, 7);
        let after = run(&file, &start);
        let mut expected = start.clone();
        assert_eq!(model::run::forwards(&file, &mut expected), Ok(()));
        assert_eq!(after, expected, "the archive, then the model, from {start:?}");

        assert_eq!(after[..4], start[..4], "the inputs, from {start:?}");
        assert_eq!(after[5..], start[5..], "the work lines, from {start:?}");
        if start[5..] == [0; 2] {
            let and = start[0] & start[1] & start[2] & start[3];
            assert_eq!(after[4], start[4] ^ and, "the target, from {start:?}");
            from_zero += 1;
        }
    }
    println!("construct: the worked case from 128 starts, {from_zero} with the work lines zero");
    assert_eq!(from_zero, 32);
}
