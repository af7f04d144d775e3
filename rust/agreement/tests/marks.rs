//! Marks, across the services: what a mark changes, what it leaves as it was, and what each line that
//! it frees holds.

use agreement::compare::compile::{self, written};
use agreement::compare::read::PROGRAM;
use agreement::compare::{evaluate, quote, words, MOST_BYTES};
use agreement::program::{and, input, marked, not, xor, Node, Program, ONE, ZERO};
use agreement::random::Random;
use agreement::tally::Tally;
use agreement::{bits, drawn, hex, limits, shaped};
use model::circuit::Circuit;
use model::construct::{self, Cleaned};
use model::run::step;
use oracle::{ANSWER_ENTRY, COUNT_ENTRY};

/// Enough for every circuit.
const GRANT: u64 = 1_024;

/// The circuit that the archive compiles a program to.
fn compiled(program: &Program) -> Circuit {
    let file = program.bytes();
    let circuit = written(&file, GRANT);
    let circuit = circuit.unwrap_or_else(|refusal| panic!("{refusal:?}, {}", hex(&file)));
    model::circuit::read(&circuit).expect("what was compiled reads back")
}

/// Where the model has the marked ANDs of all outputs, their gates counted from the circuit's first.
fn marked_ands(program: &Program) -> Vec<Cleaned> {
    let program = drawn::read(program);
    let mut first = 0;
    let mut all = Vec::new();
    for k in 0..program.outputs.len() {
        all.extend(construct::cleaned(&program, k).into_iter().map(|Cleaned { gates, freed }| {
            Cleaned { gates: first + gates.start..first + gates.end, freed }
        }));
        first += construct::share(&program, k).len();
    }
    all
}

/// What a test of freed lines has met.
#[derive(Debug, Default)]
struct Freed {
    ands: u64,
    lines: u64,
    /// Lines that were not as before when the AND's own gate ran.
    changed: u64,
    /// The same from starts with a work line at 1.
    changed_from_others: u64,
}

/// Runs a circuit from a start. At each marked AND, every line that it frees holds after its last gate
/// what it held before its first, and so does every other line but the AND's target.
fn frees_lines_as_they_were(seen: &mut Freed, circuit: &Circuit, ands: &[Cleaned], start: &[u8]) {
    // The lines before each gate, and after the last.
    let mut states = vec![start.to_vec()];
    for gate in &circuit.gates {
        let mut lines = states[states.len() - 1].clone();
        step(*gate, &mut lines);
        states.push(lines);
    }
    let from_zero = !start[circuit.inputs + circuit.outputs..].contains(&1);
    for Cleaned { gates, freed } in ands {
        let own = (gates.start + gates.end) / 2;
        let (before, after) = (&states[gates.start], &states[gates.end]);
        for line in freed {
            assert_eq!(before[*line], after[*line], "line {line}, gates {gates:?} of {circuit:?}");
            let changed = u64::from(states[own][*line] != before[*line]);
            seen.changed += if from_zero { changed } else { 0 };
            seen.changed_from_others += if from_zero { 0 } else { changed };
        }
        let target = circuit.gates[own].target();
        let kept = |line: usize| line == target || before[line] == after[line];
        assert!((0..before.len()).all(kept), "gates {gates:?} of {circuit:?} from {start:?}");
        seen.ands += 1;
        seen.lines += freed.len() as u64;
    }
}

/// A few starts with the work lines zero, and a few with any.
fn random_starts(random: &mut Random, circuit: &Circuit) -> Vec<Vec<u8>> {
    let first_work_line = circuit.inputs + circuit.outputs;
    let mut starts: Vec<Vec<u8>> = (0..4).map(|_| random.bits(circuit.lines())).collect();
    starts.iter_mut().take(2).for_each(|start| start[first_work_line..].fill(0));
    starts
}

#[test]
fn freed_lines_hold_what_they_held() {
    let mut random = Random::new(0x6672_6565);
    let mut seen = Freed::default();
    let examples = shaped::marks::all().into_iter().map(|example| example.program);
    let mut programs: Vec<Program> = examples.collect();
    programs.extend([limits::nested_marks(10), limits::of_marked_gates(&[125; 64])]);
    programs.extend((0..1_500).map(|_| drawn::marked(&mut random)));
    for program in &programs {
        let (circuit, ands) = (compiled(program), marked_ands(program));
        for start in random_starts(&mut random, &circuit) {
            frees_lines_as_they_were(&mut seen, &circuit, &ands, &start);
        }
    }
    println!("marks: {} programs, {seen:?}", programs.len());
    assert!(seen.ands > 20_000 && seen.lines > 20_000, "too few marked ANDs");
    assert!(seen.changed > 5_000 && seen.changed_from_others > 5_000, "too few lines to clean");
}

/// Each marking of small programs, of their first seven ANDs: the archive beside the model, compiled
/// and quoted.
#[test]
fn every_marking_of_random_programs() {
    let mut random = Random::new(0x6d61_726b);
    let mut tally = Tally::new("every marking");
    for _ in 0..400 {
        let program = drawn::leafy(&mut random);
        let ands = program.nodes.iter().filter(|node| node.kind == 5).count();
        for marking in 0..1_u64 << ands.min(7) {
            let mut marks = bits(marking, ands).into_iter();
            let program = program.clone().with_marks(|| marks.next() == Some(1));
            let file = program.bytes();
            tally.count(&quote::compare(&quote::Case::new(
                &file,
                COUNT_ENTRY * program.nodes.len(),
                ANSWER_ENTRY * program.outputs.len(),
            )));
            let (nodes, length) = (program.nodes.len(), MOST_BYTES);
            tally.count(&compile::compare(&compile::Case::new(&file, GRANT, nodes, length)));
        }
    }
    tally.finish(20_000, &[]);
}

/// Marks change no value, no size and no number that reading gives: of each node, on any inputs.
#[test]
fn values_and_sizes_do_not_look_at_marks() {
    let mut random = Random::new(0x7661_6c75);
    let mut with_marks = 0;
    for _ in 0..2_000 {
        let some = agreement::program::valid(&mut random).with_marks(|| random.once_in(2));
        let none = some.clone().with_marks(|| false);
        with_marks += u64::from(some.bytes() != none.bytes());
        let (some, none) = (some.bytes(), none.bytes());
        let head = PROGRAM.archive(&none).expect("a good program");
        assert_eq!(PROGRAM.archive(&some), Ok(head), "{}", hex(&some));

        let inputs = random.bits(head.inputs);
        let evaluated = |file: &[u8]| {
            let (file, values) = (file.to_vec(), vec![9; head.count]);
            evaluate::archive(&evaluate::Case { file, values, inputs: inputs.clone(), output: 0 })
        };
        assert!(evaluated(&none).0.is_ok(), "{}", hex(&none));
        assert_eq!(evaluated(&some), evaluated(&none), "{}", hex(&some));

        let sizes = |file: &[u8]| {
            let (_, sizes, _) = compile::archive(&compile::Case::new(file, GRANT, head.count, 0));
            sizes
        };
        assert_eq!(sizes(&some), sizes(&none), "{}", hex(&some));
    }
    println!("marks: {with_marks} programs with marks evaluated");
    assert!(with_marks > 1_000, "too few programs with marks");
}

/// What the services but reading answer to a program: its circuit and its quote.
fn answers(program: &Program) -> (Vec<u8>, Vec<[u64; 3]>) {
    let file = program.bytes();
    (written(&file, GRANT).expect("it compiles"), quote::numbers(&file))
}

/// A mark on an AND of two inputs, or of one twice, undoes nothing and frees nothing.
#[test]
fn marks_on_ands_of_inputs_change_nothing() {
    let inputs = [input(0), input(1), input(2), input(1), input(0)];
    let operands = (0..5).flat_map(|a| (0..5).map(move |b| (a, b)));
    for (a, b) in operands {
        let above: [&[Node]; 4] = [&[], &[not(5)], &[xor(5, 5)], &[and(5, 2), not(6), and(7, 5)]];
        for more in above {
            let of = |lowest: Node| {
                let nodes = [&inputs[..], &[lowest], more].concat();
                Program::new(3, &nodes, &[nodes.len() as u16 - 1, 5])
            };
            assert_eq!(answers(&of(marked(a, b))), answers(&of(and(a, b))), "{a} {b} {more:?}");
        }
    }

    let mut random = Random::new(0x696e_7075);
    let mut marks = 0;
    for _ in 0..1_000 {
        let unmarked = drawn::any(&mut random).with_marks(|| false);
        let program = drawn::fitted(&mut random, unmarked);
        let mut with = program.clone();
        let is_input = |i: u16| program.nodes[usize::from(i)].kind == 2;
        for node in with.nodes.iter_mut().filter(|node| node.kind == 5) {
            if is_input(node.a) && is_input(node.b) {
                node.mark = 1;
                marks += 1;
            }
        }
        assert!(answers(&with) == answers(&program), "{}", hex(&with.bytes()));
    }
    println!("marks: {marks} on ANDs of inputs");
    assert!(marks > 500, "too few ANDs of inputs");
}

/// A mark more at any AND takes no more lines and no fewer gates or Toffolis, of any output.
#[test]
fn a_mark_more_takes_no_more_lines_and_no_fewer_gates() {
    let mut random = Random::new(0x6d6f_7265);
    let (mut fewer_lines, mut more_gates) = (0, 0);
    for _ in 0..2_000 {
        let program = drawn::marked(&mut random);
        let ands: Vec<usize> =
            (0..program.nodes.len()).filter(|i| program.nodes[*i].kind == 5).collect();
        if ands.is_empty() {
            continue;
        }
        let (mut with, mut without) = (program.clone(), program);
        let and = random.pick(&ands);
        (with.nodes[and].mark, without.nodes[and].mark) = (1, 0);
        let (with, without) = (with.bytes(), without.bytes());
        for (after, before) in quote::numbers(&with).iter().zip(quote::numbers(&without)) {
            assert!(after[2] <= before[2], "lines, {}", hex(&with));
            assert!(after[0] >= before[0] && after[1] >= before[1], "gates, {}", hex(&with));
            fewer_lines += u64::from(after[2] < before[2]);
            more_gates += u64::from(after[0] > before[0]);
        }
    }
    println!("marks: one more saves lines {fewer_lines} times, and costs gates {more_gates} times");
    assert!(fewer_lines > 100 && more_gates > 500, "too few marks that change something");
}

/// Every byte as the mark of a node of every kind, as the second of four nodes: 1 on an AND is good,
/// and all others but 0 are refused with 5 at that node by every service, which leaves every area.
#[test]
fn every_mark_of_every_kind() {
    let kinds = [ZERO, ONE, input(0), not(0), xor(0, 0), and(0, 0)];
    let mut tally = Tally::new("every mark");
    for kind in kinds {
        for mark in 0..=255 {
            let nodes = [ONE, kind.with_mark(mark), marked(0, 1), and(2, 1).with_mark(3)];
            let good = mark == 0 || (kind.kind, mark) == (5, 1);
            let file = |count: usize| Program::new(1, &nodes[..count], &[0]).bytes();
            let expected = if good { Ok(()) } else { Err((5, 1)) };
            assert_eq!(PROGRAM.compare(&file(3)).map(|_| ()), expected, "{kind:?} {mark}");
            tally.count(&all_services(&file(3), expected));
            // With a bad mark behind it, the lowest node is the one named.
            let expected = if good { Err((5, 3)) } else { Err((5, 1)) };
            tally.count(&all_services(&file(4), expected));
        }
    }
    tally.finish(6 * 256 * 2, &[5]);
}

/// Compares both sides on a file of one input, and fails unless each service refuses it so, or gives a
/// result if there is nothing to refuse.
fn all_services(file: &[u8], expected: Result<(), (u64, u64)>) -> Result<(), (u64, u64)> {
    let area = MOST_BYTES;
    let compiled = compile::compare(&compile::Case::new(file, GRANT, 4, area)).map(|_| ());
    let quoted = quote::compare(&quote::Case::new(file, 4 * COUNT_ENTRY, ANSWER_ENTRY));
    let (values, inputs) = (vec![9; 4], vec![1]);
    let case = evaluate::Case { file: file.to_vec(), values, inputs, output: 0 };
    let evaluated = evaluate::compare(&case).map(|_| ());
    let (values, inputs) = (vec![9; 4], vec![0b10]);
    let case = words::Case { file: file.to_vec(), values, inputs, output: 0 };
    let by_words = words::compare(&case).map(|_| ());
    for outcome in [compiled, quoted.map(|_| ()), evaluated, by_words] {
        assert_eq!(outcome, expected, "{}", hex(file));
    }
    expected
}
