//! The cases of the listing program: data files in `crates/`, their names in the order in which
//! they are listed, and the text that is printed for them. `cargo run -p agreement --bin
//! listing_cases` writes them all anew.
//!
//! A grant of 1,024 is never too high and a list of 4,096 entries never too short, so causes 9 and
//! 7 have no case.

use std::path::PathBuf;

use crate::program::{and, input, node, not, xor, Node, Program, ONE, ZERO};
use crate::{limits, shaped};

/// The grant of the listing program.
pub const GRANT: u64 = 1_024;

/// How many bytes of its input the listing program reads.
pub const MOST_INPUT: usize = 32_768;

/// A case: a data file, and the first line that is printed for it, as 01 gives it.
pub struct Case {
    /// The name of the data file.
    pub name: &'static str,
    /// The data file.
    pub file: Vec<u8>,
    /// The first line, without its newline.
    pub first_line: &'static str,
}

/// Every case, in the order in which they are listed.
pub fn all() -> Vec<Case> {
    [refused_by_the_reader(), examples(), marks(), sizes(), limits(), long_inputs()]
        .into_iter()
        .flatten()
        .collect()
}

/// The text that is printed for all cases, one after the other.
pub fn text() -> String {
    all().iter().map(|case| model::listing::listing(&case.file, GRANT)).collect()
}

/// Every file of the cases, from the repository's folder, and its content.
pub fn files() -> Vec<(PathBuf, Vec<u8>)> {
    let folder = PathBuf::from("crates/listing_cases");
    let mut files: Vec<(PathBuf, Vec<u8>)> =
        all().into_iter().map(|case| (folder.join("data").join(case.name), case.file)).collect();
    let args: String = all().iter().map(|case| format!("{}\n", case.name)).collect();
    files.push((folder.join("args"), args.into_bytes()));
    files.push((folder.join("stdout"), text().into_bytes()));

    let folder = PathBuf::from("crates/listing");
    let whole_case = model::listing::listing(&shaped::program::WHOLE_CASE, GRANT);
    files.push((folder.join("stdin"), shaped::program::WHOLE_CASE.to_vec()));
    files.push((folder.join("stdout"), whole_case.into_bytes()));
    files
}

fn case(name: &'static str, file: Vec<u8>, first_line: &'static str) -> Case {
    Case { name, file, first_line }
}

fn refused_by_the_reader() -> Vec<Case> {
    let whole_case = |bytes: usize| shaped::program::WHOLE_CASE[..bytes].to_vec();
    let mut wrong_tag = shaped::program::whole_case().layout();
    wrong_tag.entries[2].tag = 4;
    let no_nodes = Program::new(2, &[], &[2]);
    let inputs_65 = Program::new(65, &[input(64)], &[0]);
    let bad_node = Program::new(2, &[input(0), input(1), and(0, 2), node(6, 0, 0)], &[2]);
    let of_two = |node: Node| Program::new(2, &[input(0), input(1), node], &[2]);
    let mark_on_xor = of_two(xor(0, 1).with_mark(1));
    let mark_2 = of_two(and(0, 1).with_mark(2));
    let bad_output = Program::new(2, &[input(0), input(1), and(0, 1)], &[2, 3]);
    vec![
        case("empty", vec![], "refused 1 0"),
        case("table_cut_short", whole_case(31), "refused 1 0"),
        case("wrong_tag", wrong_tag.bytes(), "refused 2 0"),
        case("last_byte_missing", whole_case(55), "refused 2 0"),
        case("no_nodes", no_nodes.bytes(), "refused 3 0"),
        case("inputs_65", inputs_65.bytes(), "refused 4 0"),
        case("bad_node", bad_node.bytes(), "refused 5 2"),
        case("mark_on_xor", mark_on_xor.bytes(), "refused 5 2"),
        case("mark_2", mark_2.bytes(), "refused 5 2"),
        case("bad_output", bad_output.bytes(), "refused 6 1"),
    ]
}

fn examples() -> Vec<Case> {
    let three_outputs = Program::new(1, &[input(0), ONE, and(0, 1), and(2, 0)], &[2, 3, 1]);
    vec![
        case("whole_case", shaped::program::WHOLE_CASE.to_vec(), "lines 2 1 0 gates 1"),
        case("nor", shaped::program::nor().bytes(), "lines 2 1 2 gates 9"),
        case("and_of_three", shaped::program::and_of_three().bytes(), "lines 3 1 1 gates 3"),
        case("and_of_four", shaped::program::and_of_four().bytes(), "lines 4 1 2 gates 5"),
        case("operands", operands().bytes(), "lines 3 6 1 gates 15"),
        case("xor_with_itself", shaped::program::xor_with_itself().bytes(), "lines 1 1 0 gates 2"),
        case("zero", shaped::program::output_zero().bytes(), "lines 0 1 0 gates 0"),
        case("one", Program::new(0, &[ONE], &[0]).bytes(), "lines 0 1 0 gates 1"),
        case("three_outputs", three_outputs.bytes(), "lines 1 3 2 gates 9"),
    ]
}

/// The XOR of two ANDs of three inputs without marks and with them, the AND of four inputs with marks
/// one below the other, and a marked AND in each of three outputs.
fn marks() -> Vec<Case> {
    let two_ands = |are_marked| shaped::program::two_ands_of_three(are_marked).bytes();
    let nested = shaped::program::and_of_four().with_marks(|| true);
    let outputs = shaped::marks::of_several_outputs().program;
    vec![
        case("two_ands", two_ands(false), "lines 6 1 2 gates 6"),
        case("two_ands_marked", two_ands(true), "lines 6 1 1 gates 10"),
        case("nested_marks", nested.bytes(), "lines 4 1 2 gates 13"),
        case("marked_outputs", outputs.bytes(), "lines 2 3 2 gates 38"),
    ]
}

/// What an operand of AND can be: inputs in the other order, one input by one node and by two, an
/// AND, an AND beside another, and NOT of an input.
fn operands() -> Program {
    let nodes = [
        input(0),
        input(1),
        input(2),
        input(1),
        and(1, 0),
        and(1, 1),
        and(1, 3),
        and(2, 4),
        xor(4, 7),
        not(0),
        and(9, 2),
    ];
    Program::new(3, &nodes, &[4, 5, 6, 7, 8, 10])
}

/// The XOR chain of 01: its last node, NOT of it, NOT of that, and all three.
fn sizes() -> Vec<Case> {
    let chain =
        |outputs: &[u16]| Program::new(0, &shaped::program::xor_chain().nodes, outputs).bytes();
    vec![
        case("size_16383", chain(&[13]), "lines 0 1 0 gates 0"),
        case("size_16384", chain(&[14]), "lines 0 1 0 gates 1"),
        case("size_16385", chain(&[15]), "refused 8 0"),
        case("size_16385_at_2", chain(&[13, 14, 15]), "refused 8 2"),
    ]
}

fn limits() -> Vec<Case> {
    let marked = |gates: &[u128]| limits::of_marked_gates(gates).bytes();
    vec![
        case("work_1024", limits::ands(1_025, false).bytes(), "lines 64 1 1024 gates 2049"),
        case("work_1025", limits::ands(1_026, false).bytes(), "refused 10 1025"),
        case("lines_1152", limits::most_lines().bytes(), "lines 64 64 1024 gates 2112"),
        case("gates_8000", limits::most_gates().bytes(), "lines 1 1 0 gates 8000"),
        case("gates_8001", limits::a_gate_too_many().bytes(), "refused 11 8001"),
        case("gates_524352", limits::largest_outputs(64).bytes(), "refused 11 524352"),
        case("gates_3000000", marked(&[46_875; 64]), "refused 11 3000000"),
        case("gates_3000001", marked(&[46_875, 2_953_126]), "refused 11 3000001"),
        case("gates_3000002", marked(&[3_000_002]), "refused 11 3000001"),
        case("gates_over_64_bits", limits::nested_marks(1_025).bytes(), "refused 11 3000001"),
        case("outputs_64", limits::most_outputs().bytes(), "lines 64 64 62 gates 8000"),
        case("longest_file", limits::longest_file().bytes(), "lines 64 64 0 gates 128"),
    ]
}

/// No program file is longer than 24,740 bytes, so each of these is refused; but which cause it is
/// tells how many bytes were read.
fn long_inputs() -> Vec<Case> {
    let mut valid_then_zeros = shaped::program::WHOLE_CASE.to_vec();
    valid_then_zeros.resize(MOST_INPUT + 1, 0);
    // 5,455 nodes and an output: too many (3), in a table that fits 32,768 bytes.
    let fitting = Program::new(0, &[ZERO; 5_455], &[0]);
    let bytes_32768 = fitting.bytes();
    // The same and a byte: 3 as well, where only 32,768 are read, otherwise an end that is wrong.
    let bytes_32769 = [bytes_32768.clone(), vec![0]].concat();
    // A table that fits all 32,769: a wrong end (2), where only 32,768 are read, otherwise 3.
    let mut fitting_32769 = fitting.layout();
    fitting_32769.bodies[2].push(0);
    vec![
        case("valid_then_zeros", valid_then_zeros, "refused 2 0"),
        case("bytes_32768", bytes_32768, "refused 3 0"),
        case("bytes_32769", bytes_32769, "refused 3 0"),
        case("fitting_32769", fitting_32769.fitted().bytes(), "refused 2 0"),
    ]
}
