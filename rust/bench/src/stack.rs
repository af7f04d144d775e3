//! How much stack a call of compile or parse takes: the call is tried in threads with less and less
//! of it, each in a process of its own, because a thread without enough ends its process.

use std::hint::black_box;
use std::process::{Command, Stdio};
use std::{env, process, thread};

use agreement::compare::{MOST_BYTES, MOST_NODES};
use agreement::program::{and, input, marked, not, xor, Node, Program};

use crate::texts::MOST_TEXT;

/// The argument that makes this program try one stack.
const TRY: &str = "try-stack";

/// The services that are tried.
const COMPILE: &str = "compile";
const PARSE: &str = "parse";

/// Stacks are tried in whole pages. Every thread first takes so much that the least stack that the
/// system gives is behind it.
const PAGE: usize = 4096;
const BALLAST: usize = 256 * 1024;

/// A name, and how each of 4,096 nodes is made from the one before.
type Chain = (&'static str, fn(u16) -> Node);

/// What is deepest to count and to build.
const CHAINS: [Chain; 8] = [
    ("NOT of the one before", not),
    ("XOR of the one before and a leaf", |before| xor(before, 0)),
    ("XOR of a leaf and the one before", |before| xor(0, before)),
    ("AND of the one before and a leaf (refused 10)", |before| and(before, 0)),
    ("AND of a leaf and the one before (refused 10)", |before| and(0, before)),
    ("the same, marked (refused 10)", |before| marked(0, before)),
    (
        "1,025 such ANDs, then NOTs",
        |before| {
            if before < 1_025 {
                and(0, before)
            } else {
                not(before)
            }
        },
    ),
    ("1,000 NOTs, a marked AND, then NOTs", |before| {
        if before == 1_000 {
            marked(0, before)
        } else {
            not(before)
        }
    }),
];

fn chain(index: usize) -> Program {
    let mut nodes = vec![input(0)];
    nodes.extend((0..4095).map(CHAINS[index].1));
    Program::new(1, &nodes, &[4095])
}

/// A name, what is repeated before a leaf until 64 `!` and brackets are open, and how many times.
type Nest = (&'static str, &'static str, usize);

/// What is deepest to read.
const NESTS: [Nest; 5] = [
    ("64 times !", "!", 64),
    ("64 brackets", "(", 64),
    ("! and a bracket, 32 times in turn", "!(", 32),
    ("64 brackets, each behind a ^ and an &", "0^0&(", 64),
    ("! and such a bracket, 32 times in turn", "!(0^0&", 32),
];

/// The text of a nest, and behind it constants up to 4,096 bytes.
fn nest(index: usize) -> String {
    let (_, repeated, times) = NESTS[index];
    let closed = times * repeated.matches('(').count();
    let mut text = repeated.repeat(times) + "x0" + &")".repeat(closed);
    while text.len() < MOST_TEXT {
        text += "^1";
    }
    text
}

/// Tries one stack if the arguments say so, and ends this process.
pub fn try_if_asked() {
    let arguments: Vec<String> = env::args().skip(1).collect();
    let [command, bytes, service, index] = &arguments[..] else {
        return;
    };
    if command == TRY {
        let bytes = bytes.parse().expect("a number of bytes");
        let call = call(service, index.parse().expect("a number of a shape"));
        let thread = thread::Builder::new().stack_size(bytes).spawn(|| below_ballast(call));
        thread.expect("a thread").join().expect("a call that ends");
        process::exit(0);
    }
}

/// A call of a service with one of its shapes, or of no service no call.
fn call(service: &str, index: usize) -> Box<dyn FnOnce() + Send> {
    let (mut sizes, mut area) = (vec![0; MOST_NODES], vec![0; MOST_BYTES]);
    match service {
        COMPILE => {
            let file = chain(index).bytes();
            Box::new(move || {
                let _ = black_box(oracle::compile(&file, 1024, &mut sizes, &mut area));
            })
        }
        PARSE => {
            let text = nest(index);
            assert_eq!(text.len(), MOST_TEXT);
            Box::new(move || {
                let answer = black_box(oracle::parse(text.as_bytes(), 1, &mut area));
                assert!(answer.is_ok(), "{text} is refused");
            })
        }
        _ => Box::new(|| {}),
    }
}

#[inline(never)]
fn below_ballast(call: impl FnOnce()) {
    let ballast = [1_u8; BALLAST];
    black_box(&ballast);
    call();
    black_box(&ballast);
}

/// Whether a stack of so many bytes is enough.
fn is_enough(bytes: usize, service: &str, index: usize) -> bool {
    let program = env::current_exe().expect("this program's path");
    let status = Command::new(program)
        .args([TRY, &bytes.to_string(), service, &index.to_string()])
        .stdout(Stdio::null())
        .stderr(Stdio::null())
        .status();
    status.expect("this program runs").success()
}

/// The least stack that is enough, in whole pages.
fn least(service: &str, index: usize) -> usize {
    let mut enough = BALLAST / PAGE;
    while !is_enough(enough * PAGE, service, index) {
        enough *= 2;
        assert!(enough * PAGE < 1 << 30, "no stack is enough");
    }
    let mut too_few = 0;
    while enough - too_few > 1 {
        let middle = (enough + too_few) / 2;
        if is_enough(middle * PAGE, service, index) {
            enough = middle;
        } else {
            too_few = middle;
        }
    }
    enough * PAGE
}

/// Prints what a call of either service takes, for each shape.
pub fn print() {
    println!();
    println!(
        "Stack of a call of liboracle.a's compile with 4,096 nodes, to a page of {PAGE} bytes:"
    );
    print_most(COMPILE, &CHAINS.map(|(name, _)| name));
    println!();
    println!("The same of parse with 4,096 bytes of text and 64 open:");
    print_most(PARSE, &NESTS.map(|(name, _, _)| name));
}

fn print_most(service: &str, shapes: &[&str]) {
    let without_a_call = least("none", 0);
    let mut most = 0;
    for (index, name) in shapes.iter().enumerate() {
        let bytes = least(service, index) - without_a_call;
        println!("{name:<46} {bytes:>9} bytes");
        most = most.max(bytes);
    }
    // Both stacks that were compared are whole pages, so up to one more may have been taken.
    println!("At most {} bytes.", most + PAGE);
}
