//! Times the services beside the same jobs in idiomatic Rust, in one run, says what 64 questions in
//! one call cost, shows how the time grows with the gates, the nodes and the bytes of a text, and
//! finds the stack that compile and parse take: `cargo run --offline --release -p bench`.
//!
//! Every job has many files or texts, drawn at random and called in turn: on one over and over, the
//! processor would learn by heart which way each branch goes, and a call would look faster than it
//! is. Both sides have to give the same answers on each of them before any is timed.

use std::time::{Duration, Instant};

use agreement::random::Random;
use oracle::QUESTIONS;

mod files;
mod idiomatic;
mod jobs;
mod sides;
mod stack;
mod texts;

use jobs::{Job, Round, BY_GATES, BY_NODES, FILES};
use sides::{ARCHIVE, RUST};

/// The numbers of gates of the second table, of nodes of the third, and of bytes of the fourth.
const GATES: [usize; 4] = [1000, 2000, 4000, 8000];
const NODES: [usize; 4] = [512, 1024, 2048, 4096];
const BYTES: [usize; 4] = [512, 1024, 2048, 4096];

fn main() {
    stack::try_if_asked();
    let mut random = Random::new(0x6265_6e63);
    sides::agree(&mut random, 4000, 20_000);
    if cfg!(debug_assertions) {
        println!("Without --release the Rust side is not optimised, and the ratio says nothing.");
    }
    ratios(&mut random);
    questions_for_one(&mut random);
    growth_by_gates(&mut random);
    growth_by_nodes(&mut random);
    growth_by_bytes(&mut random);
    stack::print();
}

/// Every service on large files or texts, beside Rust.
fn ratios(random: &mut Random) {
    println!(
        "
Each row has {FILES} files or texts of one size, drawn at random. A round is a call with each of
them in turn, and the two sides take rounds in turn. The time of a call is that of the median
round, divided by its calls; the ratio is that of liboracle.a to Rust. What else the machine does
moves the times more than the ratio.
"
    );
    println!(
        "{:<14} {:<38} {:>12} {:>11} {:>6}  buffers",
        "service", "job", "liboracle.a", "Rust", "ratio"
    );
    let texts = jobs::longest_texts(random);
    for job in texts.into_iter().chain(jobs::largest(random)) {
        job.check(random);
        let (archive, rust) = in_turn(&job, job.on(&ARCHIVE), job.on(&RUST));
        let ratio = archive.as_secs_f64() / rust.as_secs_f64();
        let (service, name, buffers) = (job.service.name(), job.name, job.buffers);
        let (archive, rust) = (shown(archive), shown(rust));
        println!("{service:<14} {name:<38} {archive:>12} {rust:>11} {ratio:>6.2}  {buffers}");
    }
}

/// How many questions evaluate_words answers in the time of one call of evaluate.
fn questions_for_one(random: &mut Random) {
    let jobs = jobs::both_evaluations(random);
    jobs.iter().for_each(|job| job.check(random));
    let [evaluate, by_words] = &jobs;
    let (single, word) = in_turn(evaluate, evaluate.on(&ARCHIVE), by_words.on(&ARCHIVE));
    let ratio = word.as_secs_f64() / single.as_secs_f64();
    println!(
        "
On the same {FILES} files of {}, both by liboracle.a and in turn:
evaluate {}, evaluate_words {}, {ratio:.2} times as long. So {:.0} questions are answered for
the price of one call of evaluate.",
        evaluate.name,
        shown(single),
        shown(word),
        QUESTIONS as f64 / ratio
    );
}

/// How the time of liboracle.a grows with the number of gates.
fn growth_by_gates(random: &mut Random) {
    println!(
        "
Time of a call of liboracle.a, and of that a gate, by the gates of the circuit. A round goes over
files that have 64,000 gates together. Lines are reset before each call, and no other buffer is
cleared.
"
    );
    print_heading(GATES.map(|gates| format!("{gates} gates")));
    for service in BY_GATES {
        let jobs = GATES.map(|gates| (jobs::of_gates(random, service, gates), gates));
        print_times(random, service.name(), jobs);
    }
}

/// How it grows with the number of nodes, where no gate is built.
fn growth_by_nodes(random: &mut Random) {
    println!(
        "
Time of a call of liboracle.a, and of that a node, by the nodes of the program. A round goes over
files that have 65,536 nodes of all kinds together, and 64 outputs each. No buffer is cleared
before a call.
"
    );
    print_heading(NODES.map(|nodes| format!("{nodes} nodes")));
    for service in BY_NODES {
        let jobs = NODES.map(|nodes| (jobs::of_nodes(random, service, nodes), nodes));
        print_times(random, service.name(), jobs);
    }
}

/// How it grows with the bytes of a text.
fn growth_by_bytes(random: &mut Random) {
    println!(
        "
Time of a call of liboracle.a, and of that a byte, by the bytes of the text. A round goes over
texts of all kinds that have 131,072 bytes together. The area is not cleared before a call.
"
    );
    print_heading(BYTES.map(|bytes| format!("{bytes} bytes")));
    let jobs = BYTES.map(|bytes| (jobs::of_bytes(random, bytes), bytes));
    print_times(random, "parse", jobs);
}

fn print_heading(columns: [String; 4]) {
    println!("{:<14} {}", "service", columns.map(|column| format!("{column:>21}")).concat());
}

/// A row: the time of a call of each job, and of that one of its gates, nodes or bytes.
fn print_times(random: &mut Random, service: &str, jobs: [(Job, usize); 4]) {
    let columns = jobs.map(|(job, count)| {
        job.check(random);
        let mut round = job.on(&ARCHIVE);
        let mut times: Vec<Duration> = (0..job.rounds).map(|_| time(&job, &mut round)).collect();
        let time = median(&mut times);
        let nanoseconds = time.as_secs_f64() * 1e9 / count as f64;
        format!("{:>12} {nanoseconds:>5.1} ns", shown(time))
    });
    println!("{service:<14} {}", columns.concat());
}

/// The times of two kinds of rounds of a job, measured in turn, so that what else the machine does
/// meets both.
fn in_turn(job: &Job, mut first: Round, mut second: Round) -> (Duration, Duration) {
    let (mut firsts, mut seconds) = (Vec::new(), Vec::new());
    for i in 0..job.rounds {
        if i % 2 == 0 {
            firsts.push(time(job, &mut first));
            seconds.push(time(job, &mut second));
        } else {
            seconds.push(time(job, &mut second));
            firsts.push(time(job, &mut first));
        }
    }
    (median(&mut firsts), median(&mut seconds))
}

/// The time of a call, as a round gives it.
fn time(job: &Job, round: &mut Round) -> Duration {
    let start = Instant::now();
    round();
    start.elapsed() / job.calls()
}

fn median(times: &mut [Duration]) -> Duration {
    times.sort();
    times[times.len() / 2]
}

fn shown(time: Duration) -> String {
    format!("{:.1} us", time.as_secs_f64() * 1e6)
}
