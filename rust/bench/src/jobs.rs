//! What the services are timed on.

use std::hint::black_box;

use agreement::compare::{MOST_BYTES, MOST_NODES};
use agreement::random::Random;
use oracle::{ANSWER_ENTRY, COUNT_ENTRY, LONGEST_PARSED};

use crate::files::{self, INPUTS, LINES};
use crate::idiomatic::Refused;
use crate::sides::{self, Side, ARCHIVE, RUST};
use crate::texts;

use Service::{
    Compile, Evaluate, EvaluateWords, Parse, Quote, ReadCircuit, ReadProgram, RunBackwards,
    RunForwards, Undo,
};

/// How many files a job of the first table has.
pub const FILES: usize = 32;

const MOST_WORK_LINES: u64 = 1024;
const MOST_OUTPUTS: usize = 64;

/// What the files of [`files::of_all_kinds`] are.
const OF_ALL_KINDS: &str = "4,096 nodes of all kinds";

/// What is done to the lent areas before a call.
const NONE: &str = "none lent";
const KEPT: &str = "not cleared";
const RESET: &str = "lines reset to the start before each call, within its time";
const CLEARED: &str = "not cleared before; the call clears the area";
const COUNTS_CLEARED: &str = "not cleared before; the call clears the counts";

/// A round: one side's calls with each file of a job in turn.
pub type Round<'a> = Box<dyn FnMut() + 'a>;

/// A service, and files for it, which are taken in turn.
pub struct Job {
    pub service: Service,
    /// What the files are, for the table.
    pub name: &'static str,
    pub buffers: &'static str,
    /// How many rounds are timed.
    pub rounds: usize,
    /// Whether the calls give results and no refusals.
    accepted: bool,
    files: Vec<Given>,
}

#[derive(Clone, Copy)]
pub enum Service {
    Parse,
    ReadProgram,
    Evaluate,
    EvaluateWords,
    Compile,
    Quote,
    ReadCircuit,
    RunForwards,
    RunBackwards,
    Undo,
}

/// The services of the table by gates, in its order.
pub const BY_GATES: [Service; 8] =
    [ReadProgram, Evaluate, EvaluateWords, Compile, ReadCircuit, RunForwards, RunBackwards, Undo];

/// The services of the table by nodes, which go over the nodes and build nothing.
pub const BY_NODES: [Service; 4] = [ReadProgram, Evaluate, EvaluateWords, Quote];

impl Service {
    pub fn name(self) -> &'static str {
        match self {
            Parse => "parse",
            ReadProgram => "read_program",
            Evaluate => "evaluate",
            EvaluateWords => "evaluate_words",
            Compile => "compile",
            Quote => "quote",
            ReadCircuit => "read_circuit",
            RunForwards => "run_forwards",
            RunBackwards => "run_backwards",
            Undo => "undo",
        }
    }

    fn buffers(self) -> &'static str {
        match self {
            ReadProgram | ReadCircuit => NONE,
            Parse | Evaluate | EvaluateWords | Compile | Undo => KEPT,
            Quote => COUNTS_CLEARED,
            RunForwards | RunBackwards => RESET,
        }
    }

    fn takes_program(self) -> bool {
        matches!(self, ReadProgram | Evaluate | EvaluateWords | Compile | Quote)
    }

    /// Inputs, lines, or choices of about a third of the lines.
    fn bits(self, random: &mut Random) -> Vec<u8> {
        match self {
            Parse | ReadProgram | EvaluateWords | Compile | Quote | ReadCircuit => vec![],
            Evaluate => random.bits(INPUTS),
            RunForwards | RunBackwards => random.bits(LINES),
            Undo => (0..LINES).map(|_| u8::from(random.once_in(3))).collect(),
        }
    }

    /// Inputs, where they are words.
    fn words(self, random: &mut Random) -> Vec<u64> {
        match self {
            EvaluateWords => random.numbers(INPUTS),
            _ => vec![],
        }
    }

    /// How many bytes of the area are enough for every file that it writes.
    fn room(self) -> usize {
        match self {
            Parse => LONGEST_PARSED,
            _ => MOST_BYTES,
        }
    }

    /// What it is given with a file.
    fn given(self, random: &mut Random, file: Vec<u8>) -> Given {
        Given { file, bits: self.bits(random), words: self.words(random), room: self.room() }
    }
}

/// A file, or the text for parse; bits for its inputs, lines or choices, or words for its inputs;
/// and how many bytes of the area are lent.
struct Given {
    file: Vec<u8>,
    bits: Vec<u8>,
    words: Vec<u64>,
    room: usize,
}

impl Job {
    /// A service on so many files, each drawn with bits or words for it, that give results.
    fn new(
        random: &mut Random,
        service: Service,
        name: &'static str,
        count: usize,
        draw: impl Fn(&mut Random) -> Vec<u8>,
    ) -> Job {
        let given = |_| {
            let file = draw(random);
            service.given(random, file)
        };
        let files = (0..count).map(given).collect();
        Job { service, name, buffers: service.buffers(), rounds: 201, accepted: true, files }
    }

    /// Another service on the same files.
    fn also(&self, random: &mut Random, service: Service) -> Job {
        let files = self.files.iter().map(|given| service.given(random, given.file.clone()));
        Job { service, buffers: service.buffers(), files: files.collect(), ..*self }
    }

    /// How many calls a round has: one with each file.
    pub fn calls(&self) -> u32 {
        self.files.len() as u32
    }

    /// Stops unless both sides answer alike on these files, and as the job says.
    pub fn check(&self, random: &mut Random) {
        for given in &self.files {
            match self.service {
                Parse => {
                    sides::agree_on_text(random, &given.file);
                }
                _ => sides::agree_on(random, &given.file),
            }
            for side in [&ARCHIVE, &RUST] {
                let accepted = Areas::new().call(self.service, side, given);
                assert_eq!(accepted, self.accepted, "{} {}", self.service.name(), self.name);
            }
        }
    }

    /// The rounds of one side.
    pub fn on<'a>(&'a self, side: &'a Side) -> Round<'a> {
        let mut areas = Areas::new();
        Box::new(move || {
            for given in &self.files {
                areas.call(self.service, side, given);
            }
        })
    }
}

/// The lent areas of a side.
struct Areas {
    values: Vec<u8>,
    words: Vec<u64>,
    sizes: Vec<u16>,
    counts: Vec<u64>,
    answers: Vec<u64>,
    lines: Vec<u8>,
    area: Vec<u8>,
}

impl Areas {
    fn new() -> Areas {
        Areas {
            values: vec![0; MOST_NODES],
            words: vec![0; MOST_NODES],
            sizes: vec![0; MOST_NODES],
            counts: vec![0; COUNT_ENTRY * MOST_NODES],
            answers: vec![0; ANSWER_ENTRY * MOST_OUTPUTS],
            lines: Vec::new(),
            area: vec![0; MOST_BYTES],
        }
    }

    /// Calls a service, and says whether it gave a result.
    fn call(&mut self, service: Service, side: &Side, given: &Given) -> bool {
        let (file, bits) = (black_box(&given.file[..]), black_box(&given.bits[..]));
        let area = black_box(&mut self.area[..given.room]);
        match service {
            Parse => seen((side.parse)(file, INPUTS as u64, area)),
            ReadProgram => seen((side.read_program)(file)),
            Evaluate => seen((side.evaluate)(file, black_box(&mut self.values), bits, 0)),
            EvaluateWords => {
                let (values, inputs) = (black_box(&mut self.words), black_box(&given.words[..]));
                seen((side.evaluate_words)(file, values, inputs, 0))
            }
            Compile => {
                let sizes = black_box(&mut self.sizes);
                seen((side.compile)(file, MOST_WORK_LINES, sizes, area))
            }
            Quote => {
                let (counts, answers) = (black_box(&mut self.counts), black_box(&mut self.answers));
                seen((side.quote)(file, counts, answers))
            }
            ReadCircuit => seen((side.read_circuit)(file)),
            RunForwards => seen((side.run_forwards)(file, self.reset(bits))),
            RunBackwards => seen((side.run_backwards)(file, self.reset(bits))),
            Undo => seen((side.undo)(file, bits, area)),
        }
    }

    /// The lines of a start.
    fn reset(&mut self, start: &[u8]) -> &mut [u8] {
        self.lines.clear();
        self.lines.extend_from_slice(start);
        black_box(&mut self.lines)
    }
}

/// Takes an answer, so that it has to be made.
fn seen<T>(answer: Result<T, Refused>) -> bool {
    black_box(answer).is_ok()
}

/// The jobs of the first table: every service on files as large as they can be.
pub fn largest(random: &mut Random) -> Vec<Job> {
    let mut job = |service, name, draw: fn(&mut Random) -> Vec<u8>| {
        Job::new(random, service, name, FILES, draw)
    };
    let gates = "8,000 gates on 1,152 lines";
    let circuit = |random: &mut Random| files::circuit(random, 8000);
    let and_trees = |random: &mut Random| files::and_trees(random, 8000);
    let marked_nodes = "the same, half of the ANDs marked";
    let refused = |job: Job| Job { buffers: CLEARED, rounds: 15, accepted: false, ..job };
    vec![
        job(ReadProgram, OF_ALL_KINDS, files::of_all_kinds),
        job(ReadProgram, marked_nodes, files::of_all_kinds_marked),
        job(Evaluate, OF_ALL_KINDS, files::of_all_kinds),
        job(Evaluate, marked_nodes, files::of_all_kinds_marked),
        job(EvaluateWords, OF_ALL_KINDS, files::of_all_kinds),
        job(EvaluateWords, marked_nodes, files::of_all_kinds_marked),
        job(Compile, "4,096 nodes, 64 outputs of 2 gates", files::small_outputs),
        job(Compile, "8,000 gates, 64 outputs of ANDs", and_trees),
        job(Compile, "the same, 4 of 27 ANDs marked", files::trees_of_marked_ands),
        job(Compile, "the same, 6 nested marks each", files::nested_marks),
        job(Compile, "8,000 gates, one output of XORs", files::xor_tree),
        job(Compile, "the same, of 320 marked ANDs", files::sum_of_marked_ands),
        refused(job(Compile, "refused 11, 64 outputs of size 16,384", files::largest_outputs)),
        refused(job(Compile, "the same of size 16,379, with marks", files::largest_marked_outputs)),
        job(Quote, OF_ALL_KINDS, files::of_all_kinds),
        job(Quote, marked_nodes, files::of_all_kinds_marked),
        job(Quote, "4,096 nodes, 4,032 marked ANDs", files::of_marked_ands),
        job(Quote, "4,096 nodes, 64 outputs of 2 gates", files::small_outputs),
        job(ReadCircuit, gates, circuit),
        job(RunForwards, gates, circuit),
        job(RunBackwards, gates, circuit),
        job(Undo, "the same, a third of the lines chosen", circuit),
    ]
}

/// parse on texts as long as they can be.
pub fn longest_texts(random: &mut Random) -> Vec<Job> {
    let mut job =
        |name, draw: fn(&mut Random) -> Vec<u8>| Job::new(random, Parse, name, FILES, draw);
    let unfinished = job("4,096 bytes, refused 16 at the end", texts::unfinished);
    let without_room = job("4,096 bytes, refused 11", texts::of_all_kinds);
    vec![
        job("4,096 bytes of all kinds", texts::of_all_kinds),
        job("4,096 bytes, up to 64 open", texts::deep),
        job("4,096 bytes, leaves and ^ and &", texts::without_brackets),
        job("the same, constants, 4,095 nodes", texts::of_constants),
        Job { accepted: false, ..unfinished },
        one_byte_short(without_room),
    ]
}

/// The same job with an area for each text that is one byte too short for its file.
fn one_byte_short(mut job: Job) -> Job {
    for given in &mut job.files {
        let length = (RUST.parse)(&given.file, INPUTS as u64, &mut [0; LONGEST_PARSED]);
        given.room = length.expect("a text of the language") - 1;
    }
    Job { buffers: CLEARED, accepted: false, ..job }
}

/// evaluate and evaluate_words on the same files.
pub fn both_evaluations(random: &mut Random) -> [Job; 2] {
    let single = Job::new(random, Evaluate, OF_ALL_KINDS, FILES, files::of_all_kinds);
    let by_words = single.also(random, EvaluateWords);
    [single, by_words]
}

/// A service on files of so many gates, as many as make 64,000 gates.
pub fn of_gates(random: &mut Random, service: Service, gates: usize) -> Job {
    let draw = if service.takes_program() { files::and_trees } else { files::circuit };
    Job::new(random, service, "by gates", 64_000 / gates, |random| draw(random, gates))
}

/// A service on files of so many nodes of all kinds, as many as make 65,536 nodes.
pub fn of_nodes(random: &mut Random, service: Service, nodes: usize) -> Job {
    let draw = |random: &mut Random| files::of_nodes(random, nodes);
    Job::new(random, service, "by nodes", 65_536 / nodes, draw)
}

/// parse on texts of so many bytes of all kinds, as many as make 131,072 bytes.
pub fn of_bytes(random: &mut Random, bytes: usize) -> Job {
    let draw = |random: &mut Random| texts::of_bytes(random, bytes);
    Job::new(random, Parse, "by bytes", 131_072 / bytes, draw)
}
