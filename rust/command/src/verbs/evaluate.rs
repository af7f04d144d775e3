//! `oracle evaluate`: the outputs of a function on given inputs.

use std::ffi::OsStr;

use oracle::{Refusal, QUESTIONS};

use super::{Opt, Verb, INPUTS};
use crate::arguments::Arguments;
use crate::failure::Result;
use crate::files::Program;
use crate::input;
use crate::output::Output;
use crate::verbs::run::{bit, bits};
use crate::words;

pub const VERB: Verb = Verb {
    name: "evaluate",
    takes: "INPUT [BITS]",
    about: "says a function's outputs on input bits",
    more: "\
BITS has a digit, 0 or 1, for each input, input 0 first; the answer one for each output, output 0 first.
With --questions or --all there are no BITS, and questions are answered 64 at a time.
",
    options: &[
        INPUTS,
        Opt { name: "--questions", value: "FILE", about: "answer each line of FILE with a line" },
        Opt {
            name: "--all",
            value: "",
            about: "show every question and its answer, for at most 16 inputs; input 0 changes fastest",
        },
    ],
    act,
};

/// More than a million questions of 64 inputs.
const MOST_QUESTION_BYTES: u64 = 256 << 20;

/// Every question of more inputs would be too many lines to look at.
const MOST_INPUTS_FOR_ALL: usize = 16;

fn act(arguments: &Arguments) -> Result<Output> {
    let text = match (arguments.value("--questions"), arguments.given("--all")) {
        (None, false) => {
            let [argument, digits] = arguments.plain(["INPUT", "BITS"])?;
            one(&Program::read(arguments, argument)?, digits)?
        }
        (Some(file), false) => {
            let [argument] = arguments.plain(["INPUT"])?;
            if file == "-" && argument == "-" {
                return Err(
                    arguments.wrong("standard input cannot be both INPUT and the questions")
                );
            }
            from_file(&Program::read(arguments, argument)?, file)?
        }
        (None, true) => {
            let [argument] = arguments.plain(["INPUT"])?;
            let program = Program::read(arguments, argument)?;
            if program.head.inputs > MOST_INPUTS_FOR_ALL {
                let inputs = program.head.inputs;
                return Err(
                    arguments.wrong(&format!("--all is for 16 inputs, and there are {inputs}"))
                );
            }
            all(&program)?
        }
        (Some(_), true) => return Err(arguments.wrong("--all does not go with --questions")),
    };
    Ok(Output::Text(text))
}

/// The answer to one question.
fn one(Program { head, file }: &Program, digits: &OsStr) -> Result<String> {
    let inputs = bits(digits);
    let mut values = vec![0; head.nodes];
    let mut answer = String::new();
    for output in 0..head.outputs as u64 {
        let bit = oracle::evaluate(file, &mut values, &inputs, output)
            .map_err(|refusal| words::input_bits(refusal, head.inputs, None))?;
        answer.push(if bit { '1' } else { '0' });
    }
    Ok(answer + "\n")
}

/// The answers to the lines of a file, a line each.
fn from_file(program: &Program, name: &OsStr) -> Result<String> {
    let content = input::content(name, MOST_QUESTION_BYTES)?;
    let mut rest = content.split_inclusive(|byte| *byte == b'\n');
    let mut text = String::new();
    for chunk in 0.. {
        let lines: Vec<&[u8]> = rest.by_ref().take(QUESTIONS).collect();
        if lines.is_empty() {
            break;
        }
        let words = words_of(program, &lines, chunk * QUESTIONS + 1)?;
        let answers = answered(program, &words)?;
        (0..lines.len()).for_each(|question| text.push_str(&digits(&answers, question, "\n")));
    }
    Ok(text)
}

/// A word for each input, of lines that are numbered from this number on.
fn words_of(program: &Program, lines: &[&[u8]], first: usize) -> Result<Vec<u64>> {
    let inputs = program.head.inputs;
    let mut words = vec![0; inputs];
    for (question, line) in lines.iter().enumerate() {
        let bits = line_bits(program, line)
            .map_err(|refusal| words::input_bits(refusal, inputs, Some(first + question)))?;
        words.iter_mut().zip(bits).for_each(|(word, bit)| *word |= u64::from(bit) << question);
    }
    Ok(words)
}

/// The bits of a line, which the library is asked about where they are not those of the inputs.
fn line_bits(program: &Program, line: &[u8]) -> std::result::Result<Vec<u8>, Refusal> {
    let line = line.strip_suffix(b"\n").unwrap_or(line);
    let line = line.strip_suffix(b"\r").unwrap_or(line);
    let bits: Vec<u8> = line.iter().map(bit).collect();
    if bits.len() != program.head.inputs || bits.iter().any(|bit| *bit > 1) {
        oracle::evaluate(&program.file, &mut vec![0; program.head.nodes], &bits, 0)?;
    }
    Ok(bits)
}

/// Every question, with its answer behind it.
fn all(program: &Program) -> Result<String> {
    let rows = 1_usize << program.head.inputs;
    let mut text = String::new();
    for first in (0..rows).step_by(QUESTIONS) {
        let word = |j: usize| {
            let bit = |question: usize| u64::from((first + question) >> j & 1 == 1) << question;
            (0..QUESTIONS).map(bit).sum()
        };
        let words: Vec<u64> = (0..program.head.inputs).map(word).collect();
        let answers = answered(program, &words)?;
        // With fewer than 6 inputs there are fewer rows than questions.
        for question in 0..QUESTIONS.min(rows - first) {
            text.push_str(&digits(&words, question, " "));
            text.push_str(&digits(&answers, question, "\n"));
        }
    }
    Ok(text)
}

/// The word of each output, for a word of each input.
fn answered(Program { head, file }: &Program, inputs: &[u64]) -> Result<Vec<u64>> {
    let mut values = vec![0; head.nodes];
    let outputs = 0..head.outputs as u64;
    outputs.map(|output| Ok(oracle::evaluate_words(file, &mut values, inputs, output)?)).collect()
}

/// The bits of one question, and what stands behind them.
fn digits(words: &[u64], question: usize, behind: &str) -> String {
    let bit = |word: &u64| if word >> question & 1 == 1 { '1' } else { '0' };
    words.iter().map(bit).chain(behind.chars()).collect()
}
