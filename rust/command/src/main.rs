//! The members' command: `oracle VERB INPUT ..`, a verb for each service of liboracle.a.
//!
//! The library does what matters: files are made, checked, run and refused by it. Here inputs are told
//! apart, refusals are put in words, and what comes out is written whole or not at all.
//!
//! The exit status is 0, or 1 where something was refused, 2 for a wrong use of the command, and 3 for
//! an error of reading or writing.

mod arguments;
mod export;
mod failure;
mod files;
mod input;
mod output;
mod verbs;
mod words;

use std::env;
use std::ffi::OsString;
use std::panic::resume_unwind;
use std::process::ExitCode;
use std::thread;

use arguments::Arguments;
use failure::{Failure, Result};
use output::Output;
use verbs::{Verb, VERBS};

/// Compiling calls itself up to 4,096 deep, and the stack that the system gives a program may be small.
const STACK: usize = 8 << 20;

fn main() -> ExitCode {
    let outcome = match thread::Builder::new().stack_size(STACK).spawn(answer) {
        Ok(worker) => worker.join().unwrap_or_else(|panic| resume_unwind(panic)),
        Err(error) => Err(Failure::File(format!("cannot start: {error}"))),
    };
    match outcome {
        Ok(()) => ExitCode::SUCCESS,
        Err(failure) => failure.report(),
    }
}

fn answer() -> Result<()> {
    let mut words = env::args_os().skip(1);
    let Some(first) = words.next() else {
        return Err(Failure::Usage(verbs::overview()));
    };
    let text = match first.to_str() {
        Some("--help" | "-h" | "help") => verbs::overview(),
        Some("--version" | "-V") => format!("oracle {}\n", oracle::VERSION),
        _ => return act(verb(&first)?, words),
    };
    match words.next() {
        Some(word) => {
            let word = word.to_string_lossy();
            Err(Failure::Usage(format!("`{word}` is one argument too many; see oracle --help")))
        }
        None => Output::Text(text).write(None),
    }
}

fn verb(word: &OsString) -> Result<&'static Verb> {
    VERBS.iter().find(|verb| *word == verb.name).ok_or_else(|| {
        let names: Vec<&str> = VERBS.iter().map(|verb| verb.name).collect();
        let word = word.to_string_lossy();
        Failure::Usage(format!("there is no verb `{word}`; the verbs are {}\n", names.join(", ")))
    })
}

fn act(verb: &Verb, words: impl Iterator<Item = OsString>) -> Result<()> {
    let words: Vec<OsString> = words.collect();
    if arguments::ask_for_help(&words) {
        return Output::Text(verb.help()).write(None);
    }
    let arguments = Arguments::read(verb, words)?;
    let output = (verb.act)(&arguments)?;
    output.write(arguments.path("-o"))
}
