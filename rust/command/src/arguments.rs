//! The words behind the verb: arguments and options.

use std::ffi::{OsStr, OsString};
use std::os::unix::ffi::OsStrExt;
use std::path::Path;

use crate::failure::{Failure, Result};
use crate::verbs::{Opt, Verb};

pub struct Arguments {
    verb: &'static str,
    plain: Vec<OsString>,
    /// Each option that was given, with its value, or an empty one if it takes none.
    options: Vec<(&'static str, OsString)>,
}

/// Whether help is asked for; whatever else stands there is not looked at then.
pub fn ask_for_help(words: &[OsString]) -> bool {
    let options = words.iter().take_while(|word| *word != "--");
    options.into_iter().any(|word| word == "--help" || word == "-h")
}

impl Arguments {
    /// Parts the words by what the verb takes.
    pub fn read(verb: &Verb, words: Vec<OsString>) -> Result<Arguments> {
        let mut read = Arguments { verb: verb.name, plain: Vec::new(), options: Vec::new() };
        let mut words = words.into_iter();
        while let Some(word) = words.next() {
            if word == "--" {
                read.plain.extend(words.by_ref());
            } else if word.len() > 1 && word.as_bytes()[0] == b'-' {
                read.option(verb, &word, &mut words)?;
            } else {
                read.plain.push(word);
            }
        }
        Ok(read)
    }

    fn option(
        &mut self,
        verb: &Verb,
        word: &OsStr,
        rest: &mut impl Iterator<Item = OsString>,
    ) -> Result<()> {
        let (name, joined) = parted(word);
        let Some(option) = verb.options().find(|option| name == option.name) else {
            return Err(self.wrong(&format!("there is no option `{}`", word.to_string_lossy())));
        };
        let Opt { name, value, .. } = option;
        if self.given(name) {
            return Err(self.wrong(&format!("{name} stands there twice")));
        }
        let value = match (*value, joined) {
            ("", None) => OsString::new(),
            ("", Some(_)) => return Err(self.wrong(&format!("{name} takes no value"))),
            (_, Some(joined)) => joined.to_os_string(),
            (value, None) => {
                rest.next().ok_or_else(|| self.wrong(&format!("{name} needs its {value}")))?
            }
        };
        if value.is_empty() && !option.value.is_empty() {
            return Err(self.wrong(&format!("{name} needs its {}", option.value)));
        }
        self.options.push((name, value));
        Ok(())
    }

    /// The arguments that are no options, which have to be as many as the names.
    pub fn plain<const N: usize>(&self, names: [&str; N]) -> Result<[&OsStr; N]> {
        if let Some(word) = self.plain.get(N) {
            return Err(
                self.wrong(&format!("`{}` is one argument too many", word.to_string_lossy()))
            );
        }
        let given: Vec<&OsStr> = self.plain.iter().map(OsString::as_os_str).collect();
        let missing = names.get(given.len()).copied().unwrap_or_default();
        given.try_into().map_err(|_| self.wrong(&format!("{missing} is missing")))
    }

    pub fn given(&self, name: &str) -> bool {
        self.value(name).is_some()
    }

    pub fn value(&self, name: &str) -> Option<&OsStr> {
        let option = self.options.iter().find(|(option, _)| *option == name);
        option.map(|(_, value)| value.as_os_str())
    }

    pub fn path(&self, name: &str) -> Option<&Path> {
        self.value(name).map(Path::new)
    }

    /// An option's value as a number of decimal digits.
    pub fn number(&self, name: &str) -> Result<Option<u64>> {
        let Some(value) = self.value(name) else { return Ok(None) };
        let digits = value.as_bytes().iter().all(u8::is_ascii_digit);
        let number = value.to_str().filter(|_| digits).and_then(|word| word.parse().ok());
        let wrong =
            || self.wrong(&format!("{name} takes a number, not `{}`", value.to_string_lossy()));
        number.ok_or_else(wrong).map(Some)
    }

    pub fn wrong(&self, what: &str) -> Failure {
        Failure::Usage(format!("{what}; see oracle {} --help", self.verb))
    }
}

/// `--name=value` parted at its first `=`.
fn parted(word: &OsStr) -> (&OsStr, Option<&OsStr>) {
    let bytes = word.as_bytes();
    match bytes.iter().position(|byte| *byte == b'=') {
        Some(at) if bytes.starts_with(b"--") => {
            (OsStr::from_bytes(&bytes[..at]), Some(OsStr::from_bytes(&bytes[at + 1..])))
        }
        _ => (word, None),
    }
}
