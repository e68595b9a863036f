//! The words behind a command's name: options and files.

use crate::trouble::Trouble;
use std::ffi::{OsStr, OsString};

/// An option by its names; whether a word follows it.
struct Known {
    long: &'static str,
    short: &'static str,
    takes_word: bool,
    commands: &'static [&'static str],
}

const fn known(long: &'static str, short: &'static str, takes_word: bool, commands: &'static [&'static str]) -> Known {
    Known { long, short, takes_word, commands }
}

const KNOWN: [Known; 10] = [
    known("--help", "-h", false, &[]),
    known("--version", "-V", false, &[]),
    known("--strict", "", false, &["run", "replay"]),
    known("--steps", "", true, &["plan", "report"]),
    known("--step", "", true, &["picture"]),
    known("--objects", "", true, &["count"]),
    known("--output", "-o", true, &["plan", "replay", "next", "picture", "report"]),
    known("--format", "", true, &["picture"]),
    known("--uncut", "", false, &["plan", "picture", "report"]),
    known("--reduce", "", false, &["plan"]),
];

pub struct Arguments {
    command: String,
    options: Vec<(&'static str, OsString)>,
    files: Vec<OsString>,
}

impl Arguments {
    /// Reads the words of a command; `--` ends its options, and `-` is a file.
    pub fn read(command: &str, words: &[OsString]) -> Result<Arguments, Trouble> {
        let mut arguments = Arguments { command: command.to_string(), options: Vec::new(), files: Vec::new() };
        let mut words = words.iter();
        while let Some(word) = words.next() {
            match word.to_str() {
                Some("--") => arguments.files.extend(words.by_ref().cloned()),
                Some(option) if option.starts_with('-') && option != "-" => arguments.option(option, &mut words)?,
                _ => arguments.files.push(word.clone()),
            }
        }
        Ok(arguments)
    }

    fn option<'a>(&mut self, option: &str, words: &mut impl Iterator<Item = &'a OsString>) -> Result<(), Trouble> {
        let (name, joined) = match option.split_once('=') {
            Some((name, word)) => (name, Some(OsString::from(word))),
            None => (option, None),
        };
        let here = |known: &&Known| known.commands.is_empty() || known.commands.contains(&self.command.as_str());
        let found = KNOWN.iter().filter(here).find(|known| name == known.long || name == known.short);
        let known = found.ok_or_else(|| self.wrong(&format!("there is no option {name}")))?;
        let word = match (known.takes_word, joined) {
            (true, Some(word)) => word,
            (true, None) => words.next().cloned().ok_or_else(|| self.wrong(&format!("a word is missing behind {name}")))?,
            (false, None) => OsString::new(),
            (false, Some(_)) => return Err(self.wrong(&format!("no word goes with {name}"))),
        };
        self.options.push((known.long, word));
        Ok(())
    }

    pub fn wrong(&self, what: &str) -> Trouble {
        Trouble::usage(what, &self.command)
    }

    pub fn has(&self, option: &str) -> bool {
        self.word(option).is_some()
    }

    /// The word behind an option; the last one, where it is given more than once.
    pub fn word(&self, option: &str) -> Option<&OsStr> {
        self.options.iter().rev().find(|(name, _)| *name == option).map(|(_, word)| word.as_os_str())
    }

    /// The number behind an option.
    pub fn number(&self, option: &str) -> Result<Option<u64>, Trouble> {
        let Some(word) = self.word(option) else {
            return Ok(None);
        };
        let number = word.to_str().and_then(|word| word.parse().ok());
        number.map(Some).ok_or_else(|| self.wrong(&format!("{option} takes a whole number, and there is {}", word.to_string_lossy())))
    }

    pub fn all_files(&self) -> Vec<&OsStr> {
        self.files.iter().map(OsString::as_os_str).collect()
    }

    /// The only file, or none.
    pub fn one_file(&self) -> Result<Option<&OsStr>, Trouble> {
        match self.files.as_slice() {
            [] => Ok(None),
            [file] => Ok(Some(file)),
            _ => Err(self.wrong("more than one file is named")),
        }
    }

    /// The first file and those behind it.
    pub fn first_file(&self, what: &str) -> Result<(&OsStr, &[OsString]), Trouble> {
        match self.files.split_first() {
            Some((first, rest)) => Ok((first, rest)),
            None => Err(self.wrong(&format!("no {what} is named"))),
        }
    }
}
