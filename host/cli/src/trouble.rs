//! How a command ends: a verdict, or trouble with its input or output.

use std::io::{self, Write};

/// Whether all lines were accepted (exit status 0) or one was refused (1).
#[derive(Clone, Copy, Debug, PartialEq, Eq)]
pub enum Verdict {
    Accepted,
    Refused,
}

impl Verdict {
    pub fn refused_if(refused: bool) -> Verdict {
        if refused {
            Verdict::Refused
        } else {
            Verdict::Accepted
        }
    }
}

/// What ends a command with exit status 2, in a sentence.
#[derive(Debug)]
pub struct Trouble(pub String);

pub type Outcome = Result<Verdict, Trouble>;

impl Trouble {
    pub fn reading(name: &str, error: &io::Error) -> Trouble {
        Trouble(format!("{name} cannot be read: {}", reason(error)))
    }

    pub fn writing(name: &str, error: &io::Error) -> Trouble {
        Trouble(format!("{name} cannot be written: {}", reason(error)))
    }

    /// Wrong words on the command line.
    pub fn usage(what: &str, command: &str) -> Trouble {
        let command = if command.is_empty() { String::new() } else { format!(" {command}") };
        Trouble(format!("{what}; yindolve-desk{command} --help tells how it is used"))
    }
}

fn reason(error: &io::Error) -> String {
    match error.kind() {
        io::ErrorKind::StorageFull => "the disk is full, and what is written so far is not whole".into(),
        io::ErrorKind::BrokenPipe => "the program that reads it closed the pipe before the end".into(),
        io::ErrorKind::IsADirectory => "it is a directory; name a file in it".into(),
        io::ErrorKind::NotFound => "there is no such file or folder".into(),
        io::ErrorKind::PermissionDenied => "the permission for it is missing".into(),
        _ => error.to_string(),
    }
}

/// A sentence for the person at the desk, on standard error. That it may be lost is no trouble.
pub fn message(text: &str) {
    let _ = writeln!(io::stderr(), "yindolve-desk: {text}");
}

/// A line on standard error as it is, such as `file:line:column: ..`.
pub fn remark(text: &str) {
    let _ = writeln!(io::stderr(), "{text}");
}
