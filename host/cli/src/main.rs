//! yindolve-desk: the value engine for people. The numbers come from the proved library; reasons, pictures and pages are made here, and
//! nothing proved rests on them.

mod arguments;
mod commands;
mod drawing;
mod help;
mod input;
mod model;
mod output;
mod planning;
mod samples;
mod state;
mod table;
mod trouble;
mod twin;

use arguments::Arguments;
use output::Out;
use std::ffi::OsString;
use std::process::ExitCode;
use trouble::{message, Outcome, Trouble, Verdict};

type Command = fn(&Arguments, &mut Out) -> Outcome;

const COMMANDS: [(&str, Command, &str); 10] = [
    ("run", commands::run::run, help::RUN),
    ("plan", commands::plan::plan, help::PLAN),
    ("value", commands::value::value, help::VALUE),
    ("best", commands::best::best, help::BEST),
    ("replay", commands::replay::replay, help::REPLAY),
    ("count", commands::count::count, help::COUNT),
    ("next", commands::next::next, help::NEXT),
    ("explain", commands::explain::explain, help::EXPLAIN),
    ("picture", commands::picture::picture, help::PICTURE),
    ("report", commands::report::report, help::REPORT),
];

fn main() -> ExitCode {
    let given: Vec<OsString> = std::env::args_os().skip(1).collect();
    match desk(&given) {
        Ok(Verdict::Accepted) => ExitCode::from(0),
        Ok(Verdict::Refused) => ExitCode::from(1),
        Err(Trouble(what)) => {
            message(&what);
            ExitCode::from(2)
        }
    }
}

fn desk(given: &[OsString]) -> Outcome {
    let out = &mut Out::new();
    let Some((first, rest)) = given.split_first() else {
        return Err(Trouble::usage("no command is given", ""));
    };
    match first.to_str() {
        Some("--help" | "-h" | "help") => help_on(rest, out),
        Some("--version" | "-V") => version(out),
        name => match COMMANDS.iter().find(|(known, ..)| name == Some(known)) {
            Some((name, command, help)) => one_command(name, *command, help, rest, out),
            None => Err(Trouble::usage(&format!("there is no command {}", first.to_string_lossy()), "")),
        },
    }
}

fn one_command(name: &str, command: Command, help: &str, rest: &[OsString], out: &mut Out) -> Outcome {
    let arguments = Arguments::read(name, rest)?;
    if arguments.has("--help") {
        return out.text(help).and_then(|()| out.done());
    }
    if arguments.has("--version") {
        return version(out);
    }
    let verdict = command(&arguments, out)?;
    out.done()?;
    Ok(verdict)
}

fn help_on(rest: &[OsString], out: &mut Out) -> Outcome {
    let asked = rest.first().and_then(|name| name.to_str());
    let page = COMMANDS.iter().find(|(name, ..)| asked == Some(name)).map_or(help::ALL, |(_, _, help)| help);
    out.text(page)?;
    out.done()
}

fn version(out: &mut Out) -> Outcome {
    out.text(&format!("yindolve-desk {}\n", env!("CARGO_PKG_VERSION")))?;
    out.done()
}
