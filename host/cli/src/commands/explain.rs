//! explain: each refusal with its place, its reason and what to do.

use crate::arguments::Arguments;
use crate::input::{open, Lines};
use crate::model::is_saved;
use crate::output::Out;
use crate::trouble::{Outcome, Trouble, Verdict};
use crate::twin::{told, Twin};
use reference::explain::no_start;
use std::io::BufRead;
use yindolve::Answer;

pub fn explain(arguments: &Arguments, out: &mut Out) -> Outcome {
    let file = arguments.one_file()?.ok_or_else(|| arguments.wrong("no text is named"))?;
    let (name, mut input) = open(Some(file))?;
    let begin = input.fill_buf().map_err(|error| Trouble::reading(&name, &error))?;
    if is_saved(begin) {
        return Err(Trouble(format!("{name} is what plan saved, and here a text should stand")));
    }
    let mut lines = Lines::new(name.clone(), input);
    let mut twin = Twin::open();
    let mut refused = false;
    while let Some(line) = lines.next()? {
        if let Some(fault) = twin.line(&line)? {
            refused = true;
            out.text(&format!("{}\n", told(&name, line.number, &fault)))?;
        }
    }
    if twin.engine.end() != Answer::Nothing {
        refused = true;
        out.text(&format!("{}\n", told(&name, 0, &no_start())))?;
    }
    Ok(Verdict::refused_if(refused))
}
