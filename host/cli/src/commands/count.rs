//! count: how many states of so many objects have which value.

use super::value::PLACES;
use crate::arguments::Arguments;
use crate::input::{Lines, Text};
use crate::model::{load, Loaded};
use crate::output::Out;
use crate::state::Reader;
use crate::table::Table;
use crate::trouble::{message, Outcome, Verdict};
use reference::explain::{counted, grouped};
use yindolve::{Answer, Count, Fraction};

pub fn count(arguments: &Arguments, out: &mut Out) -> Outcome {
    let (file, states) = arguments.first_file("saved plan or model")?;
    let objects = arguments.number("--objects")?.ok_or_else(|| arguments.wrong("--objects N is missing"))?;
    let Some(model) = load(&Text::read(file)?)? else {
        return Ok(Verdict::Refused);
    };
    let question = format!("(count {objects})");
    let answer = match states {
        [] => Reader::read(&model, Lines::new(model.name.clone(), &b""[..]))?.ask(&question)?,
        [state] => Reader::read(&model, Text::read(state)?.lines())?.ask(&question)?,
        _ => return Err(arguments.wrong("more than one state is named")),
    };
    match answer {
        Some(Answer::Counts(counts)) => print(&model, objects, &counts, out),
        _ => Ok(Verdict::Refused),
    }
}

fn print(model: &Loaded, objects: u64, counts: &[Count], out: &mut Out) -> Outcome {
    let engine = &model.twin.engine;
    let all: u64 = counts.iter().map(|count| count.states).sum();
    let mut table = Table::new(&["V", "fraction", "value", "states", "share"]);
    for Count { value, states, .. } in counts {
        let fraction = Fraction::new(*value, engine.scale());
        table.row(vec![
            value.to_string(),
            fraction.to_string(),
            fraction.decimal(PLACES),
            grouped((*states).into()),
            format!("{} %", Fraction::new(states * 100, all).decimal(2)),
        ]);
    }
    message(&format!(
        "{} of {}, {} ahead, S^k = {}",
        counted(all as usize, "state"),
        counted(objects as usize, "object"),
        counted(engine.steps() as usize, "step"),
        engine.scale()
    ));
    out.text(&table.print())?;
    Ok(Verdict::Accepted)
}
