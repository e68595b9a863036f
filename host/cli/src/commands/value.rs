//! value: the number of each branch's state.

use crate::arguments::Arguments;
use crate::input::{Lines, Text};
use crate::model::{load, Loaded};
use crate::output::Out;
use crate::state::Reader;
use crate::table::Table;
use crate::trouble::{message, Outcome, Trouble, Verdict};
use std::ffi::OsString;
use yindolve::{Answer, Value};

/// Places behind the decimal point.
pub const PLACES: usize = 6;

pub fn value(arguments: &Arguments, out: &mut Out) -> Outcome {
    let (file, states) = arguments.first_file("saved plan or model")?;
    if states.is_empty() {
        return Err(arguments.wrong("no state is named"));
    }
    let Some(model) = load(&Text::read(file)?)? else {
        return Ok(Verdict::Refused);
    };
    if !model.was_saved {
        message(&format!("{} is a model's text, so no step is looked ahead (k = 0); yindolve-desk plan does so", model.name));
    }
    for_each(states, table("state"), "a value", out, |state| Ok(one(&model, state)?.map(|value| cells(&state.to_string_lossy(), value))))
}

/// A row of a table for each state file, where it has one; what is refused was told, and the other states are still done.
pub fn for_each(
    states: &[OsString],
    mut table: Table,
    what: &str,
    out: &mut Out,
    row: impl Fn(&OsString) -> Result<Option<Vec<String>>, Trouble>,
) -> Outcome {
    let mut trouble = None;
    let mut refused = 0;
    for state in states {
        match row(state) {
            Ok(Some(cells)) => table.row(cells),
            Ok(None) => refused += 1,
            Err(Trouble(why)) => {
                message(&why);
                trouble = Some(Trouble(format!("not every state was read; {} of {} have {what}", table.rows(), states.len())));
            }
        }
    }
    if table.rows() > 0 {
        out.text(&table.print())?;
    }
    trouble.map_or(Ok(Verdict::refused_if(refused > 0)), Err)
}

pub fn table(what: &str) -> Table {
    Table::new(&[what, "V", "k", "S^k", "fraction", "value"])
}

pub fn cells(name: &str, value: Value) -> Vec<String> {
    let fraction = value.fraction();
    vec![
        name.to_string(),
        value.value.to_string(),
        value.steps.to_string(),
        value.scale.to_string(),
        fraction.to_string(),
        fraction.decimal(PLACES),
    ]
}

/// The value of a state file; none where a line is refused, which was told.
fn one(model: &Loaded, file: &OsString) -> Result<Option<Value>, Trouble> {
    let text = Text::read(file)?;
    value_of(model, text.lines())
}

/// The value of a state's lines; none where one is refused, which was told.
pub fn value_of(model: &Loaded, lines: Lines<&[u8]>) -> Result<Option<Value>, Trouble> {
    match Reader::read(model, lines)?.ask("(value)")? {
        Some(Answer::Value(value)) => Ok(Some(value)),
        _ => Ok(None),
    }
}
