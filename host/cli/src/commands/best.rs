//! best: the move to make in each branch's state.

use super::value::for_each;
use crate::arguments::Arguments;
use crate::input::Text;
use crate::model::load;
use crate::output::Out;
use crate::state::Reader;
use crate::table::Table;
use crate::trouble::{message, Outcome, Verdict};
use yindolve::Answer;

pub fn best(arguments: &Arguments, out: &mut Out) -> Outcome {
    let (file, states) = arguments.first_file("saved plan or model")?;
    if states.is_empty() {
        return Err(arguments.wrong("no state is named"));
    }
    let Some(model) = load(&Text::read(file)?)? else {
        return Ok(Verdict::Refused);
    };
    if !model.was_saved {
        message(&format!("{} is a model's text (k = 0), so a move is the best for one step; yindolve-desk plan looks further", model.name));
    }
    // the move is the first of so many steps
    let steps = u128::from(model.twin.engine.steps()) + 1;
    for_each(states, Table::new(&["state", "move", "steps"]), "a move", out, |state| {
        let answer = Reader::read(&model, Text::read(state)?.lines())?.ask("(best)")?;
        Ok(answer.and_then(|answer| match answer {
            Answer::Best(best) => Some(vec![state.to_string_lossy().into_owned(), best.to_string(), steps.to_string()]),
            _ => None,
        }))
    })
}
