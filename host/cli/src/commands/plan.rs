//! plan: steps ahead with cuts and reductions, saved for the branches.

use crate::arguments::Arguments;
use crate::input::Text;
use crate::model::load;
use crate::output::{apart_from, try_file, write_file, Out};
use crate::planning::{uncut, Plan, Planner, Progress, Step};
use crate::table::Table;
use crate::trouble::{message, remark, Outcome, Trouble, Verdict};
use crate::twin::reason;
use reference::explain::{counted, grouped};
use std::ffi::OsStr;
use std::io::{self, IsTerminal, Write};
use std::time::Duration;

pub fn plan(arguments: &Arguments, out: &mut Out) -> Outcome {
    let file = arguments.one_file()?.ok_or_else(|| arguments.wrong("no model is named"))?;
    let steps = arguments.number("--steps")?.ok_or_else(|| arguments.wrong("--steps K is missing"))?;
    let save_to = arguments.word("--output").filter(|file| *file != "-").ok_or_else(|| arguments.wrong("-o FILE is missing"))?;
    let Some(mut model) = load(&Text::read(file)?)? else {
        return Ok(Verdict::Refused);
    };
    if !model.was_saved {
        apart_from(Some(save_to), &[file])?;
    }
    // a file that cannot be written is told before the work
    try_file(save_to)?;
    let mut watch = |progress: Progress| watch(progress, save_to);
    let reduce = arguments.has("--reduce");
    let planned = Planner { steps, uncut: arguments.has("--uncut"), reduce, watch: &mut watch }.plan(&mut model)?;
    if planned.steps.len() == 1 {
        write_file(save_to, &model.twin.engine.save())?;
    }
    out.text(&table(&planned, reduce).print())?;
    notes(&planned, out)?;
    let k = model.twin.engine.steps();
    let size = planned.steps.last().map(size).unwrap_or_default();
    out.text(&format!("saved to {}: {} ahead, {size}\n", save_to.to_string_lossy(), counted(k as usize, "step")))?;
    if let Some(fault) = &planned.stop {
        message(&format!("stopped after {k} of {steps} steps: {}", reason(fault)));
    }
    Ok(Verdict::refused_if(planned.stop.is_some()))
}

/// The size of a step's diagram after its cuts.
fn size(step: &Step) -> String {
    format!("{}, {}", counted(step.rows, "row"), counted(step.variables, "variable"))
}

/// Progress on standard error, on one line that changes where that is a terminal; each step is saved when it is done.
fn watch(progress: Progress, save_to: &OsStr) -> Result<(), Trouble> {
    let on_terminal = io::stderr().is_terminal();
    match progress {
        Progress::Backup { k, rows, variables } if on_terminal => {
            changing(&format!("step {k}: {}, {}, cutting", counted(rows, "row"), counted(variables, "variable")));
        }
        Progress::Cut { k, cuts, rows } if on_terminal => {
            changing(&format!("step {k}: {} done, {} left", counted(cuts, "cut"), counted(rows, "row")))
        }
        Progress::Step(step, engine) => {
            write_file(save_to, &engine.save())?;
            let end = if on_terminal { "\r\x1b[K" } else { "" };
            let mut cuts = counted(step.cuts.len(), "cut");
            if !step.reductions.is_empty() {
                cuts += &format!(" and {}", counted(step.reductions.len(), "reduction"));
            }
            remark(&format!(
                "{end}step {}: {}, {cuts} done, {} left, {}",
                step.k,
                counted(step.backed_up, "row"),
                size(step),
                seconds(step.time)
            ));
        }
        _ => {}
    }
    Ok(())
}

fn changing(text: &str) {
    let _ = write!(io::stderr(), "\r\x1b[K{text}");
}

fn seconds(time: Duration) -> String {
    format!("{:.2} s", time.as_secs_f64())
}

/// A line for each step. Times stand with the progress, so that the table of a model is always the same.
fn table(plan: &Plan, reduce: bool) -> Table {
    let mut head = vec!["step", "rows", "cuts", "rows left", "variables", "paths"];
    if reduce {
        head.insert(3, "reductions");
    }
    let mut table = Table::new(&head);
    for step in &plan.steps {
        let done = |cell: String| if step.k == plan.steps[0].k { "-".to_string() } else { cell };
        let mut row = vec![
            step.k.to_string(),
            step.backed_up.to_string(),
            done(step.cuts.len().to_string()),
            step.rows.to_string(),
            step.variables.to_string(),
            grouped(step.paths),
        ];
        if reduce {
            row.insert(3, done(step.reductions.len().to_string()));
        }
        table.row(row);
    }
    table
}

/// Where not all could be cut or reduced.
fn notes(plan: &Plan, out: &mut Out) -> Result<(), Trouble> {
    for (how, fault) in uncut(&plan.steps) {
        out.text(&format!("{how}: {}\n", reason(fault)))?;
    }
    for fault in plan.steps.iter().filter_map(|step| step.unreduced.as_ref()) {
        out.text(&format!("not reduced: {}\n", reason(fault)))?;
    }
    Ok(())
}
