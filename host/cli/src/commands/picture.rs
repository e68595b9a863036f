//! picture: a value diagram as SVG or for Graphviz.

use crate::arguments::Arguments;
use crate::drawing::{dot::dot, svg::svg, Figure};
use crate::input::Text;
use crate::model::{is_saved, load, Loaded};
use crate::output::{apart_from, Out};
use crate::planning::{diagram, Planner};
use crate::trouble::{message, Outcome, Trouble, Verdict};
use crate::twin::reason;
use reference::diagram::Diagram;
use reference::explain::counted;
use reference::listing::read_listing;
use reference::mdp::power;
use reference::names::Names;
use std::ffi::OsStr;
use std::path::Path;
use yindolve::{Answer, Row};

/// A value diagram, its steps and its scale.
struct Shown {
    diagram: Diagram,
    steps: u64,
    scale: u64,
}

pub fn picture(arguments: &Arguments, out: &mut Out) -> Outcome {
    let (file, rest) = arguments.first_file("model")?;
    let steps = arguments.number("--step")?;
    let shown_file = match rest {
        [] => None,
        [file] if steps.is_none() => Some(file.as_os_str()),
        _ => return Err(arguments.wrong("beside the model either --step K or one file is named")),
    };
    let as_dot = wants_dot(arguments)?;
    apart_from(arguments.word("--output"), &arguments.all_files())?;
    let Some(mut model) = load(&Text::read(file)?)? else {
        return Ok(Verdict::Refused);
    };
    let stopped = match steps {
        Some(steps) => plan_to(&mut model, steps, arguments)?,
        None => false,
    };
    let shown = match shown_file {
        Some(file) => from_file(&model, &Text::read(file)?)?,
        None => in_hand(&model),
    };
    let names = Names { declarations: model.twin.known.declarations(), parameters: &[] };
    let figure = Figure { diagram: &shown.diagram, names, steps: shown.steps, scale: shown.scale };
    let drawn = if as_dot { dot(&figure) } else { svg(&figure) };
    out.write_to(arguments.word("--output"), drawn.as_bytes())?;
    Ok(Verdict::refused_if(stopped))
}

fn wants_dot(arguments: &Arguments) -> Result<bool, Trouble> {
    let extension = arguments.word("--output").and_then(|file| Path::new(file).extension()).and_then(OsStr::to_str);
    match arguments.word("--format").map(|word| word.to_str().unwrap_or("")) {
        None => Ok(matches!(extension, Some("dot" | "gv"))),
        Some("dot") => Ok(true),
        Some("svg") => Ok(false),
        Some(other) => Err(arguments.wrong(&format!("--format is svg or dot, and there is {other}"))),
    }
}

/// Looks so many steps ahead in all; whether a step was refused, which was told.
fn plan_to(model: &mut Loaded, steps: u64, arguments: &Arguments) -> Result<bool, Trouble> {
    let there = model.twin.engine.steps();
    if steps < there {
        let there = counted(there as usize, "step");
        return Err(Trouble(format!("{} looks {there} ahead already, and no step can be taken back; name the model's text", model.name)));
    }
    let mut planner = Planner { steps: steps - there, uncut: arguments.has("--uncut"), reduce: false, watch: &mut |_| Ok(()) };
    let plan = planner.plan(model)?;
    if let Some(fault) = &plan.stop {
        message(&format!(
            "drawn is the diagram after step {}, since the next one is refused: {}",
            model.twin.engine.steps(),
            reason(fault)
        ));
    }
    Ok(plan.stop.is_some())
}

fn in_hand(model: &Loaded) -> Shown {
    let engine = &model.twin.engine;
    Shown { diagram: diagram(engine), steps: engine.steps(), scale: engine.scale() }
}

/// The diagram of a saved plan, or of the last (show) among answers.
fn from_file(model: &Loaded, text: &Text) -> Result<Shown, Trouble> {
    if !is_saved(&text.bytes) {
        return last_shown(model, text);
    }
    let saved = load(text)?.ok_or_else(|| Trouble(format!("{} holds no model", text.name)))?;
    if saved.twin.engine.model_lines() != model.twin.engine.model_lines() {
        return Err(Trouble(format!("{} was saved from another model than {}", text.name, model.name)));
    }
    Ok(in_hand(&saved))
}

fn last_shown(model: &Loaded, text: &Text) -> Result<Shown, Trouble> {
    let mut rows: Vec<Row> = Vec::new();
    let (mut steps, mut shown_steps) = (0, 0);
    for (number, line) in text.bytes.split(|byte| *byte == b'\n').enumerate() {
        match Answer::read(line) {
            Some(Answer::Backup(done)) => steps = done.steps,
            Some(Answer::Rows(read)) => {
                if line.starts_with(b"(row 0 ") {
                    (rows, shown_steps) = (Vec::new(), steps);
                }
                rows.extend(read);
            }
            Some(_) => {}
            None => {
                return Err(Trouble(format!("{}:{}: this is no answer of the program: {}", text.name, number + 1, line.escape_ascii())))
            }
        }
    }
    if rows.is_empty() {
        return Err(Trouble(format!("{} holds no (row ..) line; put (show) into the text, or name what plan saved", text.name)));
    }
    let words: Vec<u64> = rows.iter().flat_map(|row| row.words()).collect();
    let diagram = read_listing(&words, model.twin.engine.arities().words())
        .map_err(|_| Trouble(format!("the last (row ..) lines of {} are no whole diagram of the model {}", text.name, model.name)))?;
    let scale = model.twin.known.started().and_then(|run| power(run.model.scale(), shown_steps)).unwrap_or(1);
    Ok(Shown { diagram, steps: shown_steps, scale })
}
