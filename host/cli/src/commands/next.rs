//! next: the value diagram as the reward of the next quarter's model.

use crate::arguments::Arguments;
use crate::input::{Lines, Text};
use crate::model::{is_saved, load, Loaded};
use crate::output::{apart_from, Out};
use crate::planning::reason_of;
use crate::trouble::{message, Outcome, Trouble, Verdict};
use crate::twin::{answer, reason};
use reference::explain::{counted, Fault};
use yindolve::Answer;

pub fn next(arguments: &Arguments, out: &mut Out) -> Outcome {
    let (file, models) = arguments.first_file("text or saved plan")?;
    apart_from(arguments.word("--output"), &arguments.all_files())?;
    let text = Text::read(file)?;
    let Some(mut ended) = load(&text)? else {
        return Ok(Verdict::Refused);
    };
    let model = match models {
        [] => own_model(&ended, text),
        [model] => read_model(Text::read(model)?)?,
        _ => return Err(arguments.wrong("more than one model is named")),
    };
    let form = match value_form(&mut ended)? {
        Ok(form) => form,
        Err(fault) => {
            message(&format!("{}: nothing is written, since a line is refused: {}", ended.name, reason(&fault)));
            return Ok(Verdict::Refused);
        }
    };
    let written = with_reward(&model.bytes, &form);
    let Some(next) = load(&Text { bytes: model_part(&written), ..model })? else {
        return Ok(Verdict::Refused);
    };
    tell(&ended, &next)?;
    out.write_to(arguments.word("--output"), &written)?;
    Ok(Verdict::Accepted)
}

/// The model that the value diagram comes from, to be its own successor.
fn own_model(ended: &Loaded, text: Text) -> Text {
    match ended.was_saved {
        true => Text { bytes: ended.twin.engine.model_lines().iter().flat_map(|line| [line.as_bytes(), b"\n"].concat()).collect(), ..text },
        false => text,
    }
}

fn read_model(text: Text) -> Result<Text, Trouble> {
    match is_saved(&text.bytes) {
        true => Err(Trouble(format!("{} is what plan saved, and here the text of a model should stand", text.name))),
        false => Ok(text),
    }
}

/// The form of the value diagram at the end of the text, or the (backup) or the (text) that is refused.
fn value_form(model: &mut Loaded) -> Result<Result<String, Fault>, Trouble> {
    let engine = &mut model.twin.engine;
    let mut lines = Lines::new(model.name.clone(), model.behind.as_slice());
    while let Some(line) = lines.next()? {
        match answer(engine, &line) {
            // other refused lines leave a value diagram of the steps that are meant
            Answer::Refused { refusal, .. } if line.bytes == b"(backup)" => return reason_of(engine, "(backup)", refusal).map(Err),
            _ => {}
        }
    }
    match engine.text() {
        Ok(form) => Ok(Ok(form)),
        Err(refusal) => reason_of(engine, "(text)", refusal).map(Err),
    }
}

/// The lines of a text, and how many come before its (start).
fn lines_to_start(text: &[u8]) -> (Vec<&[u8]>, usize) {
    let lines: Vec<&[u8]> = text.split_inclusive(|byte| *byte == b'\n').collect();
    let start = lines.iter().position(|line| line.starts_with(b"(start)")).unwrap_or(lines.len());
    (lines, start)
}

/// The text with this reward in the place of its own; before its (start) where it has none.
fn with_reward(text: &[u8], form: &str) -> Vec<u8> {
    let (lines, start) = lines_to_start(text);
    let own = lines[..start].iter().position(|line| line.starts_with(b"(reward "));
    let reward = format!("(reward {form})\n").into_bytes();
    let (before, behind) = own.map_or((start, start), |at| (at, at + 1));
    [lines[..before].concat(), reward, lines[behind..].concat()].concat()
}

/// The text up to its (start).
fn model_part(text: &[u8]) -> Vec<u8> {
    let (lines, start) = lines_to_start(text);
    lines[..lines.len().min(start + 1)].concat()
}

/// What the new reward is: its scale, and whether it has the very rows.
fn tell(ended: &Loaded, next: &Loaded) -> Result<(), Trouble> {
    let (old, new) = (&ended.twin.engine, &next.twin.engine);
    let names = |model: &Loaded| (model.twin.known.declarations().constants.clone(), model.twin.known.declarations().predicates.clone());
    let (same_names, same_rows) = (names(ended) == names(next), new.reward() == old.listing());
    if same_names && !same_rows {
        return Err(Trouble(format!(
            "the reward that is read is not the value diagram of {} that was printed; please report this with the text",
            ended.name
        )));
    }
    let rows = counted(old.listing().map_or(0, |listing| listing.len()), "row");
    let steps = counted(old.steps() as usize, "step");
    message(&format!(
        "the reward is the value diagram of {}, {steps} ahead, {rows}; its numbers are {} times the values",
        ended.name,
        old.scale()
    ));
    if !same_rows {
        message(&format!(
            "{} declares other constants and predicates, or others first, so that the reward's rows differ; it means the same",
            next.name
        ));
    }
    Ok(())
}
