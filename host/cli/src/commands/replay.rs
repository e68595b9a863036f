//! replay: the lines of a log, one after another, from a state on.

use crate::arguments::Arguments;
use crate::input::{Line, Lines, Text};
use crate::model::load;
use crate::output::{apart_from, Out};
use crate::state::Reader;
use crate::table::Table;
use crate::trouble::{message, remark, Outcome, Trouble, Verdict};
use crate::twin::{answer, told, Twin};
use reference::explain::{counted, explain, grouped};
use reference::text::{line_of, read_words, Line as Form};
use yindolve::{Answer, Refusal, Session};

pub fn replay(arguments: &Arguments, out: &mut Out) -> Outcome {
    let (file, rest) = arguments.first_file("saved plan or model")?;
    let (state, logs) = rest.split_first().ok_or_else(|| arguments.wrong("no state is named"))?;
    if logs.is_empty() {
        return Err(arguments.wrong("no log is named"));
    }
    apart_from(arguments.word("--output"), &arguments.all_files())?;
    let Some(model) = load(&Text::read(file)?)? else {
        return Ok(Verdict::Refused);
    };
    let state = Reader::read(&model, Text::read(state)?.lines())?;
    // all of them before the first line is answered
    let logs = logs.iter().map(|log| Text::read(log)).collect::<Result<Vec<Text>, Trouble>>()?;
    let Some(engine) = state.engine() else {
        return Ok(Verdict::Refused);
    };
    let mut replay = Replay { engine, table: Table::new(&["line", "action", "outcome", "objects", "count", "total"]), refused: 0 };
    for log in &logs {
        replay.log(log.lines(), arguments.has("--strict"))?;
    }
    replay.end(arguments, out)
}

/// A log while it is replayed.
struct Replay {
    engine: Session,
    table: Table,
    refused: usize,
}

impl Replay {
    /// The lines of one file; with `strict` up to the first that is refused, in this file or one before.
    fn log(&mut self, mut lines: Lines<&[u8]>, strict: bool) -> Result<(), Trouble> {
        while let Some(line) = lines.next()? {
            if strict && self.refused > 0 {
                return Ok(());
            }
            self.line(lines.name(), &line)?;
        }
        Ok(())
    }

    fn line(&mut self, name: &str, line: &Line) -> Result<(), Trouble> {
        let place = format!("{name}:{}", line.number);
        let form = read_words(&line.bytes).ok().and_then(|words| line_of(&words));
        if form.as_ref().is_some_and(|form| !matches!(form, Form::Did(..))) {
            self.refused += 1;
            remark(&format!("{place}:1: this is no line of a log; a log has (did ACTION VARIANT OBJECT ..) lines"));
            return Ok(());
        }
        match (answer(&mut self.engine, line), form) {
            (Answer::Did(log), Some(Form::Did(action, outcome, objects))) => {
                let objects = objects.iter().map(u64::to_string).collect::<Vec<String>>().join(" ");
                self.table.row(vec![place, action, outcome, objects, log.count.to_string(), log.total.to_string()]);
            }
            (Answer::Refused { refusal, .. }, form) => {
                self.refused += 1;
                remark(&self.reason(name, line, refusal, form)?);
            }
            // a blank one
            _ => {}
        }
        Ok(())
    }

    /// Why a line is refused, by the independent implementation brought to where the engine stands.
    fn reason(&self, name: &str, line: &Line, refusal: Refusal, form: Option<Form>) -> Result<String, Trouble> {
        if form.is_some() && self.takes_long(refusal) {
            return Ok(format!("{name}:{}:1: {} ({}): {}", line.number, refusal.word(), refusal.number(), refusal.meaning()));
        }
        let fault = explain(&Twin::of(&self.engine)?.known, &line.bytes, line.ended);
        match fault.filter(|fault| fault.refusal.number() == refusal.number()) {
            Some(fault) => Ok(told(name, line.number, &fault)),
            None => Err(Trouble(format!(
                "{name}:{}: the proved library refuses the line, and the independent implementation does not, or for another reason",
                line.number
            ))),
        }
    }

    /// Whether the independent implementation, which goes through all tuples of objects for the next state, would be long about a refusal that comes behind it.
    fn takes_long(&self, refusal: Refusal) -> bool {
        const TUPLES: u64 = 1_000_000;
        let objects = self.engine.objects();
        let tuples = |(_, arity): &(String, u64)| objects.saturating_pow(*arity as u32);
        let behind = matches!(refusal, Refusal::Crowded | Refusal::Valuations | Refusal::Tally);
        behind && self.engine.vocabulary().predicates().iter().map(tuples).max() > Some(TUPLES)
    }

    fn end(self, arguments: &Arguments, out: &mut Out) -> Outcome {
        if self.table.rows() > 0 {
            out.text(&self.table.print())?;
        }
        let (log, done) = (self.engine.log(), counted(self.table.rows(), "line"));
        let refused = if self.refused > 0 { format!(", {} not", self.refused) } else { String::new() };
        message(&format!("{done} done{refused}; the total is {}", grouped(log.total.into())));
        if let Some(file) = arguments.word("--output") {
            let state: String = self.engine.state_lines().iter().flat_map(|line| [line.as_str(), "\n"]).collect();
            out.write_to(Some(file), state.as_bytes())?;
        }
        Ok(Verdict::refused_if(self.refused > 0))
    }
}
