//! run: the answers to a text, as the program gives them.

use crate::arguments::Arguments;
use crate::input::{open, Lines};
use crate::model::lines_are;
use crate::output::Out;
use crate::trouble::{message, Outcome, Verdict};
use crate::twin::answer;
use std::io::BufRead;
use yindolve::{Answer, Session};

pub fn run(arguments: &Arguments, out: &mut Out) -> Outcome {
    let (name, input) = open(arguments.one_file()?)?;
    let mut running = Running { lines: Lines::new(name, input), engine: Session::open(), in_model: 0, in_run: 0 };
    running.answer_all(arguments.has("--strict"), out)
}

struct Running<R> {
    lines: Lines<R>,
    engine: Session,
    /// Lines refused before and after (start).
    in_model: u64,
    in_run: u64,
}

impl<R: BufRead> Running<R> {
    fn answer_all(&mut self, strict: bool, out: &mut Out) -> Outcome {
        while let Some(line) = self.lines.next()? {
            let refused = matches!(answer(&mut self.engine, &line), Answer::Refused { .. });
            out.bytes(self.engine.answer_bytes())?;
            let counted = if self.engine.is_started() { &mut self.in_run } else { &mut self.in_model };
            *counted += u64::from(refused);
            if strict && self.in_model > 0 {
                message(&format!(
                    "{}: stopped at line {}, since a model with a refused line is not the one written; yindolve-desk explain tells why",
                    self.lines.name(),
                    line.number
                ));
                return Ok(Verdict::Refused);
            }
        }
        let closing = self.engine.end();
        out.bytes(self.engine.answer_bytes())?;
        self.tell_refused();
        Ok(Verdict::refused_if(self.in_model + self.in_run > 0 || closing != Answer::Nothing))
    }

    fn tell_refused(&self) {
        let name = self.lines.name();
        if self.in_model > 0 && self.engine.is_started() {
            let refused = lines_are(self.in_model);
            message(&format!(
                "{name}: {refused} refused before (start), so the values are those of a model other than the one written; \
                 yindolve-desk explain tells why"
            ));
        }
    }
}
