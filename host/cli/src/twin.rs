//! The proved engine and the independent implementation side by side: the first answers, the second says why.

use crate::input::Line;
use crate::trouble::Trouble;
use reference::explain::{self, Fault};
use reference::listing::read_listing;
use reference::refusal::Refusal as KnownRefusal;
use reference::session::{Answer as KnownAnswer, Session as Known};
use reference::slips::Slips;
use yindolve::Session;

pub struct Twin {
    pub engine: Session,
    pub known: Known,
}

impl Twin {
    pub fn open() -> Twin {
        Twin { engine: Session::open(), known: Known::new(Slips::NONE) }
    }

    /// The independent implementation brought to where an engine stands that runs by itself: model, value diagram, state and log.
    pub fn of(engine: &Session) -> Result<Twin, Trouble> {
        let mut twin = Twin { engine: engine.clone(), known: Known::new(Slips::NONE) };
        for line in engine.model_lines() {
            twin.known.take(line.as_bytes()).map_err(|_| disagree(&format!("the model's line {line}")))?;
        }
        let listing = engine.listing().map(|listing| read_listing(listing.words(), engine.arities().words()));
        match listing {
            Some(Ok(value)) => twin.known = twin.known.with_value(value, engine.steps()),
            Some(Err(_)) => return Err(disagree("the value diagram")),
            None => {}
        }
        for line in engine.state_lines() {
            twin.known.take(line.as_bytes()).map_err(|_| disagree(&format!("the state's line {line}")))?;
        }
        let log = engine.log();
        twin.known = twin.known.with_log(log.count, log.total);
        Ok(twin)
    }

    /// Answers a line; the reason where it is refused.
    pub fn line(&mut self, line: &Line) -> Result<Option<Fault>, Trouble> {
        answer(&mut self.engine, line);
        let (answers, fault) = self.known_answer(line);
        if answers.as_bytes() == self.engine.answer_bytes() {
            return Ok(fault);
        }
        Err(disagree(&format!("line {}, {}", line.number, line.bytes.escape_ascii())))
    }

    fn known_answer(&mut self, line: &Line) -> (String, Option<Fault>) {
        let taken = if line.ended { self.known.take(&line.bytes) } else { Err(KnownRefusal::Form) };
        match taken {
            Ok(answers) => (answers.iter().map(KnownAnswer::print).collect(), None),
            Err(refusal) => {
                let number = self.engine.lines() as usize;
                let printed = KnownAnswer::Refused { refusal, line: number }.print();
                // a refused line changed nothing, so that its reason can be asked for now
                let fault = explain::explain(&self.known, &line.bytes, line.ended).filter(|fault| fault.refusal == refusal);
                match fault {
                    Some(fault) => (printed, Some(fault)),
                    None => (String::new(), None),
                }
            }
        }
    }
}

/// The engine's answer to a line. A line without its line feed is refused as one with an open bracket is.
pub fn answer(engine: &mut Session, line: &Line) -> yindolve::Answer {
    engine.line(if line.ended { &line.bytes[..] } else { b"(" })
}

fn disagree(where_: &str) -> Trouble {
    Trouble(format!("the proved library and the independent implementation disagree at {where_}; please report this with the text"))
}

/// A reason as it is printed: `file:line:column: word (number): what; what to do`.
pub fn told(name: &str, line: u64, fault: &Fault) -> String {
    let place = if line == 0 { name.to_string() } else { format!("{name}:{line}:{}", fault.span.0 + 1) };
    format!("{place}: {}", reason(fault))
}

/// `word (number): what; what to do`.
pub fn reason(fault: &Fault) -> String {
    let number = fault.refusal.number();
    let word = yindolve::Refusal::from_number(number).map_or("refused", yindolve::Refusal::word);
    format!("{word} ({number}): {}; {}", fault.what, fault.advice)
}

#[cfg(test)]
mod tests {
    use super::*;

    fn line(number: u64, bytes: &[u8]) -> Line {
        Line { number, bytes: bytes.to_vec(), ended: true }
    }

    #[test]
    fn a_disagreement_is_trouble() {
        let mut twin = Twin::open();
        assert!(twin.line(&line(1, b"(constant hub)")).unwrap().is_none());
        twin.known.take(b"(constant shop)").unwrap();
        let Err(Trouble(what)) = twin.line(&line(2, b"(constant shop)")) else {
            panic!("the two agree");
        };
        assert!(what.contains("disagree at line 2, (constant shop)"), "{what}");
    }
}
