//! A state's lines, read into a copy of the engine, and a question about the state.

use crate::input::{Line, Lines};
use crate::model::Loaded;
use crate::trouble::{message, remark, Trouble};
use crate::twin::{answer, told, Twin};
use reference::explain::explain;
use reference::text::{line_of, read_words, Line as Form};
use yindolve::{Answer, Session};

/// A state while it is read.
pub struct Reader {
    name: String,
    twin: Twin,
    /// Whether an (objects n) was there.
    begun: bool,
    accepted: bool,
    /// The number of the last line.
    last: u64,
}

impl Reader {
    /// Reads the lines of a state; each that is refused is told.
    pub fn read(model: &Loaded, mut lines: Lines<&[u8]>) -> Result<Reader, Trouble> {
        let twin = Twin { engine: model.twin.engine.clone(), known: model.twin.known.clone() };
        let mut reader = Reader { name: lines.name().to_string(), twin, begun: false, accepted: true, last: 0 };
        while let Some(line) = lines.next()? {
            reader.take(&line)?;
        }
        Ok(reader)
    }

    fn take(&mut self, line: &Line) -> Result<(), Trouble> {
        self.last = line.number;
        match read_words(&line.bytes).ok().and_then(|words| line_of(&words)) {
            Some(Form::Objects(_)) => self.begin(line.number),
            Some(Form::Is(..) | Form::True(..)) | None => {}
            Some(_) => {
                self.accepted = false;
                let lines = "a state has (objects n), (is c o) and (true p o ..) lines";
                remark(&format!("{}:{}:1: this is no line of a state; {lines}", self.name, line.number));
                return Ok(());
            }
        }
        if let Answer::Refused { .. } = answer(&mut self.twin.engine, line) {
            return self.tell_refused(&line.bytes, line.ended);
        }
        // what the engine took is kept for the reason of a later line
        let _ = self.twin.known.take(&line.bytes);
        Ok(())
    }

    fn begin(&mut self, number: u64) {
        if self.begun {
            message(&format!("{}:{number}: a second (objects n) begins the state anew; what stands before it does not count", self.name));
        }
        self.begun = true;
    }

    fn tell_refused(&mut self, line: &[u8], ended: bool) -> Result<(), Trouble> {
        self.accepted = false;
        let fault = explain(&self.twin.known, line, ended).ok_or_else(|| {
            let place = format!("{}:{}", self.name, self.last);
            Trouble(format!("{place}: the proved library refuses the line, and the independent implementation does not"))
        })?;
        remark(&told(&self.name, self.last, &fault));
        Ok(())
    }

    /// The engine with the state in hand; none where a line of the state is refused, which was told.
    pub fn engine(self) -> Option<Session> {
        self.accepted.then_some(self.twin.engine)
    }

    /// The engine's answer to a question about the state; none where a line of the state or the question is refused, which was told.
    pub fn ask(mut self, question: &str) -> Result<Option<Answer>, Trouble> {
        if !self.accepted {
            return Ok(None);
        }
        match self.twin.engine.line(question) {
            Answer::Refused { .. } => self.tell_refused(question.as_bytes(), true).map(|()| None),
            answer => Ok(Some(answer)),
        }
    }
}
