//! Why a line is refused, for people: the bytes at fault, what was found there, and what to do. The answers are given by the other
//! modules; a line is looked at again here, check by check in document 01's order, so that what is told can be held against the answer.

mod backup;
mod form;
mod measure;
mod place;
mod questions;
mod replay;
mod sizes;
mod words;

use crate::refusal::Refusal;
use crate::session::Session;
use crate::text::{self, Span};

pub use measure::count_paths;

/// A refusal with its reason.
#[derive(Clone, Debug, PartialEq, Eq)]
pub struct Fault {
    pub refusal: Refusal,
    /// The bytes of the line at fault.
    pub span: Span,
    pub what: String,
    /// What to do about it.
    pub advice: String,
}

impl Fault {
    fn new(refusal: Refusal, span: Span, what: impl Into<String>, advice: impl Into<String>) -> Fault {
        Fault { refusal, span, what: what.into(), advice: advice.into() }
    }
}

type Checked = Result<(), Fault>;

/// `Ok` where the condition holds, the fault where it does not.
fn unless_fault(condition: bool, fault: impl FnOnce() -> Fault) -> Checked {
    if condition {
        Ok(())
    } else {
        Err(fault())
    }
}

/// The reason why a session would refuse this line; none where it would take it. `ended` is false for a last line without a line feed.
pub fn explain(session: &Session, line: &[u8], ended: bool) -> Option<Fault> {
    checked(session, line, ended).err()
}

fn checked(session: &Session, line: &[u8], ended: bool) -> Checked {
    unless_fault(ended, || form::not_ended(line))?;
    if line.is_empty() {
        return Ok(());
    }
    let words = text::read_words(line).map_err(|flawed| form::flawed(line, flawed))?;
    let form = text::line_of(&words).ok_or_else(|| form::misfit(&words, line.len()))?;
    place::check(session, &form, (0, line.len()))?;
    words::check(session, &words)?;
    sizes::check(session, &words, &form)
}

/// The reason of the closing (refused 5 0).
pub fn no_start() -> Fault {
    Fault::new(
        Refusal::Place,
        (0, 0),
        "the text ends and no (start) was accepted",
        "close the model with (start); where there is one, mend the lines that were refused before it",
    )
}

/// A number with a comma before each three digits.
pub fn grouped(number: u128) -> String {
    let digits = number.to_string();
    let comma = |i: usize| i > 0 && (digits.len() - i).is_multiple_of(3);
    digits.chars().enumerate().flat_map(|(i, digit)| comma(i).then_some(',').into_iter().chain([digit])).collect()
}

/// "1 row", "2 rows".
pub fn counted(count: usize, noun: &str) -> String {
    format!("{} {noun}{}", grouped(count as u128), if count == 1 { "" } else { "s" })
}
