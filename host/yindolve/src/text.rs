use crate::ffi;
use crate::listing::{Label, Row};
use crate::memory::ANSWER_BYTES;
use crate::refusal::{accepted, Refusal};
use crate::value::Value;

/// Answers that do not fit the lent buffer.
#[non_exhaustive]
#[derive(Clone, Copy, Debug, PartialEq, Eq)]
pub struct Full {
    /// How many bytes of answers were written.
    pub bytes: usize,
    /// How many lines they answer; the answer of the next one does not fit.
    pub lines: u64,
}

impl std::fmt::Display for Full {
    fn fmt(&self, f: &mut std::fmt::Formatter) -> std::fmt::Result {
        write!(f, "the buffer is full after {} bytes, the answers of {} lines", self.bytes, self.lines)
    }
}

impl std::error::Error for Full {}

/// The answers to a whole text, written to `answers`; how many bytes they are. Bytes behind them stay.
///
/// # Errors
/// [`Full`] where the answer of a line does not fit: the answers of the lines before it are written.
pub fn run_into(text: &[u8], answers: &mut [u8]) -> Result<usize, Full> {
    let (mut bytes, mut lines) = (0, 0);
    // SAFETY: each pointer is to as many bytes as its count says, and what is written to overlaps nothing.
    let number = unsafe { ffi::yindolve_run(text.as_ptr(), text.len(), answers.as_mut_ptr(), answers.len(), &mut bytes, &mut lines) };
    let bytes = bytes as usize;
    match number {
        ffi::FULL => Err(Full { bytes, lines }),
        number => {
            accepted(number).expect("a text is never refused");
            Ok(bytes)
        }
    }
}

/// The answers to a whole text, one line each, as the program prints them. A text of blank lines only has none.
///
/// ```
/// let answers = yindolve::run(b"(reward 7)\n(action wait)\n(variant only 100)\n(start)\n(objects 1)\n(value)\n");
/// assert_eq!(answers, b"(value 7 0 1)\n");
/// ```
pub fn run(text: &[u8]) -> Vec<u8> {
    let mut answers = vec![0; ANSWER_BYTES];
    loop {
        match run_into(text, &mut answers) {
            Ok(bytes) => {
                answers.truncate(bytes);
                return answers;
            }
            Err(_) => answers.resize(2 * answers.len(), 0),
        }
    }
}

/// What an accepted `(backup)` did.
#[non_exhaustive]
#[derive(Clone, Copy, Debug, PartialEq, Eq)]
pub struct BackupDone {
    /// k, how many steps are looked ahead by now.
    pub steps: u64,
    /// The rows of the value diagram.
    pub rows: usize,
}

/// What an accepted `(cut)` did.
#[non_exhaustive]
#[derive(Clone, Copy, Debug, PartialEq, Eq)]
pub struct CutDone {
    /// The row of the diagram before whose edge went to leaf 0.
    pub row: usize,
    /// Which edge of that row: the true one or the false one.
    pub edge: bool,
    /// The rows that are left.
    pub rows: usize,
}

/// What an accepted `(reduce)` did.
#[non_exhaustive]
#[derive(Clone, Copy, Debug, PartialEq, Eq)]
pub struct ReduceDone {
    /// The rows of the value diagram: as a rule fewer than before, at most one more.
    pub rows: usize,
}

/// What an accepted `(best)` names: something to do.
#[non_exhaustive]
#[derive(Clone, Debug, PartialEq, Eq)]
pub struct Move {
    /// The action's name.
    pub action: String,
    /// An object for each of its parameters.
    pub objects: Vec<u64>,
}

impl std::fmt::Display for Move {
    fn fmt(&self, f: &mut std::fmt::Formatter) -> std::fmt::Result {
        write!(f, "{}", self.action)?;
        self.objects.iter().try_for_each(|object| write!(f, " {object}"))
    }
}

/// One line of an accepted `(count n)`: a value that occurs.
#[non_exhaustive]
#[derive(Clone, Copy, Debug, PartialEq, Eq)]
pub struct Count {
    /// V, the number that `(value)` prints: S^k times the value; [`Session::scale`](crate::Session::scale) is S^k.
    pub value: u64,
    /// How many states have it.
    pub states: u64,
}

/// What the `(did action variant object ..)` lines come to that were accepted since the state was told.
#[non_exhaustive]
#[derive(Clone, Copy, Debug, Default, PartialEq, Eq)]
pub struct Log {
    /// How many they are.
    pub count: u64,
    /// The sum of the rewards along them, the first state's too, unscaled.
    pub total: u64,
}

/// What a session answers to a line.
#[non_exhaustive]
#[derive(Clone, Debug, PartialEq, Eq)]
pub enum Answer {
    /// The line is accepted, or blank, and has no answer.
    Nothing,
    /// To `(value)`.
    Value(Value),
    /// To `(backup)`.
    Backup(BackupDone),
    /// To `(cut)`.
    Cut(CutDone),
    /// To `(reduce)`.
    Reduce(ReduceDone),
    /// To `(show)`: the rows of the value diagram, the root last.
    Rows(Vec<Row>),
    /// To `(text)`: the value diagram as one nested form, as a `(reward ..)` line takes it.
    Text(String),
    /// To `(best)`.
    Best(Move),
    /// To `(count n)`: each value that occurs, lowest first.
    Counts(Vec<Count>),
    /// To `(did action variant object ..)`.
    Did(Log),
    /// The line is refused and changed nothing.
    Refused {
        /// Why.
        refusal: Refusal,
        /// The line's number, from 1 on; 0 in the closing answer.
        line: u64,
    },
    /// An answer that this version does not know, as it was written.
    Other(String),
}

impl Answer {
    /// The answer of these bytes, if they are one that this version knows.
    ///
    /// ```
    /// use yindolve::{Answer, Refusal};
    /// assert_eq!(Answer::read(b"(refused 16 18)\n"), Some(Answer::Refused { refusal: Refusal::Nothing, line: 18 }));
    /// assert_eq!(Answer::read(b"(refused)\n"), None);
    /// ```
    pub fn read(bytes: &[u8]) -> Option<Answer> {
        let text = std::str::from_utf8(bytes).ok()?;
        if let Some(form) = read_form(text) {
            return Some(Answer::Text(form.to_string()));
        }
        let forms = text.lines().map(|line| line.strip_prefix('(')?.strip_suffix(')').map(|words| words.split(' ').collect()));
        let forms: Vec<Vec<&str>> = forms.collect::<Option<_>>()?;
        let number = |word: &str| word.parse::<u64>().ok();
        let place = |word: &str| word.parse::<usize>().ok();
        Some(match forms.first().map(Vec::as_slice) {
            None => Answer::Nothing,
            Some(&["value", value, steps, scale]) => Answer::Value(Value::new(number(value)?, number(steps)?, number(scale)?)),
            Some(&["backup", steps, rows]) => Answer::Backup(BackupDone { steps: number(steps)?, rows: place(rows)? }),
            Some(&["cut", row, edge, rows]) => Answer::Cut(CutDone { row: place(row)?, edge: edge.parse().ok()?, rows: place(rows)? }),
            Some(&["reduce", rows]) => Answer::Reduce(ReduceDone { rows: place(rows)? }),
            Some(&["refused", refusal, line]) => Answer::Refused { refusal: Refusal::from_number(number(refusal)?)?, line: number(line)? },
            Some(&["best", action, ref objects @ ..]) => {
                let objects = objects.iter().map(|object| number(object)).collect::<Option<_>>()?;
                Answer::Best(Move { action: action.to_string(), objects })
            }
            Some(&["did", count, total]) => Answer::Did(Log { count: number(count)?, total: number(total)? }),
            Some(&["count", ..]) => Answer::Counts(forms.iter().map(|form| read_count(form)).collect::<Option<_>>()?),
            Some(_) => Answer::Rows(forms.iter().map(|form| read_row(form)).collect::<Option<_>>()?),
        })
    }
}

/// The one line of a diagram's form: a number, or `(if ..)`.
fn read_form(text: &str) -> Option<&str> {
    let form = Some(text.strip_suffix('\n').unwrap_or(text)).filter(|form| !form.is_empty() && !form.contains('\n'))?;
    let is_number = form.bytes().all(|byte| byte.is_ascii_digit());
    (is_number || form.starts_with("(if ") && form.ends_with(')')).then_some(form)
}

fn read_row(form: &[&str]) -> Option<Row> {
    match *form {
        ["row", _, "leaf", value] => Some(Row::Leaf(value.parse().ok()?)),
        ["row", _, label, yes, no] => {
            Some(Row::Branch { label: Label::from_word(label.parse().ok()?), yes: yes.parse().ok()?, no: no.parse().ok()? })
        }
        _ => None,
    }
}

fn read_count(form: &[&str]) -> Option<Count> {
    match *form {
        ["count", value, states] => Some(Count { value: value.parse().ok()?, states: states.parse().ok()? }),
        _ => None,
    }
}

#[cfg(test)]
mod tests {
    use super::*;
    use crate::Term;

    #[test]
    fn answers() {
        let read = |text: &str| Answer::read(text.as_bytes());
        assert_eq!(read(""), Some(Answer::Nothing));
        assert_eq!(read("(value 30 1 8)\n"), Some(Answer::Value(Value::new(30, 1, 8))));
        assert_eq!(read("(backup 1 6)\n"), Some(Answer::Backup(BackupDone { steps: 1, rows: 6 })));
        assert_eq!(read("(cut 5 false 5)\n"), Some(Answer::Cut(CutDone { row: 5, edge: false, rows: 5 })));
        assert_eq!(read("(reduce 7)\n"), Some(Answer::Reduce(ReduceDone { rows: 7 })));
        assert_eq!(read("(reduce)\n"), None);
        assert_eq!(read("(refused 16 18)\n"), Some(Answer::Refused { refusal: Refusal::Nothing, line: 18 }));
        assert_eq!(read("(refused 28 9)\n"), Some(Answer::Refused { refusal: Refusal::Combinations, line: 9 }));
        let rows = vec![Row::Leaf(30), Row::Leaf(0), Row::Branch { label: Label::new(1, &[Term::Constant(0)]), yes: 0, no: 1 }];
        assert_eq!(read("(row 0 leaf 30)\n(row 1 leaf 0)\n(row 2 281474976710656 0 1)\n"), Some(Answer::Rows(rows)));
        assert_eq!(read("7\n"), Some(Answer::Text("7".to_string())));
        assert_eq!(read("(if (stock ?v0) 5 0)\n"), Some(Answer::Text("(if (stock ?v0) 5 0)".to_string())));
        assert_eq!(read("7\n7\n"), None);
        let best = |action: &str, objects: &[u64]| Some(Answer::Best(Move { action: action.to_string(), objects: objects.to_vec() }));
        assert_eq!(read("(best wait)\n"), best("wait", &[]));
        assert_eq!(read("(best carry 11 0 10 9)\n"), best("carry", &[11, 0, 10, 9]));
        assert_eq!(Move { action: "carry".to_string(), objects: vec![11, 0] }.to_string(), "carry 11 0");
        assert_eq!(read("(best)\n"), None);
        assert_eq!(read("(best carry x)\n"), None);
        let counts = [(30, 2), (120, 65_534)].map(|(value, states)| Count { value, states });
        assert_eq!(read("(count 30 2)\n(count 120 65534)\n"), Some(Answer::Counts(counts.to_vec())));
        assert_eq!(read("(count 30 2)\n(value 30 1 8)\n"), None);
        assert_eq!(read("(count 30)\n"), None);
        assert_eq!(read("(did 7 1000000000000000000)\n"), Some(Answer::Did(Log { count: 7, total: 1_000_000_000_000_000_000 })));
        assert_eq!(read("(did 7)\n"), None);
        assert_eq!(read("(did fill done)\n"), None);
        assert_eq!(read("(refused 21 9)\n"), Some(Answer::Refused { refusal: Refusal::Weightless, line: 9 }));
        assert_eq!(read("(refused 24 9)\n"), Some(Answer::Refused { refusal: Refusal::Ground, line: 9 }));
        assert_eq!(read("(refused 99 1)\n"), None);
        assert_eq!(read("(row 0 leaf 30)\nrow\n"), None);
    }
}
