//! A session as bytes. They are lines: a heading with the format's number, then the parts with the count of their lines, and at the end
//! the count of answered lines, 1 where one of them is not blank and else 0, and a sum over everything before it. Format 1 had no line `met`, format 2 rows with
//! labels of four places; format 3, which is read too, had no line `did`.
//!
//! ```text
//! yindolve session 4
//! model 10
//! (constant hub)
//! ..
//! state 2
//! (objects 2)
//! (is hub 0)
//! did 3 20
//! value 1 6
//! (row 0 leaf 120)
//! ..
//! lines 14
//! met 1
//! sum 0123456789abcdef
//! ```

use crate::listing::Row;
use crate::text::{Answer, Log};
use std::fmt;

const HEADING: &str = "yindolve session ";
const FORMAT: &str = "4";
/// The format before, without a log.
const WITHOUT_LOG: &str = "3";
/// The highest power of the scale, the most steps, and the highest count and total of a log.
const MOST: u64 = 1_000_000_000_000_000_000;

/// Bytes that are no saved session.
#[derive(Clone, Debug, PartialEq, Eq)]
pub struct Damaged {
    what: String,
}

impl Damaged {
    pub(crate) fn new(what: impl Into<String>) -> Damaged {
        Damaged { what: what.into() }
    }
}

impl fmt::Display for Damaged {
    fn fmt(&self, f: &mut fmt::Formatter) -> fmt::Result {
        write!(f, "not a saved session: {}", self.what)
    }
}

impl std::error::Error for Damaged {}

pub struct Parts {
    pub model: Vec<String>,
    pub state: Vec<String>,
    pub log: Log,
    pub steps: u64,
    pub rows: Vec<Row>,
    pub lines: u64,
    pub met: bool,
}

/// The sum FNV-1a of 64 bits.
fn sum(bytes: &[u8]) -> u64 {
    bytes.iter().fold(0xcbf2_9ce4_8422_2325, |sum, byte| (sum ^ u64::from(*byte)).wrapping_mul(0x0100_0000_01b3))
}

pub fn write(parts: &Parts) -> Vec<u8> {
    let mut text = format!("{HEADING}{FORMAT}\n");
    for (name, lines) in [("model", &parts.model), ("state", &parts.state)] {
        text += &format!("{name} {}\n", lines.len());
        text.extend(lines.iter().flat_map(|line| [line.as_str(), "\n"]));
    }
    text += &format!("did {} {}\n", parts.log.count, parts.log.total);
    text += &format!("value {} {}\n", parts.steps, parts.rows.len());
    for (number, row) in parts.rows.iter().enumerate() {
        text += &match row {
            Row::Leaf(value) => format!("(row {number} leaf {value})\n"),
            Row::Branch { label, yes, no } => format!("(row {number} {} {yes} {no})\n", label.word()),
        };
    }
    text += &format!("lines {}\nmet {}\n", parts.lines, u64::from(parts.met));
    let sum = sum(text.as_bytes());
    text += &format!("sum {sum:016x}\n");
    text.into_bytes()
}

/// The lines that are still to be read.
struct Reader<'a>(std::str::Lines<'a>);

impl<'a> Reader<'a> {
    fn line(&mut self) -> Result<&'a str, Damaged> {
        self.0.next().ok_or(Damaged::new("it ends too early"))
    }

    /// The words behind this first one.
    fn heading(&mut self, name: &str) -> Result<Vec<u64>, Damaged> {
        let line = self.line()?;
        let wrong = || Damaged::new(format!("{line:?} where the line '{name} ..' is due"));
        let words = line.strip_prefix(name).and_then(|rest| rest.strip_prefix(' ')).ok_or_else(wrong)?;
        words.split(' ').map(|word| word.parse().map_err(|_| wrong())).collect()
    }

    fn lines(&mut self, count: u64) -> Result<Vec<String>, Damaged> {
        (0..count).map(|_| self.line().map(str::to_string)).collect()
    }
}

/// The parts, where the heading and the sum are right. What the lines say is checked by who reads them.
pub fn read(bytes: &[u8]) -> Result<Parts, Damaged> {
    let format = bytes.strip_prefix(HEADING.as_bytes()).ok_or(Damaged::new("it does not begin with 'yindolve session'"))?;
    let format = format.split(|byte| *byte == b'\n').next().unwrap_or_default();
    let with_log = format == FORMAT.as_bytes();
    if !with_log && format != WITHOUT_LOG.as_bytes() {
        return Err(Damaged::new(format!("its format is {} and not {FORMAT}", String::from_utf8_lossy(format).escape_debug())));
    }
    // "sum ", sixteen digits and a line feed
    let (before, last) = bytes.split_at(bytes.len().saturating_sub(21));
    if last != format!("sum {:016x}\n", sum(before)).as_bytes() {
        return Err(Damaged::new("its sum is wrong, so that bytes were lost or changed"));
    }
    let text = std::str::from_utf8(before).map_err(|_| Damaged::new("it has bytes that are no letters"))?;
    let mut reader = Reader(text.lines());
    reader.line()?;
    let model = reader.heading("model")?;
    let model = reader.lines(one(&model)?)?;
    let state = reader.heading("state")?;
    let state = reader.lines(one(&state)?)?;
    let log = if with_log { read_log(&reader.heading("did")?)? } else { Log::default() };
    let [steps, rows] = reader.heading("value")?[..] else {
        return Err(Damaged::new("the line 'value ..' has two numbers"));
    };
    let rows: String = reader.lines(rows)?.iter().flat_map(|line| [line.as_str(), "\n"]).collect();
    let rows = match Answer::read(rows.as_bytes()) {
        Some(Answer::Nothing) => Vec::new(),
        Some(Answer::Rows(rows)) => rows,
        _ => return Err(Damaged::new("a line is no row")),
    };
    let lines = one(&reader.heading("lines")?)?;
    if lines > MOST {
        return Err(Damaged::new("there are too many lines"));
    }
    let met = match one(&reader.heading("met")?)? {
        0 => false,
        1 => true,
        _ => return Err(Damaged::new("the line 'met ..' has 0 or 1")),
    };
    match reader.line() {
        Err(_) => Ok(Parts { model, state, log, steps, rows, lines, met }),
        Ok(line) => Err(Damaged::new(format!("{line:?} where the sum is due"))),
    }
}

fn read_log(numbers: &[u64]) -> Result<Log, Damaged> {
    match *numbers {
        [count, total] if count <= MOST && total <= MOST => Ok(Log { count, total }),
        _ => Err(Damaged::new("the line 'did ..' has two numbers, at most 10^18 each")),
    }
}

fn one(numbers: &[u64]) -> Result<u64, Damaged> {
    match numbers {
        [number] => Ok(*number),
        _ => Err(Damaged::new("a line has more than one number")),
    }
}

/// S^k, if it is at most 10^18.
pub fn scale(of_step: u64, steps: u64) -> Option<u64> {
    if of_step == 1 {
        return (steps <= MOST).then_some(1);
    }
    // from 2 on, 60 steps pass 10^18
    let power = of_step.checked_pow(u32::try_from(steps.min(64)).expect("at most 64"))?;
    (power <= MOST).then_some(power)
}

#[cfg(test)]
mod tests {
    use super::*;
    use crate::{Label, Session, Term};

    const SAMPLE: &str = include_str!("../../../examples/sample.txt");

    fn saved() -> Vec<u8> {
        let (mut session, _) = Session::load_part(SAMPLE.as_bytes()).unwrap();
        session.backup().unwrap();
        session.tell("(objects 2)\n(is hub 0)\n(true stock 1)\n(did fill none 1)\n(did fill done 0)\n").unwrap();
        session.save()
    }

    /// With the right sum behind these bytes.
    fn with_sum(before: &[u8]) -> Vec<u8> {
        [before, format!("sum {:016x}\n", sum(before)).as_bytes()].concat()
    }

    #[test]
    fn every_damaged_byte_is_seen() {
        let bytes = saved();
        assert!(Session::restore(&bytes).is_ok());
        for at in 0..bytes.len() {
            for change in [1, 0x20, 0x80] {
                let mut damaged = bytes.clone();
                damaged[at] ^= change;
                assert!(Session::restore(&damaged).is_err(), "byte {at} changed");
            }
            assert!(Session::restore(&bytes[..at]).is_err(), "cut off at {at}");
            assert!(Session::restore(&bytes[at + 1..]).is_err(), "begun behind {at}");
        }
    }

    /// Bytes that were changed and given the right sum: refused, or a session that answers.
    #[test]
    fn made_up_bytes_do_no_harm() {
        let bytes = saved();
        let text = &bytes[..bytes.len() - 21];
        let mut restored = 0;
        for at in HEADING.len() + 2..text.len() {
            for byte in *b"0179 ()as\n" {
                let mut changed = text.to_vec();
                changed[at] = byte;
                if let Ok(mut session) = Session::restore(&with_sum(&changed)) {
                    restored += 1;
                    for line in ["(value)", "(show)", "(cut)", "(backup)", "(did fill none 0)", "(objects 3)", "(is hub 2)", "(value)"] {
                        session.line(line);
                    }
                }
            }
        }
        assert!(restored > 100, "{restored}");
    }

    #[test]
    fn what_is_wrong_is_told() {
        let bytes = saved();
        let text = std::str::from_utf8(&bytes[..bytes.len() - 21]).unwrap();
        let wrong = |from: &str, to: &str| {
            assert!(text.contains(from), "{from}");
            Session::restore(&with_sum(text.replace(from, to).as_bytes())).unwrap_err().to_string()
        };
        let restored = |bytes: &[u8]| Session::restore(bytes).unwrap_err().to_string();
        assert_eq!(restored(b"(reward 7)\n"), "not a saved session: it does not begin with 'yindolve session'");
        assert_eq!(restored(b"yindolve session 2\n"), "not a saved session: its format is 2 and not 4");
        assert_eq!(restored(&bytes[..90]), "not a saved session: its sum is wrong, so that bytes were lost or changed");
        assert_eq!(
            wrong("stock ?s", "stok ?s"),
            "not a saved session: the line (becomes (stok ?s) (if (= !d ?s) 1 (if (stok ?s) 1 0))) is not accepted there"
        );
        assert_eq!(wrong("(row 3 leaf 0)", "(row 3 leaf 120)"), "not a saved session: the rows are no listing");
        let equality = |term| Label::equality(Term::Constant(0), term).unwrap().word().to_string();
        let first = equality(Term::Variable(0));
        for other in [Term::Parameter(0), Term::Variable(1), Term::Minimum(1)] {
            let told = wrong(&first, &equality(other));
            assert_eq!(told, "not a saved session: the value diagram has a parameter, or its variables are not closed up");
        }
        assert_eq!(wrong("value 1 ", "value 20 "), "not a saved session: there are too many steps");
        assert_eq!(wrong("(start)", "(total 5)"), "not a saved session: the line (total 5) is not accepted there");
        assert_eq!(wrong("model 10", "model 11"), "not a saved session: \"(objects 2)\" where the line 'state ..' is due");
        assert_eq!(wrong("model 10", "model 9"), "not a saved session: \"(start)\" where the line 'state ..' is due");
        let numbers = "not a saved session: the line 'did ..' has two numbers, at most 10^18 each";
        assert_eq!(wrong("did 2 10", "did 2"), numbers);
        assert_eq!(wrong("did 2 10", "did 1000000000000000001 10"), numbers);
        assert_eq!(wrong("did 2 10", "did 0 10"), "not a saved session: it has a total of logged lines, but no state or no line");
        assert_eq!(wrong("did 2 10\n", ""), "not a saved session: \"value 1 6\" where the line 'did ..' is due");
        assert_eq!(wrong("met 1", "met 2"), "not a saved session: the line 'met ..' has 0 or 1");
        assert_eq!(wrong("met 1", "met 0"), "not a saved session: it has lines of a model, but says that none was met");
        assert_eq!(wrong("(is hub 0)", "(constant c)"), "not a saved session: the line (constant c) is not accepted there");
    }

    /// A log goes on where it was saved, up to its limit; a session of the format before has none.
    #[test]
    fn logs() {
        let bytes = saved();
        let text = std::str::from_utf8(&bytes[..bytes.len() - 21]).unwrap();
        let restored = |text: String| Session::restore(&with_sum(text.as_bytes())).unwrap();
        let mut session = restored(text.to_string());
        assert_eq!(session.did("fill", "none", &[0]), Ok(Log { count: 3, total: 20 }));
        let mut last = restored(text.replace("did 2 10", &format!("did {} 10", MOST - 1)));
        assert_eq!(last.did("fill", "none", &[0]), Ok(Log { count: MOST, total: 20 }));
        assert_eq!(last.did("fill", "none", &[0]), Err(crate::Refusal::Tally));
        assert_eq!(last.log(), Log { count: MOST, total: 20 });
        let mut before = restored(text.replace("session 4", "session 3").replace("did 2 10\n", ""));
        assert_eq!(before.log(), Log::default());
        assert_eq!(before.did("fill", "none", &[0]), Ok(Log { count: 1, total: 20 }));
    }

    #[test]
    fn scales() {
        assert_eq!(scale(8, 19), Some(144_115_188_075_855_872));
        assert_eq!(scale(8, 20), None);
        assert_eq!(scale(1, MOST), Some(1));
        assert_eq!(scale(1, MOST + 1), None);
        assert_eq!(scale(2, u64::MAX), None);
        assert_eq!(scale(1_000_000_000_000, 1), Some(1_000_000_000_000));
        assert_eq!(scale(5, 0), Some(1));
    }
}
