//! A model, loaded into the engine: from its text, or with the value diagram that a plan saved.

use crate::input::Text;
use crate::trouble::{message, remark, Trouble};
use crate::twin::{told, Twin};
use reference::explain::no_start;
use yindolve::Session;

/// How a saved session begins.
const SAVED: &[u8] = b"yindolve session ";

pub struct Loaded {
    pub name: String,
    pub twin: Twin,
    /// The text behind (start); a saved session has none.
    pub behind: Vec<u8>,
    /// How many lines come before it.
    pub lines: u64,
    pub was_saved: bool,
}

pub fn is_saved(bytes: &[u8]) -> bool {
    bytes.starts_with(SAVED)
}

/// Loads a model's text or a saved session; none where a line of the text is refused, and then each such line was told.
pub fn load(text: &Text) -> Result<Option<Loaded>, Trouble> {
    if is_saved(&text.bytes) {
        return load_saved(text).map(Some);
    }
    let (loaded, mut refused) = read_model(text)?;
    if !loaded.twin.engine.is_started() && refused == 0 {
        remark(&told(&text.name, 0, &no_start()));
        refused += 1;
    }
    if refused > 0 {
        message(&format!("{}: the model is not taken, since {} refused", text.name, lines_are(refused)));
        return Ok(None);
    }
    Ok(Some(loaded))
}

/// Reads up to an accepted (start) and tells each refused line; how many there are.
fn read_model(text: &Text) -> Result<(Loaded, u64), Trouble> {
    let mut loaded = Loaded { name: text.name.clone(), twin: Twin::open(), behind: Vec::new(), lines: 0, was_saved: false };
    let (mut refused, mut read) = (0, 0);
    let mut lines = text.lines();
    while let Some(line) = lines.next()? {
        read += line_length(&text.bytes[read..]);
        loaded.lines = line.number;
        if let Some(fault) = loaded.twin.line(&line)? {
            remark(&told(&text.name, line.number, &fault));
            refused += 1;
        }
        if loaded.twin.engine.is_started() {
            break;
        }
    }
    loaded.behind = text.bytes[read..].to_vec();
    Ok((loaded, refused))
}

/// The bytes of the first line, its line feed included.
fn line_length(bytes: &[u8]) -> usize {
    bytes.iter().position(|byte| *byte == b'\n').map_or(bytes.len(), |at| at + 1)
}

pub fn lines_are(count: u64) -> String {
    match count {
        1 => "1 line is".into(),
        _ => format!("{count} lines are"),
    }
}

fn load_saved(text: &Text) -> Result<Loaded, Trouble> {
    let engine = Session::restore(&text.bytes).map_err(|damaged| Trouble(format!("{} is {damaged}", text.name)))?;
    if !engine.is_started() {
        return Err(Trouble(format!("{} holds no model: it was saved before (start)", text.name)));
    }
    Ok(Loaded { name: text.name.clone(), twin: Twin::of(&engine)?, behind: Vec::new(), lines: 0, was_saved: true })
}
