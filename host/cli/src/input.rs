//! Files and standard input, whole or line by line.

use crate::trouble::{message, Trouble};
use reference::text::LINE_BYTES;
use std::ffi::OsStr;
use std::io::{self, BufRead, BufReader, IsTerminal, Read};

/// Larger than any model or state that a limit allows.
const MOST_BYTES: u64 = 64 * 1024 * 1024;

/// A file that was read whole, and the name to call it by.
pub struct Text {
    pub name: String,
    pub bytes: Vec<u8>,
}

impl Text {
    pub fn read(file: &OsStr) -> Result<Text, Trouble> {
        let (name, mut input) = open(Some(file))?;
        let mut bytes = Vec::new();
        input.by_ref().take(MOST_BYTES + 1).read_to_end(&mut bytes).map_err(|error| Trouble::reading(&name, &error))?;
        if bytes.len() as u64 > MOST_BYTES {
            return Err(Trouble(format!("{name} cannot be read: it is larger than 64 MB, which no text or saved session is")));
        }
        Ok(Text { name, bytes })
    }

    pub fn lines(&self) -> Lines<&[u8]> {
        Lines::new(self.name.clone(), &self.bytes)
    }
}

/// A file or standard input, with its name.
pub fn open(file: Option<&OsStr>) -> Result<(String, Box<dyn BufRead>), Trouble> {
    match file {
        Some(file) if file != "-" => {
            let name = file.to_string_lossy().into_owned();
            let opened = std::fs::File::open(file).map_err(|error| Trouble::reading(&name, &error))?;
            Ok((name, Box::new(BufReader::new(opened))))
        }
        _ => {
            if io::stdin().is_terminal() {
                message("the text is read from the keyboard; Ctrl-D ends it");
            }
            Ok(("standard input".into(), Box::new(io::stdin().lock())))
        }
    }
}

/// A line without its line feed.
pub struct Line {
    pub number: u64,
    /// As many bytes as tell whether the line is too long.
    pub bytes: Vec<u8>,
    /// Whether a line feed ended it.
    pub ended: bool,
}

/// The lines of an input as they come. It tells, once each, that lines end with CR LF and that the last one has no line feed.
pub struct Lines<R> {
    name: String,
    input: R,
    number: u64,
    crlf_told: bool,
}

impl<R: BufRead> Lines<R> {
    pub fn new(name: String, input: R) -> Lines<R> {
        Lines { name, input, number: 0, crlf_told: false }
    }

    pub fn name(&self) -> &str {
        &self.name
    }

    /// The next line, or none at the end.
    pub fn next(&mut self) -> Result<Option<Line>, Trouble> {
        let (bytes, ended) = self.read().map_err(|error| Trouble::reading(&self.name, &error))?;
        if bytes.is_empty() && !ended {
            return Ok(None);
        }
        self.number += 1;
        self.tell_line_end(&bytes, ended);
        Ok(Some(Line { number: self.number, bytes, ended }))
    }

    /// Reads up to a line feed and keeps no more bytes than tell that a line is too long.
    fn read(&mut self) -> io::Result<(Vec<u8>, bool)> {
        let mut kept = Vec::new();
        loop {
            let there = match self.input.fill_buf() {
                Err(error) if error.kind() == io::ErrorKind::Interrupted => continue,
                there => there?,
            };
            if there.is_empty() {
                return Ok((kept, false));
            }
            let end = there.iter().position(|byte| *byte == b'\n');
            let part = &there[..end.unwrap_or(there.len())];
            let room = (LINE_BYTES + 1 - kept.len()).min(part.len());
            kept.extend_from_slice(&part[..room]);
            let taken = part.len() + usize::from(end.is_some());
            self.input.consume(taken);
            if end.is_some() {
                return Ok((kept, true));
            }
        }
    }

    fn tell_line_end(&mut self, bytes: &[u8], ended: bool) {
        let (name, number) = (&self.name, self.number);
        if bytes.ends_with(b"\r") && !self.crlf_told {
            self.crlf_told = true;
            message(&format!(
                "{name}: line {number} ends with CR LF, and the engine refuses every such line; sed -i 's/\\r$//' FILE mends it"
            ));
        }
        if !ended {
            message(&format!(
                "{name}: the last line, {number}, has no line feed, and the engine refuses it for that; echo >> FILE mends it"
            ));
        }
    }
}
