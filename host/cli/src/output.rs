//! Standard output and files, so that nothing is lost without a word.

use crate::trouble::{Outcome, Trouble, Verdict};
use std::ffi::OsStr;
use std::io::{self, Write};
use std::path::{Path, PathBuf};

const STANDARD_OUTPUT: &str = "standard output";

/// Standard output.
pub struct Out {
    to: io::Stdout,
}

impl Out {
    pub fn new() -> Out {
        Out { to: io::stdout() }
    }

    pub fn bytes(&mut self, bytes: &[u8]) -> Result<(), Trouble> {
        self.to.write_all(bytes).map_err(|error| Trouble::writing(STANDARD_OUTPUT, &error))
    }

    pub fn text(&mut self, text: &str) -> Result<(), Trouble> {
        self.bytes(text.as_bytes())
    }

    /// The end of the output, once all of it was taken.
    pub fn done(&mut self) -> Outcome {
        self.to.flush().map_err(|error| Trouble::writing(STANDARD_OUTPUT, &error))?;
        Ok(Verdict::Accepted)
    }

    /// Writes to a file, or to standard output where none is named.
    pub fn write_to(&mut self, file: Option<&OsStr>, bytes: &[u8]) -> Result<(), Trouble> {
        match file {
            Some(file) => write_file(file, bytes),
            None => self.bytes(bytes),
        }
    }
}

/// Writes a file whole or not at all: what stood there stays until the new bytes are on the disk. A device is written to as it is.
pub fn write_file(file: &OsStr, bytes: &[u8]) -> Result<(), Trouble> {
    let path = Path::new(file);
    let trouble = |error: io::Error| Trouble::writing(&path.display().to_string(), &error);
    match std::fs::metadata(path) {
        Ok(there) if there.is_dir() => Err(trouble(io::ErrorKind::IsADirectory.into())),
        Ok(there) if !there.is_file() => {
            std::fs::OpenOptions::new().write(true).open(path).and_then(|mut to| to.write_all(bytes)).map_err(trouble)
        }
        _ => replace(path, bytes).map_err(trouble),
    }
}

/// Trouble where the file to be written is one of those that are read.
pub fn apart_from(output: Option<&OsStr>, inputs: &[&OsStr]) -> Result<(), Trouble> {
    let place = |file: &OsStr| std::fs::canonicalize(file).ok().filter(|path| path.is_file());
    let Some((output, there)) = output.and_then(|file| Some((file, place(file)?))) else {
        return Ok(());
    };
    match inputs.iter().any(|input| place(input).as_ref() == Some(&there)) {
        true => {
            Err(Trouble(format!("{} is read here, and writing to it would lose it; name another file behind -o", output.to_string_lossy())))
        }
        false => Ok(()),
    }
}

/// Trouble where the file could not be written; what stands there stays.
pub fn try_file(file: &OsStr) -> Result<(), Trouble> {
    let path = Path::new(file);
    let trouble = |error: io::Error| Trouble::writing(&path.display().to_string(), &error);
    match std::fs::metadata(path) {
        Ok(there) if there.is_dir() => Err(trouble(io::ErrorKind::IsADirectory.into())),
        Ok(there) if !there.is_file() => Ok(()),
        _ => {
            let beside = beside(path);
            std::fs::File::create(&beside).and_then(|_| std::fs::remove_file(&beside)).map_err(trouble)
        }
    }
}

fn replace(path: &Path, bytes: &[u8]) -> io::Result<()> {
    let beside = beside(path);
    let written = std::fs::File::create(&beside).and_then(|mut to| to.write_all(bytes).and_then(|()| to.sync_all()));
    let moved = written.and_then(|()| std::fs::rename(&beside, path));
    if moved.is_err() {
        let _ = std::fs::remove_file(&beside);
    }
    moved
}

/// A name of its own in the same folder.
fn beside(path: &Path) -> PathBuf {
    let mut name = path.file_name().unwrap_or_default().to_os_string();
    name.push(format!(".part{}", std::process::id()));
    path.with_file_name(name)
}
