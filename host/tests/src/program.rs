//! Another program beside the reference: the same text to both, and their answers byte for byte.

use std::io::{Read, Write};
use std::path::Path;
use std::process::{Child, Command, ExitStatus, Stdio};
use std::time::{Duration, Instant};

/// How long a program may take for one text.
const PATIENCE: Duration = Duration::from_secs(60);

/// What the program prints for a text.
pub fn printed(program: &Path, text: &[u8]) -> Result<Vec<u8>, String> {
    let failed = |error: std::io::Error| format!("{}: {error}", program.display());
    let mut child = Command::new(program).stdin(Stdio::piped()).stdout(Stdio::piped()).spawn().map_err(failed)?;
    let mut input = child.stdin.take().expect("a pipe");
    let mut output = child.stdout.take().expect("a pipe");
    let text = text.to_vec();
    // A program may end before it has read all, which is judged by what it printed.
    let writer = std::thread::spawn(move || {
        let _ = input.write_all(&text);
    });
    let reader = std::thread::spawn(move || {
        let mut bytes = Vec::new();
        output.read_to_end(&mut bytes).map(|_| bytes)
    });
    let status = ended(&mut child).map_err(failed)?;
    let _ = writer.join();
    let bytes = reader.join().expect("the reader ends").map_err(failed)?;
    match status {
        Some(status) if status.success() => Ok(bytes),
        Some(status) => Err(format!("{} ends with {status}", program.display())),
        None => Err(format!("{} takes more than {} seconds", program.display(), PATIENCE.as_secs())),
    }
}

/// The child's exit status, or none where it had to be stopped.
fn ended(child: &mut Child) -> std::io::Result<Option<ExitStatus>> {
    let begun = Instant::now();
    let mut pause = Duration::from_micros(200);
    while begun.elapsed() < PATIENCE {
        if let Some(status) = child.try_wait()? {
            return Ok(Some(status));
        }
        std::thread::sleep(pause);
        pause = (pause * 2).min(Duration::from_millis(50));
    }
    child.kill()?;
    child.wait()?;
    Ok(None)
}

/// The first line at which two outputs differ.
pub fn difference(right: &[u8], other: &[u8]) -> Option<String> {
    if right == other {
        return None;
    }
    let lines = |bytes: &[u8]| String::from_utf8_lossy(bytes).split_inclusive('\n').map(str::to_string).collect::<Vec<_>>();
    let (right, other) = (lines(right), lines(other));
    let at = right.iter().zip(&other).take_while(|(r, o)| r == o).count();
    let line = |lines: &[String]| lines.get(at).map_or("nothing".to_string(), |line| format!("{line:?}"));
    Some(format!("answer {}: {} and not {}", at + 1, line(&other), line(&right)))
}

/// Compares a program with the reference on one text.
pub fn check(program: &Path, text: &[u8]) -> Result<(), String> {
    match difference(&reference::session::run(text), &printed(program, text)?) {
        None => Ok(()),
        Some(difference) => Err(difference),
    }
}

/// A shorter text on which they still differ: lines are left out one by one, as long as that goes.
pub fn shortened(program: &Path, text: &[u8]) -> Vec<u8> {
    let mut lines: Vec<&[u8]> = text.split_inclusive(|byte| *byte == b'\n').collect();
    let mut at = 0;
    while at < lines.len() {
        let mut fewer = lines.clone();
        fewer.remove(at);
        if check(program, &fewer.concat()).is_err() {
            lines = fewer;
        } else {
            at += 1;
        }
    }
    lines.concat()
}
