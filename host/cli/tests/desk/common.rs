//! Running commands.

use std::path::{Path, PathBuf};
use std::process::{Command, Output, Stdio};

pub const PROGRAM: &str = env!("CARGO_BIN_EXE_yindolve-desk");

/// The repository.
pub fn root() -> PathBuf {
    Path::new(env!("CARGO_MANIFEST_DIR")).join("../..").canonicalize().expect("the repository")
}

pub fn example(name: &str) -> String {
    root().join("examples").join(name).display().to_string()
}

/// An empty folder of a test's own.
pub fn folder(name: &str) -> PathBuf {
    let folder = Path::new(env!("CARGO_TARGET_TMPDIR")).join(name);
    let _ = std::fs::remove_dir_all(&folder);
    std::fs::create_dir_all(&folder).expect("a folder");
    folder
}

/// A file in a folder, and its path.
pub fn file(folder: &Path, name: &str, bytes: impl AsRef<[u8]>) -> String {
    let path = folder.join(name);
    std::fs::write(&path, bytes).expect("a file");
    path.display().to_string()
}

/// How a command ended.
#[derive(Debug)]
pub struct Ended {
    pub status: i32,
    pub out: String,
    pub err: String,
}

fn ended(output: Output) -> Ended {
    let text = |bytes: Vec<u8>| String::from_utf8(bytes).expect("plain text");
    Ended { status: output.status.code().expect("a status"), out: text(output.stdout), err: text(output.stderr) }
}

pub fn desk(arguments: &[&str]) -> Ended {
    ended(Command::new(PROGRAM).args(arguments).stdin(Stdio::null()).output().expect("the program runs"))
}

/// With standard input and output as they are given.
pub fn desk_with(arguments: &[&str], input: impl Into<Stdio>, output: impl Into<Stdio>) -> Ended {
    let mut command = Command::new(PROGRAM);
    command.args(arguments).stdin(input).stdout(output).stderr(Stdio::piped());
    ended(command.spawn().expect("the program runs").wait_with_output().expect("it ends"))
}

/// A model's text up to its (start).
pub fn model_of(name: &str) -> String {
    let text = std::fs::read_to_string(example(name)).expect("an example");
    let end = text.find("(start)\n").expect("a start") + "(start)\n".len();
    text[..end].to_string()
}
