//! The documents: every transcript of docs/DESK.md and docs/GUIDE.md, the quarter of sixty branches, and the manual page. With YINDOLVE_DESK_DOCS=write the
//! transcripts and the quarter's answers are written anew.

use crate::common::{folder, root, PROGRAM};
use std::path::Path;
use std::process::{Command, Stdio};

fn writes() -> bool {
    std::env::var_os("YINDOLVE_DESK_DOCS").is_some_and(|word| word == "write")
}

/// What bash prints, both streams together.
fn bash(script: &str, here: &Path) -> String {
    let programs = Path::new(PROGRAM).parent().expect("its folder").display().to_string();
    let path = format!("{programs}:{}", std::env::var("PATH").expect("a path"));
    let script = format!("exec 2>&1\n{script}");
    let output = Command::new("bash").args(["-c", &script]).env("PATH", path).current_dir(here).stdin(Stdio::null()).output();
    String::from_utf8(output.expect("bash runs").stdout).expect("plain text")
}

/// The transcript of the commands, each behind "$ ", in one shell.
fn transcript(commands: &[&str], here: &Path) -> String {
    let mut script = String::from("status=0\n");
    for command in commands {
        let shown = command.replace('\'', "'\\''");
        script += &format!("printf '%s\\n' '$ {shown}'\n(exit $status)\n{command}\nstatus=$?\n");
    }
    without_times(&bash(&script, here))
}

/// Times differ from run to run: each is shown as 0.00 s.
fn without_times(text: &str) -> String {
    let line = |line: &str| match line.rsplit_once(", ") {
        Some((before, time)) if time.ends_with(" s") && line.starts_with("step ") => format!("{before}, 0.00 s\n"),
        _ => format!("{line}\n"),
    };
    text.lines().map(line).collect()
}

#[test]
fn the_transcripts_of_the_front_end() {
    transcripts_are_true("DESK.md", 8);
}

#[test]
fn the_transcripts_of_the_guide() {
    transcripts_are_true("GUIDE.md", 2);
}

/// Every transcript of a page is what its commands print; there are at least so many.
fn transcripts_are_true(page: &str, least: usize) {
    let here = folder(&format!("documents_{page}"));
    std::os::unix::fs::symlink(root().join("examples"), here.join("examples")).expect("a link");
    let path = root().join("docs").join(page);
    let document = std::fs::read_to_string(&path).expect("the document");
    let mut written = String::new();
    let mut transcripts = 0;
    let mut rest = document.as_str();
    while let Some((before, behind)) = rest.split_once("```console\n") {
        let (block, after) = behind.split_once("```\n").expect("the end of a transcript");
        let commands: Vec<&str> = block.lines().filter_map(|line| line.strip_prefix("$ ")).collect();
        written += &format!("{before}```console\n{}```\n", transcript(&commands, &here));
        transcripts += 1;
        rest = after;
    }
    written += rest;
    assert!(transcripts >= least, "{transcripts}");
    if writes() {
        std::fs::write(&path, &written).expect("the document");
    }
    for (shown, real) in std::fs::read_to_string(&path).expect("the document").lines().zip(written.lines()) {
        assert_eq!(shown, real);
    }
    assert_eq!(std::fs::read_to_string(&path).expect("the document").lines().count(), written.lines().count());
}

#[test]
fn a_quarter_of_sixty_branches() {
    let here = folder("quarter");
    let printed =
        without_times(&bash(&format!("bash {} yindolve-desk {}", root().join("examples/quarter.sh").display(), here.display()), &here));
    let path = root().join("examples/quarter.out");
    if writes() {
        std::fs::write(&path, &printed).expect("the answers");
    }
    assert_eq!(printed, std::fs::read_to_string(&path).expect("the answers"));
    for branch in 1..=60 {
        assert!(printed.contains(&format!("\nbranch-{branch:02}.txt ")), "branch {branch}");
    }
}

#[test]
fn the_manual_page() {
    let path = root().join("man/yindolve-desk.1");
    let page = std::fs::read_to_string(&path).expect("the manual page");
    for word in [
        "run",
        "plan",
        "value",
        "best",
        "replay",
        "count",
        "next",
        "explain",
        "picture",
        "report",
        "EXIT STATUS",
        "\\-\\-strict",
        "\\-\\-steps",
        "\\-\\-objects",
        "\\-\\-uncut",
        "\\-\\-reduce",
        "\\-\\-format",
        "\\-\\-version",
    ] {
        assert!(page.contains(word), "{word}");
    }
    let groff = Command::new("groff").args(["-man", "-Tascii", "-ww", "-z"]).arg(&path).output();
    match groff {
        Ok(output) => assert!(output.status.success() && output.stderr.is_empty(), "{}", String::from_utf8_lossy(&output.stderr)),
        Err(_) => println!("no groff is installed: that the manual page is well formed is left out"),
    }
}
