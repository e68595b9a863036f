//! Input and output that fail: a sentence on standard error, and exit status 2.

use crate::common::{desk, desk_with, example, file, folder};
use std::fs::{File, OpenOptions};
use std::process::Stdio;

fn told(ended: &crate::common::Ended, sentence: &str) {
    assert_eq!(ended.status, 2, "{ended:?}");
    let last = ended.err.lines().last().unwrap_or_default();
    assert!(ended.err.contains(sentence) && last.starts_with("yindolve-desk: "), "{ended:?}");
}

/// Each command with what makes it print; a log stands beside the state.
fn printing(plan: &str, state: &str) -> Vec<Vec<String>> {
    let sample = example("sample.txt");
    let lines = [
        format!("run {sample}"),
        format!("explain {sample}"),
        format!("plan {sample} --steps 1 -o {plan}"),
        format!("value {plan} {state}"),
        format!("replay {plan} {state} {state}.log"),
        format!("picture {sample}"),
        format!("report {sample}"),
        "--help".into(),
        "--version".into(),
        "plan --help".into(),
    ];
    lines.iter().map(|line| line.split(' ').map(str::to_string).collect()).collect()
}

fn words(arguments: &[String]) -> Vec<&str> {
    arguments.iter().map(String::as_str).collect()
}

#[test]
fn a_full_disk() {
    let here = folder("full_disk");
    let plan = here.join("sample.plan").display().to_string();
    assert_eq!(desk(&["plan", &example("sample.txt"), "--steps", "1", "-o", &plan]).status, 0);
    let state = file(&here, "state.txt", "(objects 1)\n(is hub 0)\n");
    file(&here, "state.txt.log", "(did fill done 0)\n");
    for arguments in printing(&plan, &state) {
        let full = OpenOptions::new().write(true).open("/dev/full").expect("a full device");
        told(&desk_with(&words(&arguments), Stdio::null(), full), "standard output cannot be written: the disk is full");
    }
    told(&desk(&["plan", &example("sample.txt"), "--steps", "1", "-o", "/dev/full"]), "/dev/full cannot be written: the disk is full");
    told(&desk(&["picture", &example("sample.txt"), "-o", "/dev/full"]), "/dev/full cannot be written: the disk is full");
}

#[test]
fn a_closed_pipe() {
    let here = folder("closed_pipe");
    let plan = here.join("sample.plan").display().to_string();
    assert_eq!(desk(&["plan", &example("sample.txt"), "--steps", "1", "-o", &plan]).status, 0);
    let state = file(&here, "state.txt", "(objects 1)\n(is hub 0)\n");
    file(&here, "state.txt.log", "(did fill done 0)\n");
    for arguments in printing(&plan, &state) {
        let (reader, writer) = std::io::pipe().expect("a pipe");
        drop(reader);
        told(
            &desk_with(&words(&arguments), Stdio::null(), writer),
            "standard output cannot be written: the program that reads it closed the pipe",
        );
    }
}

#[test]
fn a_directory_or_no_file_as_input() {
    let here = folder("directory");
    let state = file(&here, "state.txt", "(objects 1)\n(is hub 0)\n");
    let (directory, missing) = (here.display().to_string(), here.join("missing").display().to_string());
    let out = here.join("out").display().to_string();
    for (input, sentence) in [(&directory, "cannot be read: it is a directory"), (&missing, "cannot be read: there is no such file")] {
        told(&desk(&["run", input]), sentence);
        told(&desk(&["explain", input]), sentence);
        told(&desk(&["plan", input, "--steps", "1", "-o", &out]), sentence);
        told(&desk(&["value", input, &state]), sentence);
        told(&desk(&["value", &example("sample.txt"), input, &state]), sentence);
        told(&desk(&["picture", input]), sentence);
        told(&desk(&["picture", &example("sample.txt"), input]), sentence);
        told(&desk(&["report", input]), sentence);
        told(&desk(&["report", &example("sample.txt"), input]), sentence);
    }
    told(&desk_with(&["run"], File::open(&here).expect("a folder"), Stdio::piped()), "standard input cannot be read: it is a directory");
    told(&desk(&["plan", &example("sample.txt"), "--steps", "1", "-o", &directory]), "cannot be written: it is a directory");
}

/// What was there stays where the new file cannot be written, and nothing is left beside it.
#[test]
fn a_file_is_replaced_whole() {
    let here = folder("replaced");
    let out = file(&here, "sample.plan", "before");
    assert_eq!(desk(&["plan", &example("sample.txt"), "--steps", "1", "-o", &out]).status, 0);
    assert!(std::fs::read_to_string(&out).expect("a file").starts_with("yindolve session "));
    told(&desk(&["plan", &example("sample.txt"), "--steps", "1", "-o", &format!("{out}/below")]), "cannot be written");
    assert_eq!(std::fs::read_dir(&here).expect("a folder").count(), 1);
}

/// The plan of the last quarter stays until a step of this one is done.
#[test]
fn a_plan_that_is_refused_at_once() {
    let here = folder("refused_at_once");
    let plan = here.join("plan").display().to_string();
    let model =
        file(&here, "model.txt", "(total 1000000)\n(discount 1 1000000)\n(reward 1)\n(action wait)\n(variant only 1000000)\n(start)\n");
    assert_eq!(desk(&["plan", &model, "--steps", "0", "-o", &plan]).status, 0);
    assert!(std::fs::read_to_string(&plan).expect("a plan").contains("\nvalue 0 1\n"));
    assert_eq!(desk(&["plan", &model, "--steps", "1", "-o", &plan]).status, 0);
    let ended = desk(&["plan", &plan, "--steps", "1", "-o", &plan]);
    assert_eq!(ended.status, 1);
    assert!(std::fs::read_to_string(&plan).expect("a plan").contains("\nvalue 1 1\n"));
    assert_eq!(std::fs::read_dir(&here).expect("a folder").count(), 2);
}

/// No file that is read is written over, but a plan that goes on.
#[test]
fn inputs_are_not_lost() {
    let here = folder("inputs");
    let text = std::fs::read_to_string(example("sample.txt")).expect("a text");
    let model = file(&here, "model.txt", &text);
    let around = here.join("../inputs/model.txt").display().to_string();
    let plan = here.join("model.plan").display().to_string();
    told(&desk(&["plan", &model, "--steps", "1", "-o", &around]), "is read here, and writing to it would lose it");
    told(&desk(&["picture", &model, "-o", &model]), "is read here, and writing to it would lose it");
    told(&desk(&["report", &model, "-o", &model]), "is read here, and writing to it would lose it");
    assert_eq!(std::fs::read_to_string(&model).expect("a text"), text);
    assert_eq!(desk(&["plan", &model, "--steps", "1", "-o", &plan]).status, 0);
    assert_eq!(desk(&["plan", &plan, "--steps", "1", "-o", &plan]).status, 0);
    told(&desk(&["picture", &plan, "-o", &plan]), "is read here, and writing to it would lose it");
    told(&desk(&["explain", &plan]), "is what plan saved, and here a text should stand");
}

#[test]
fn wrong_words_on_the_command_line() {
    let sample = example("sample.txt");
    for (arguments, sentence) in [
        (&[][..], "no command is given"),
        (&["price"], "there is no command price"),
        (&["run", "--loud"], "there is no option --loud"),
        (&["run", &sample, &sample], "more than one file is named"),
        (&["plan", &sample, "-o", "x"], "--steps K is missing"),
        (&["plan", &sample, "--steps", "1"], "-o FILE is missing"),
        (&["plan", &sample, "--steps", "two", "-o", "x"], "--steps takes a whole number, and there is two"),
        (&["plan", &sample, "--steps"], "a word is missing behind --steps"),
        (&["plan", "--steps", "1", "-o", "x"], "no model is named"),
        (&["value", &sample], "no state is named"),
        (&["value"], "no saved plan or model is named"),
        (&["explain"], "no text is named"),
        (&["picture", &sample, "--format", "png"], "--format is svg or dot, and there is png"),
        (&["picture", &sample, "--step", "1", &sample], "either --step K or one file"),
        (&["report"], "no model is named"),
    ] {
        told(&desk(arguments), sentence);
    }
}

#[test]
fn help_and_version_everywhere() {
    for command in ["run", "plan", "value", "explain", "picture", "report"] {
        let help = desk(&[command, "--help"]);
        assert!(help.out.starts_with(&format!("use: yindolve-desk {command}")) && help.out.contains("Exit status: 0"), "{}", help.out);
        assert_eq!((help.status, help.err.as_str()), (0, ""));
        assert_eq!(desk(&["help", command]).out, help.out);
        let version = desk(&[command, "--version"]);
        assert_eq!((version.out, version.status), (format!("yindolve-desk {}\n", env!("CARGO_PKG_VERSION")), 0));
    }
    assert!(desk(&["--help"]).out.starts_with("use: yindolve-desk COMMAND"));
}
