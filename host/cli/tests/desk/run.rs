//! run: byte for byte what the program answers.

use crate::common::{desk, desk_with, example, file, folder, model_of, root};
use std::fs::File;
use std::process::Stdio;

#[test]
fn stored_texts_have_their_answers() {
    let mut texts = 0;
    for folder in ["examples", "host/corpus"] {
        for entry in std::fs::read_dir(root().join(folder)).expect("a folder") {
            let path = entry.expect("a file").path();
            if path.extension().is_none_or(|extension| extension != "txt") {
                continue;
            }
            let right = std::fs::read_to_string(path.with_extension("out")).expect("answers");
            let ended = desk(&["run", &path.display().to_string()]);
            assert_eq!(ended.out, right, "{}", path.display());
            assert_eq!(ended.status, i32::from(right.contains("(refused ")), "{}", path.display());
            texts += 1;
        }
    }
    assert!(texts > 100);
}

#[test]
fn standard_input_is_the_same() {
    for arguments in [&["run"][..], &["run", "-"], &["run", "--strict"]] {
        let ended = desk_with(arguments, File::open(example("sample.txt")).expect("a text"), Stdio::piped());
        assert_eq!(ended.out, std::fs::read_to_string(example("sample.out")).expect("answers"));
        assert_eq!(ended.status, 1);
    }
}

/// The misspelt name that gave six plausible wrong values.
#[test]
fn strict_prints_no_value_of_a_broken_model() {
    let here = folder("strict");
    let broken = std::fs::read_to_string(example("liftparts.txt")).expect("a text").replace("(becomes (here ?v)", "(becomes (heer ?v)");
    let text = file(&here, "broken.txt", broken);
    let plain = desk(&["run", &text]);
    assert!(plain.out.starts_with("(refused 2 17)\n(backup 1 "), "{}", plain.out);
    assert!(
        plain.err.contains("1 line is refused before (start), so the values are those of a model other than the one written"),
        "{}",
        plain.err
    );
    assert_eq!(plain.status, 1);
    let strict = desk(&["run", "--strict", &text]);
    assert_eq!((strict.out.as_str(), strict.status), ("(refused 2 17)\n", 1));
    assert!(strict.err.contains("stopped at line 17"), "{}", strict.err);
}

#[test]
fn strict_goes_on_behind_start() {
    let here = folder("strict_run");
    let text = file(&here, "text.txt", model_of("sample.txt") + "(is hub 0)\n(objects 1)\n(is hub 0)\n(value)\n");
    assert_eq!(desk(&["run", "--strict", &text]).out, "(refused 5 11)\n(value 0 0 1)\n");
    let unstarted = file(&here, "unstarted.txt", "(constant hub)\n");
    let ended = desk(&["run", "--strict", &unstarted]);
    assert_eq!((ended.out.as_str(), ended.status), ("(refused 5 0)\n", 1));
}

#[test]
fn line_ends_get_a_sentence() {
    let here = folder("line_ends");
    let crlf = file(&here, "crlf.txt", model_of("sample.txt").replace('\n', "\r\n"));
    let ended = desk(&["run", &crlf]);
    assert!(ended.out.starts_with("(refused 1 1)\n(refused 1 2)\n") && ended.out.ends_with("(refused 5 0)\n"), "{}", ended.out);
    assert_eq!(ended.err.matches("ends with CR LF").count(), 1, "{}", ended.err);
    assert_eq!(ended.status, 1);
    let unended = file(&here, "unended.txt", model_of("sample.txt") + "(objects 1)\n(is hub 0)\n(value)");
    let ended = desk(&["run", &unended]);
    assert_eq!((ended.out.as_str(), ended.status), ("(refused 1 13)\n", 1));
    assert!(ended.err.contains("the last line, 13, has no line feed"), "{}", ended.err);
}

#[test]
fn long_lines_and_no_lines() {
    let here = folder("long_lines");
    let long = file(&here, "long.txt", format!("({})\n(constant hub)\n", "a".repeat(100_000)));
    assert_eq!(desk(&["run", &long]).out, "(refused 1 1)\n(refused 5 0)\n");
    let limit = file(&here, "limit.txt", format!("(reward {}7)\n({})\n", "0".repeat(0), "a ".repeat(2_046) + "a"));
    assert_eq!(desk(&["run", &limit]).out, "(refused 1 2)\n(refused 5 0)\n");
    // a text of no bytes, or of blank lines only, is an empty order
    for text in ["", "\n", "\n\n\n"] {
        let empty = file(&here, "empty.txt", text);
        let ended = desk(&["run", &empty]);
        assert_eq!((ended.out.as_str(), ended.err.as_str(), ended.status), ("", "", 0), "{text:?}");
    }
    let bytes = file(&here, "bytes.txt", "\n\nx");
    let ended = desk(&["run", &bytes]);
    assert_eq!((ended.out.as_str(), ended.status), ("(refused 1 3)\n(refused 5 0)\n", 1));
}

#[test]
fn all_accepted() {
    let here = folder("all_accepted");
    let text = file(&here, "text.txt", model_of("sample.txt") + "(objects 1)\n(is hub 0)\n(value)\n");
    let ended = desk(&["run", &text]);
    assert_eq!((ended.out.as_str(), ended.err.as_str(), ended.status), ("(value 0 0 1)\n", "", 0));
}

/// An answer comes before the next line is given.
#[test]
fn answers_come_line_by_line() {
    use std::io::{BufRead, BufReader, Write};
    let mut child = std::process::Command::new(crate::common::PROGRAM)
        .arg("run")
        .stdin(Stdio::piped())
        .stdout(Stdio::piped())
        .spawn()
        .expect("the program runs");
    let mut input = child.stdin.take().expect("its input");
    let mut answers = BufReader::new(child.stdout.take().expect("its output")).lines();
    input.write_all((model_of("sample.txt") + "(backup)\n").as_bytes()).expect("it reads");
    assert_eq!(answers.next().expect("an answer").expect("a line"), "(backup 1 6)");
    input.write_all(b"(cut)\n").expect("it reads");
    assert_eq!(answers.next().expect("an answer").expect("a line"), "(cut 5 false 5)");
    drop(input);
    assert!(child.wait().expect("it ends").success());
}
