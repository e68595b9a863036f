//! explain: places, reasons and what to do.

use crate::common::{desk, desk_with, example, file, folder, root};
use std::fs::File;
use std::process::Stdio;

/// The refusals that the program prints are those that are explained, line by line.
#[test]
fn every_refusal_of_the_stored_texts() {
    let mut explained = 0;
    for folder in ["examples", "host/corpus"] {
        for entry in std::fs::read_dir(root().join(folder)).expect("a folder") {
            let path = entry.expect("a file").path();
            if path.extension().is_none_or(|extension| extension != "txt") {
                continue;
            }
            let name = path.display().to_string();
            let ended = desk(&["explain", &name]);
            let right = std::fs::read_to_string(path.with_extension("out")).expect("answers");
            let refusals: Vec<(u64, u64)> = right.lines().filter_map(refusal).collect();
            let told: Vec<(u64, u64)> = ended.out.lines().map(|line| place(line, &name)).collect();
            assert_eq!(told, refusals, "{name}: {}", ended.out);
            assert_eq!(ended.status, i32::from(!refusals.is_empty()), "{name}: {}", ended.err);
            explained += refusals.len();
        }
    }
    assert!(explained > 200, "{explained}");
}

/// The number and the line of `(refused n l)`.
fn refusal(line: &str) -> Option<(u64, u64)> {
    let (number, line) = line.strip_prefix("(refused ")?.strip_suffix(')')?.split_once(' ')?;
    Some((number.parse().ok()?, line.parse().ok()?))
}

/// The number and the line of `file:line:column: word (number): ..`.
fn place(line: &str, name: &str) -> (u64, u64) {
    let rest = line.strip_prefix(name).expect("the file's name");
    let number = rest.split_once(" (").and_then(|(_, rest)| rest.split_once("): ")).expect("a number").0;
    let line = rest.strip_prefix(':').and_then(|rest| rest.split(':').next()).and_then(|line| line.trim().parse().ok());
    (number.parse().expect("a number"), line.unwrap_or(0))
}

const REASONS: &str = "\
FILE:3:12: form (1): \"Stock\" holds upper-case letters; a name has 1 to 15 lower-case letters or digits, a letter first; ?name is a variable, %name a minimum variable, !name a parameter
FILE:7:14: name (2): no predicate \"stok\" is declared; did you mean \"stock\"? Otherwise declare it on an earlier line: (predicate stok ARITY)
FILE:8:14: arity (3): \"stock\" is of arity 1, and here it has 2 terms; (predicate stock 1) says how many; write as many or change the declaration
FILE:9:20: unbound (6): the reward names a parameter, \"!d\"; a reward names constants and variables only: write ?name or %name
FILE:10:9: form (1): this (if ..) has no false side; the form is (reward DIAGRAM); a diagram is a number or (if ATOM DIAGRAM DIAGRAM)
FILE:11:30: form (1): 1 bracket is not closed at the end of the line; a form stands on one line; close it there
FILE:15:26: unbound (6): a weight names a variable, \"?x\"; a weight names constants and the action's parameters only: write !name
FILE:17:35: truth (7): a truth diagram has the number 2; say 1 where the fact is true afterwards and 0 where it is not
FILE:18:48: unbound (6): \"?t\" is no argument of this (becomes); a truth diagram names the arguments of its predicate, the action's parameters and constants only
FILE:21:1: weights (13): the weights of action \"fill\" do not add up to 4 in every case: where not heavy(!d) the sum is 3; mend its weights so that each case adds up to the total; a case may have been forgotten
FILE: place (5): the text ends and no (start) was accepted; close the model with (start); where there is one, mend the lines that were refused before it
";

#[test]
fn reasons_name_the_word_at_fault() {
    let text = example("faulty.txt");
    let ended = desk(&["explain", &text]);
    assert_eq!(ended.out, REASONS.replace("FILE", &text));
    assert_eq!((ended.status, ended.err.as_str()), (1, ""));
}

#[test]
fn a_text_that_is_taken_whole() {
    let here = folder("taken");
    let text = file(&here, "text.txt", "(reward 7)\n(action wait)\n(variant only 100)\n(start)\n(objects 1)\n(value)\n");
    let ended = desk(&["explain", &text]);
    assert_eq!((ended.out.as_str(), ended.err.as_str(), ended.status), ("", "", 0));
}

/// Blank lines count and pass; a text of such lines only has nothing to explain, one with another line and no (start) has.
#[test]
fn blank_lines() {
    let here = folder("explain_blank_lines");
    let explained = |text: &str| {
        let ended = desk(&["explain", &file(&here, "text.txt", text)]);
        (ended.out.lines().map(|line| line.split_once("text.txt").expect("its name").1.to_string()).collect::<Vec<String>>(), ended.status)
    };
    assert_eq!(explained(""), (vec![], 0));
    assert_eq!(explained("\n\n"), (vec![], 0));
    let (told, status) = explained("\n\n(constant hub)\n\r\n");
    assert!(told[0].starts_with(":4:1: form (1): the line is empty but for a carriage return (CR LF); "), "{told:?}");
    assert!(told[1].starts_with(": place (5): the text ends and no (start) was accepted; "), "{told:?}");
    assert_eq!((told.len(), status), (2, 1));
}

#[test]
fn line_ends_and_standard_input() {
    let here = folder("explain_line_ends");
    let text = file(&here, "text.txt", "(constant hub)\r\n(constant hub)");
    let ended = desk_with(&["explain", "-"], File::open(&text).expect("a text"), Stdio::piped());
    assert!(
        ended.out.starts_with("standard input:1:15: form (1): the line ends with CR LF, a carriage return before the line feed; "),
        "{}",
        ended.out
    );
    assert!(ended.out.contains("standard input:2:15: form (1): the last line has no line feed at its end; "), "{}", ended.out);
    assert!(ended.err.contains("ends with CR LF") && ended.err.contains("has no line feed"), "{}", ended.err);
}

/// For what grows too large: the step, the size met and its limit.
#[test]
fn sizes_against_their_limits() {
    let ended = desk(&["explain", &example("liftparts.txt")]);
    let lines: Vec<&str> = ended.out.lines().collect();
    assert_eq!(lines.len(), 3, "{}", ended.out);
    assert!(
        lines[0].contains(":35:1: nothing (16): after step 1: the value diagram of 19 rows has no edge that may go; all is cut, so go on"),
        "{}",
        lines[0]
    );
    assert!(
        lines[1].contains(":49:1: paths (17): after step 2: the value diagram of 540 rows has ")
            && lines[1].contains(" paths; at most 256; "),
        "{}",
        lines[1]
    );
    assert!(lines[2].contains(":63:1: space (9): step 3: action ") && lines[2].contains("; at most "), "{}", lines[2]);
}
