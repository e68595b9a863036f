//! replay: a log's lines one after another, what they come to, and which are refused.

use crate::common::{desk, example, file, folder};

const MONDAY: &str = "(objects 4)\n(true wanted 0)\n(true wanted 1)\n(true aboard 0 2)\n(true aboard 1 3)\n";
const WEEK: &str = "(did call comes 2)\n(did unload broken 2)\n\n(did unload done 2)\n(did hand sold 0)\n(did call comes 3)\n(did unload done 3)\n(did call delayed 2)\n";

/// The words of each row, the head first.
fn rows(table: &str) -> Vec<Vec<&str>> {
    table.lines().map(|line| line.split_whitespace().collect()).collect()
}

#[test]
fn a_week() {
    let here = folder("replay_week");
    let (monday, week) = (file(&here, "monday.txt", MONDAY), file(&here, "week.log", WEEK));
    let ended = desk(&["replay", &example("week.txt"), &monday, &week]);
    assert_eq!((ended.status, ended.err.as_str()), (0, "yindolve-desk: 7 lines done; the total is 36\n"));
    let rows = rows(&ended.out);
    assert_eq!((rows.len(), &rows[0][..]), (8, &["line", "action", "outcome", "objects", "count", "total"][..]));
    assert!(rows[1][0].ends_with("/week.log:1") && rows[3][0].ends_with("/week.log:4"), "{}", ended.out);
    let of = |row: usize| &rows[row][1..];
    assert_eq!(of(1), ["call", "comes", "2", "1", "0"]);
    assert_eq!(of(3), ["unload", "done", "2", "3", "12"]);
    assert_eq!(of(7), ["call", "delayed", "2", "7", "36"]);
}

/// A plan that was saved has the same rewards; a second log goes on, and the state at the end can be valued.
#[test]
fn logs_of_a_plan() {
    let here = folder("replay_plan");
    let plan = here.join("plan").display().to_string();
    assert_eq!(desk(&["plan", &example("week.txt"), "--steps", "1", "-o", &plan]).status, 0);
    let monday = file(&here, "monday.txt", MONDAY);
    let (first, second) = WEEK.split_at(WEEK.find("(did hand").expect("a line"));
    let (first, second) = (file(&here, "first.log", first), file(&here, "second.log", second));
    let end = here.join("end.txt").display().to_string();
    let ended = desk(&["replay", &plan, &monday, &first, &second, "-o", &end]);
    assert_eq!((ended.status, ended.err.as_str()), (0, "yindolve-desk: 7 lines done; the total is 36\n"));
    assert!(rows(&ended.out)[4][0].ends_with("/second.log:1"), "{}", ended.out);
    let state = std::fs::read_to_string(&end).expect("the state");
    let mut lines: Vec<&str> = state.lines().collect();
    lines[1..].sort();
    assert_eq!(lines, ["(objects 4)", "(true here 2)", "(true here 3)", "(true shelf 1)", "(true wanted 1)"]);
    let ended = desk(&["value", &plan, &end]);
    assert_eq!(rows(&ended.out)[1][1..], ["336", "1", "16", "21", "21.000000"]);
    let ended = desk(&["replay", &plan, &monday, &first, "-o", &first]);
    assert!(ended.status == 2 && ended.err.contains("is read here, and writing to it would lose it"), "{}", ended.err);
}

/// Refused lines move nothing, and the others are still done; with --strict the log ends there.
#[test]
fn refused_lines() {
    let here = folder("replay_refused");
    let monday = file(&here, "monday.txt", MONDAY);
    let log = file(
        &here,
        "week.log",
        "(did call comes 2)\n(did hand sold 0)\n(did unlaod done 2)\n(did unload done)\n(did unload gone 2)\n(did unload done 4)\n(true here 3)\n(did unload done 2\n(did unload done 2)\n",
    );
    let ended = desk(&["replay", &example("week.txt"), &monday, &log]);
    assert_eq!(ended.status, 1);
    let rows_done = rows(&ended.out);
    assert_eq!(rows_done[1][1..], ["call", "comes", "2", "1", "0"]);
    assert_eq!(rows_done[2][1..], ["unload", "done", "2", "2", "12"]);
    assert_eq!(rows_done.len(), 3);
    for line in [
        format!("{log}:2:1: weightless (21): variant \"sold\" of action \"hand\" has weight 0 in this state, where wanted(!p), not shelf(!p); by the model it does not come out so here: "),
        format!("{log}:3:6: name (2): the model has no action \"unlaod\"; did you mean \"unload\"? Otherwise its actions are unload, call, hand\n"),
        format!("{log}:4:6: arity (3): \"unload\" has 1 parameter, and here it has 0 objects; (action unload !v) says how many; write an object for each\n"),
        format!("{log}:5:13: name (2): the action \"unload\" has no variant \"gone\"; "),
        format!("{log}:6:18: range (4): there is no object 4; this state has objects 0 to 3; "),
        format!("{log}:7:1: this is no line of a log; a log has (did ACTION VARIANT OBJECT ..) lines\n"),
        format!("{log}:8:19: form (1): 1 bracket is not closed at the end of the line; "),
        "yindolve-desk: 2 lines done, 7 not; the total is 12\n".to_string(),
    ] {
        assert!(ended.err.contains(&line), "{line}\n{}", ended.err);
    }
    let ended = desk(&["replay", "--strict", &example("week.txt"), &monday, &log, &log]);
    assert_eq!((ended.status, rows(&ended.out).len()), (1, 2), "{}", ended.out);
    assert!(ended.err.contains(":2:1: weightless (21): ") && ended.err.contains("1 line done, 1 not; the total is 0"), "{}", ended.err);
}

/// What the sums meet, and facts past 1,024; of wide predicates it is told without a reason that takes long to find.
#[test]
fn limits_of_a_log() {
    let here = folder("replay_limits");
    let model = |arity: u64| {
        let arguments = |places: u64| (0..places).map(|place| format!(" ?a{place}")).collect::<String>();
        let (declared, all) = (format!("(predicate r {arity})"), arguments(arity));
        let reward = "(reward 400000000000000000)\n(action all)\n(variant only 100)\n";
        format!("{declared}\n{reward}(becomes (r{all}) 1)\n(action wait)\n(variant only 100)\n(start)\n")
    };
    let state = file(&here, "state.txt", "(objects 64)\n");
    let log = file(&here, "log", "(did all only)\n(did wait only)\n(did wait only)\n");
    for (arity, crowded, tally) in [
        (2, "crowded (22): the state after it has more than 1,024 facts; ", "tally (23): the total would be 1,200,000,000,000,000,000; "),
        (
            6,
            "crowded (22): a logged line that leads to a state of more than 1,024 facts\n",
            "tally (23): the count of logged lines or the total",
        ),
    ] {
        let model = file(&here, "model.txt", model(arity));
        let ended = desk(&["replay", &model, &state, &log]);
        assert_eq!((ended.status, rows(&ended.out).len()), (1, 2), "{}", ended.err);
        assert!(ended.err.contains(&format!("{log}:1:1: {crowded}")), "{}", ended.err);
        assert!(ended.err.contains(&format!("{log}:3:1: {tally}")), "{}", ended.err);
        assert!(ended.err.ends_with("1 line done, 2 not; the total is 800,000,000,000,000,000\n"), "{}", ended.err);
    }
}

#[test]
fn what_is_missing() {
    let here = folder("replay_missing");
    let (monday, week) = (file(&here, "monday.txt", MONDAY), file(&here, "week.log", WEEK));
    let (model, missing) = (example("week.txt"), here.join("missing").display().to_string());
    let told = |arguments: &[&str], status: i32, what: &str| {
        let ended = desk(arguments);
        assert_eq!((ended.status, ended.out.as_str()), (status, ""), "{}", ended.err);
        assert!(ended.err.contains(what), "{what}\n{}", ended.err);
    };
    told(&["replay"], 2, "no saved plan or model is named");
    told(&["replay", &model], 2, "no state is named");
    told(&["replay", &model, &monday], 2, "no log is named");
    told(&["replay", &model, &monday, &week, &missing], 2, "missing cannot be read: there is no such file");
    told(&["replay", &model, &week, &week], 1, "week.log:1:1: this is no line of a state");
    told(&["replay", &example("faulty.txt"), &monday, &week], 1, "the model is not taken");
    let empty = file(&here, "empty.txt", "");
    told(&["replay", &model, &empty, &week], 1, "week.log:1:1: place (5): no (objects n) was accepted before it");
    let unplaced = file(&here, "unplaced.txt", "(objects 2)\n");
    let fill = file(&here, "fill.log", "(did fill done 0)\n");
    told(&["replay", &example("sample.txt"), &unplaced, &fill], 1, "fill.log:1:1: place (5): not placed in this state: hub; ");
    told(&["replay", &model, &monday, &empty], 0, "0 lines done; the total is 0");
}
