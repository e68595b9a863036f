//! best and count: the move to make in each state, and how many states have which value.

use crate::common::{desk, example, file, folder, model_of};

/// The branches of docs/DESK.md, one step ahead: the move is that of two steps, and following it gets the value of two.
#[test]
fn moves_of_branches() {
    let here = folder("best_moves");
    let plan = here.join("plan").display().to_string();
    assert_eq!(desk(&["plan", &example("liftparts.txt"), "--steps", "1", "-o", &plan]).status, 0);
    let north = file(&here, "north.txt", "(objects 3)\n(true wanted 0)\n(true aboard 0 2)\n");
    let south = file(&here, "south.txt", "(objects 3)\n(true wanted 0)\n(true aboard 0 2)\n(true here 2)\n");
    let west = file(&here, "west.txt", "(objects 3)\n(true wantd 0)\n");
    let none = file(&here, "none.txt", "(true wanted 0)\n");
    let ended = desk(&["best", &plan, &north, &south]);
    assert_eq!((ended.status, ended.err.as_str()), (0, ""));
    let cells: Vec<Vec<&str>> = ended.out.lines().map(|line| line.split_whitespace().collect()).collect();
    assert_eq!(cells[0], ["state", "move", "steps"]);
    assert_eq!((&cells[1][1..], &cells[2][1..]), (&["call", "2", "2"][..], &["unload", "2", "2"][..]));
    let ended = desk(&["best", &plan, &north, &west, &none]);
    assert_eq!((ended.status, ended.out.lines().count()), (1, 2), "{}", ended.err);
    assert!(ended.err.contains("west.txt:2:7: name (2): no predicate \"wantd\""), "{}", ended.err);
    assert!(ended.err.contains("none.txt:1:1: place (5): no (objects n) was accepted before it"), "{}", ended.err);
    let ended = desk(&["best", &example("liftparts.txt"), &south]);
    assert_eq!(ended.status, 0, "{}", ended.err);
    assert!(ended.err.contains("is a model's text (k = 0), so a move is the best for one step"), "{}", ended.err);
    assert!(ended.out.contains("unload 2      1\n"), "{}", ended.out);
    let ended = desk(&["best", &plan, &here.join("missing").display().to_string(), &north]);
    assert!(ended.status == 2 && ended.err.contains("not every state was read"), "{}", ended.err);
}

/// What is missing for a move, and a call that is refused, with their reasons.
#[test]
fn moves_refused() {
    let here = folder("best_refused");
    let empty = file(&here, "empty.txt", "");
    let unplaced = file(&here, "unplaced.txt", "(objects 2)\n");
    let ended = desk(&["best", &example("sample.txt"), &empty, &unplaced]);
    assert_eq!((ended.status, ended.out.as_str()), (1, ""));
    assert!(ended.err.contains("empty.txt: missing (20): no (objects n) was accepted before it; begin the state with"), "{}", ended.err);
    assert!(ended.err.contains("unplaced.txt:1:1: missing (20): not placed in this state: hub; say for each constant"), "{}", ended.err);
    let plan = here.join("plan").display().to_string();
    assert_eq!(desk(&["plan", &example("liftparts.txt"), "--steps", "2", "-o", &plan]).status, 0);
    let ended = desk(&["best", &plan, &unplaced]);
    assert_eq!((ended.status, ended.out.as_str()), (1, ""));
    assert!(
        ended.err.contains("space (9): the move of step 3: action unload, variant done, the value diagram of 540 rows"),
        "{}",
        ended.err
    );
    for (arguments, what) in [(&["best"][..], "no saved plan or model is named"), (&["best", &plan], "no state is named")] {
        let ended = desk(arguments);
        assert!(ended.status == 2 && ended.err.contains(what), "{}", ended.err);
    }
}

#[test]
fn spreads() {
    let here = folder("count");
    let plan = here.join("plan").display().to_string();
    assert_eq!(desk(&["plan", &example("sample.txt"), "--steps", "1", "-o", &plan]).status, 0);
    let hub = file(&here, "hub.txt", "(objects 4)\n(is hub 3)\n");
    let ended = desk(&["count", &plan, "--objects", "4", &hub]);
    assert_eq!(ended.status, 0, "{}", ended.err);
    assert_eq!(ended.err, "yindolve-desk: 16 states of 4 objects, 1 step ahead, S^k = 8\n");
    let cells: Vec<Vec<&str>> = ended.out.lines().map(|line| line.split_whitespace().collect()).collect();
    assert_eq!(cells[1], ["30", "15/4", "3.750000", "8", "50.00", "%"]);
    assert_eq!(cells[2], ["120", "15", "15.000000", "8", "50.00", "%"]);
    let told = |arguments: &[&str], status: i32, what: &str| {
        let ended = desk(arguments);
        assert_eq!((ended.status, ended.out.as_str()), (status, ""), "{}", ended.err);
        assert!(ended.err.contains(what), "{what}\n{}", ended.err);
    };
    told(&["count", &plan, "--objects", "4"], 1, "plan: place (5): not placed in this state: hub; begin a state with (objects n)");
    told(&["count", &plan, "--objects", "3", &hub], 1, "range (4): \"hub\" is placed on object 3, and states of 3 objects have none");
    told(&["count", &plan, "--objects", "17", &hub], 1, "ground (24): states of 17 objects have 17 ground facts (stock 17); at most 16");
    told(&["count", &plan, "--objects", "65", &hub], 1, "range (4): the count of objects is 65; it is from 1 to 64");
    told(&["count", &plan, &hub], 2, "--objects N is missing");
    told(&["count", &plan, "--objects", "two"], 2, "--objects takes a whole number");
    told(&["count", &plan, "--objects", "4", &hub, &hub], 2, "more than one state is named");
    // a model without constants needs no state
    let model = file(&here, "model.txt", model_of("liftparts.txt"));
    let ended = desk(&["count", &model, "--objects", "1"]);
    assert_eq!((ended.status, ended.err.as_str()), (0, "yindolve-desk: 16 states of 1 object, 0 steps ahead, S^k = 1\n"));
    assert_eq!(
        ended.out.lines().last().map(|line| line.split_whitespace().collect::<Vec<&str>>().join(" ")).as_deref(),
        Some("12 12 12.000000 4 25.00 %")
    );
}
