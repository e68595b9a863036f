//! plan and value: the quarter's work.

use crate::common::{desk, example, file, folder, model_of};

const TABLE: &str = "\
step  rows  cuts  rows left  variables  paths
0        4     -          4          1      3
1       66    12         19          4     19
2      540     0        540         10  ";

/// A wanted part aboard a van elsewhere, one aboard a van that is here, and one on the shelf.
const STATES: [(&str, &str); 3] = [
    ("elsewhere.txt", "(objects 3)\n(true wanted 0)\n(true aboard 0 2)\n"),
    ("here.txt", "(objects 3)\n(true wanted 0)\n(true aboard 0 2)\n(true here 2)\n"),
    ("shelf.txt", "(objects 3)\n(true wanted 0)\n(true shelf 0)\n"),
];

fn planned(name: &str) -> (std::path::PathBuf, String) {
    let here = folder(name);
    let plan = here.join("quarter.plan").display().to_string();
    let ended = desk(&["plan", &example("liftparts.txt"), "--steps", "3", "-o", &plan]);
    assert!(ended.out.starts_with(TABLE), "{}", ended.out);
    assert!(ended.out.contains("not all was cut: paths (17): after step 2: the value diagram of 540 rows has "), "{}", ended.out);
    assert!(ended.err.contains("step 1: 66 rows, 12 cuts done, 19 rows, 4 variables left, "), "{}", ended.err);
    assert!(ended.err.contains("stopped after 2 of 3 steps: space (9): step 3: action "), "{}", ended.err);
    assert_eq!(ended.status, 1);
    (here, plan)
}

#[test]
fn a_plan_and_its_values() {
    let (here, plan) = planned("plan");
    let states = STATES.map(|(name, lines)| file(&here, name, lines));
    let ended = desk(&["value", &plan, &states[0], &states[1], &states[2]]);
    let rows: Vec<Vec<&str>> = ended.out.lines().map(|line| line.split_whitespace().collect()).collect();
    assert_eq!(rows[0], ["state", "V", "k", "S^k", "fraction", "value"]);
    assert_eq!(rows[1], [states[0].as_str(), "972", "2", "256", "243/64", "3.796875"]);
    assert_eq!(rows[2], [states[1].as_str(), "3348", "2", "256", "837/64", "13.078125"]);
    assert_eq!(rows[3], [states[2].as_str(), "7104", "2", "256", "111/4", "27.750000"]);
    assert_eq!((ended.status, ended.err.as_str()), (0, ""));
}

#[test]
fn a_bad_state_among_good_ones() {
    let (here, plan) = planned("bad_state");
    let good = file(&here, "good.txt", STATES[1].1);
    let bad = file(&here, "bad.txt", "(objects 3)\n(true wantd 0)\n(true aboard 0)\n(true here 3)\n");
    let foreign = file(&here, "foreign.txt", "(objects 3)\n(backup)\n");
    let large = file(&here, "large.txt", "(objects 20)\n");
    let none = file(&here, "none.txt", "(true here 0)\n");
    let empty = file(&here, "empty.txt", "");
    let ended = desk(&["value", &plan, &bad, &good, &foreign, &large, &none, &empty, &good]);
    assert_eq!(ended.status, 1);
    assert_eq!(ended.out.matches("3348  2  256    837/64  13.078125").count(), 2, "{}", ended.out);
    for line in [
        format!("{bad}:2:7: name (2): no predicate \"wantd\" is declared; did you mean \"wanted\"? Otherwise declare it on an earlier line: (predicate wantd ARITY)"),
        format!("{bad}:3:7: arity (3): \"aboard\" is of arity 2, and here it has 1 term; (predicate aboard 2) says how many; write as many or change the declaration"),
        format!("{bad}:4:12: range (4): there is no object 3; this state has objects 0 to 2; take one of these, or begin the state with more: (objects n)"),
        format!("{foreign}:2:1: this is no line of a state; a state has (objects n), (is c o) and (true p o ..) lines"),
        format!("{large}:1:1: valuations (15): 20^10 = 10,240,000,000,000 valuations, 20 objects and 10 variables, are more than 1,000,000, and the tables in their place have more than 8,192 entries; "),
        format!("{none}:1:1: place (5): no (objects n) was accepted before it; begin the state with (objects n)"),
        format!("{empty}: place (5): no (objects n) was accepted before it; begin the state with (objects n)"),
    ] {
        assert!(ended.err.contains(&line), "{line}\n{}", ended.err);
    }
}

#[test]
fn state_files_and_line_ends() {
    let here = folder("state_line_ends");
    let plan = here.join("sample.plan").display().to_string();
    assert_eq!(desk(&["plan", &example("sample.txt"), "--steps", "1", "-o", &plan]).status, 0);
    let crlf = file(&here, "crlf.txt", "(objects 1)\r\n(is hub 0)\r\n");
    let unended = file(&here, "unended.txt", "(objects 1)\n(is hub 0)");
    let twice = file(&here, "twice.txt", "(objects 2)\n(is hub 1)\n(objects 1)\n(is hub 0)\n(true stock 0)\n");
    let ended = desk(&["value", &plan, &crlf, &unended, &twice]);
    assert!(ended.err.contains(&format!("{crlf}: line 1 ends with CR LF")), "{}", ended.err);
    assert!(ended.err.contains(&format!("{unended}: the last line, 2, has no line feed")), "{}", ended.err);
    assert!(ended.err.contains(&format!("{twice}:3: a second (objects n) begins the state anew")), "{}", ended.err);
    assert!(ended.out.contains("120  1    8        15  15.000000"), "{}", ended.out);
    assert_eq!(ended.status, 1);
}

#[test]
fn a_model_is_valued_without_a_plan() {
    let here = folder("model_value");
    let state = file(&here, "state.txt", "(objects 1)\n(is hub 0)\n(true stock 0)\n");
    let ended = desk(&["value", &example("sample.txt"), &state]);
    assert!(ended.out.contains("10  0    1        10  10.000000"), "{}", ended.out);
    assert!(ended.err.contains("no step is looked ahead (k = 0)"), "{}", ended.err);
}

#[test]
fn a_plan_goes_on_from_a_plan() {
    let here = folder("go_on");
    let [first, second, whole] = ["first", "second", "whole"].map(|name| here.join(name).display().to_string());
    assert_eq!(desk(&["plan", &example("inventory.txt"), "--steps", "1", "-o", &first]).status, 0);
    assert_eq!(desk(&["plan", &first, "--steps", "2", "-o", &second]).status, 0);
    assert_eq!(desk(&["plan", &example("inventory.txt"), "--steps", "3", "-o", &whole]).status, 0);
    let value = |file: &str| {
        let text = std::fs::read_to_string(file).expect("a plan");
        text[text.find("\nvalue ").expect("a value")..text.find("\nlines ").expect("lines")].to_string()
    };
    assert_eq!(value(&second), value(&whole));
}

#[test]
fn steps_that_are_refused() {
    let here = folder("refused_steps");
    let out = here.join("out").display().to_string();
    let named = desk(&["plan", &example("inventory-named.txt"), "--steps", "12", "-o", &out]);
    assert!(named.err.contains("stopped after 9 of 12 steps: value (11): step 10: "), "{}", named.err);
    assert!(named.err.contains("at most 1,000,000,000,000,000,000; take a smaller reward, total or discount divisor"), "{}", named.err);
    let sample = desk(&["plan", &example("sample.txt"), "--steps", "9", "-o", &out]);
    assert!(sample.err.contains("stopped after 6 of 9 steps: space (9): step 7: "), "{}", sample.err);
    assert_eq!((named.status, sample.status), (1, 1));
    let thirteen = (0..13).rev().fold("1".to_string(), |inner, v| format!("(if (p ?v{v}) {inner} 0)"));
    let variants: String = (0..4).map(|i| format!("(variant v{i} 25)\n")).collect();
    let apart = file(&here, "apart.txt", format!("(predicate p 1)\n(reward {thirteen})\n(action go)\n{variants}(start)\n"));
    let apart = desk(&["plan", &apart, "--steps", "1", "-o", &out]);
    assert!(apart.err.contains("stopped after 0 of 1 steps: variables (8): step 1: "), "{}", apart.err);
    assert!(apart.err.contains("65 variables together, 52 and 13; at most 64"), "{}", apart.err);
    let scale =
        file(&here, "scale.txt", "(total 1000000)\n(discount 1 1000000)\n(reward 1)\n(action wait)\n(variant only 1000000)\n(start)\n");
    let scale = desk(&["plan", &scale, "--steps", "2", "-o", &out]);
    assert!(scale.err.contains("stopped after 1 of 2 steps: scale (12): step 2: the scale 1,000,000,000,000^2 = "), "{}", scale.err);
}

#[test]
fn a_broken_model_is_not_planned() {
    let here = folder("broken_plan");
    let out = here.join("out").display().to_string();
    let text = file(&here, "broken.txt", model_of("liftparts.txt").replace("(becomes (here ?v)", "(becomes (heer ?v)"));
    let ended = desk(&["plan", &text, "--steps", "1", "-o", &out]);
    assert!(
        ended.err.contains(&format!("{text}:17:11: name (2): no predicate \"heer\" is declared; did you mean \"here\"?")),
        "{}",
        ended.err
    );
    assert!(ended.err.contains("the model is not taken, since 1 line is refused"), "{}", ended.err);
    assert_eq!((ended.status, ended.out.as_str()), (1, ""));
    assert!(!std::path::Path::new(&out).exists());
    let unstarted = file(&here, "unstarted.txt", "(constant hub)\n");
    assert!(desk(&["plan", &unstarted, "--steps", "1", "-o", &out]).err.contains("place (5): the text ends and no (start) was accepted"));
}

#[test]
fn a_damaged_plan() {
    let (here, plan) = planned("damaged");
    let state = file(&here, "state.txt", STATES[0].1);
    let bytes = std::fs::read(&plan).expect("a plan");
    let mut changed = bytes.clone();
    changed[bytes.len() / 2] ^= 1;
    for (name, damaged) in [("cut.plan", &bytes[..bytes.len() / 2]), ("changed.plan", &changed)] {
        let damaged = file(&here, name, damaged);
        for arguments in [&["value", &damaged, &state][..], &["picture", &damaged], &["plan", &damaged, "--steps", "1", "-o", "x"]] {
            let ended = desk(arguments);
            assert!(ended.err.contains("is not a saved session: its sum is wrong"), "{}", ended.err);
            assert_eq!((ended.status, ended.out.as_str()), (2, ""));
        }
    }
}

#[test]
fn without_cuts() {
    let here = folder("uncut");
    let out = here.join("out").display().to_string();
    let ended = desk(&["plan", &example("sample.txt"), "--steps", "9", "--uncut", "-o", &out]);
    assert!(ended.err.contains("stopped after 3 of 9 steps: space (9): step 4: "), "{}", ended.err);
}

/// Nothing is cut where there is a minimum variable, which is told once; both kinds are counted, and the values are there.
#[test]
fn minimum_variables() {
    let here = folder("minimum");
    let out = here.join("out").display().to_string();
    let ended = desk(&["plan", &example("allshelves.txt"), "--steps", "2", "--reduce", "-o", &out]);
    let table = "step  rows  cuts  reductions  rows left  variables  paths\n0        4     -           -          4          2      3\n1       36     0           0         36          7 ";
    assert!(ended.out.starts_with(table), "{}", ended.out);
    assert_eq!(
        ended.out.matches("nothing is cut: minimum (25): after step 1: the value diagram of 36 rows tests ").count(),
        1,
        "{}",
        ended.out
    );
    assert!(ended.out.contains("; a cut is for diagrams without minimum variables; values are right uncut, so go on\n"), "{}", ended.out);
    assert!(ended.out.contains("not reduced: kinds (26): after step 1: "), "{}", ended.out);
    assert!(ended.err.contains("stopped after 1 of 2 steps: space (9): step 2: "), "{}", ended.err);
    assert!(!ended.err.contains("cut until 16"), "{}", ended.err);
    let uncut = desk(&["plan", &example("allshelves.txt"), "--steps", "1", "--uncut", "-o", &out]);
    assert!(!uncut.out.contains("nothing is cut"), "{}", uncut.out);
    let lines = "(true shelf 2)\n(true shelf 3)\n(true here 0)\n(true serves 0 2)\n(true serves 1 3)\n";
    let [small, large] = [(7, "small.txt"), (8, "large.txt")].map(|(n, name)| file(&here, name, format!("(objects {n})\n{lines}")));
    let valued = desk(&["value", &out, &small, &large]);
    assert!(valued.out.contains("108  1   16"), "{}", valued.out);
    assert!(
        valued.err.contains("8^7 = 2,097,152 valuations, 8 objects and 7 variables, are more than 1,000,000, and no tables"),
        "{}",
        valued.err
    );
    assert!(desk(&["best", &example("allshelves.txt"), &small]).out.contains("load 3"));
    let report = desk(&["report", &example("allshelves.txt"), "--steps", "1"]).out;
    assert!(report.contains("Nothing is cut. minimum (25): ") && report.contains("those for %v0, %v1, .. so that it is lowest"));
}

/// What cuts leave and a reduction does not; where it is refused the plan goes on.
#[test]
fn with_reductions() {
    let here = folder("reductions");
    let out = here.join("out").display().to_string();
    let ended = desk(&["plan", &example("relay.txt"), "--steps", "2", "--reduce", "-o", &out]);
    let table = "step  rows  cuts  reductions  rows left  variables  paths\n0        3     -           -          3          0      2\n1        9     0           1          7          2      5\n2       39     7           0         14 ";
    assert!(ended.out.starts_with(table), "{}", ended.out);
    assert!(ended.out.contains("not reduced: runs (27): after step 2: the value diagram of 14 rows has "), "{}", ended.out);
    assert!(ended.err.contains("step 1: 9 rows, 0 cuts and 1 reduction done, 7 rows, 2 variables left, "), "{}", ended.err);
    assert_eq!(ended.status, 0);
    // the same values as without
    let plain = here.join("plain").display().to_string();
    desk(&["plan", &example("relay.txt"), "--steps", "2", "-o", &plain]);
    let state = file(&here, "row.txt", "(objects 3)\n(true near 0 1)\n(true near 1 2)\n(true stock 0)\n");
    let values = [&out, &plain].map(|plan| desk(&["value", plan, &state]).out);
    assert!(values[0].contains("3348  2  256"), "{}", values[0]);
    assert_eq!(values[0], values[1]);
    let constants = desk(&["plan", &example("sample.txt"), "--steps", "1", "--reduce", "-o", &out]);
    assert!(constants.out.contains("not reduced: kinds (26): after step 1: the value diagram of 5 rows tests "), "{}", constants.out);
}
