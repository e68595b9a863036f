//! picture: drawings of value diagrams.

use crate::common::{desk, example, file, folder, root};

fn document(name: &str) -> String {
    std::fs::read_to_string(root().join("docs").join(name)).expect("a document")
}

/// The picture of document 01's run after one backup, as the guide shows it. With YINDOLVE_DESK_DOCS=write it is drawn anew.
#[test]
fn the_guides_pictures() {
    for (name, format) in [("sample.svg", "svg"), ("sample.dot", "dot")] {
        let ended = desk(&["picture", &example("sample.txt"), &example("sample.out"), "--format", format]);
        assert_eq!((ended.status, ended.err.as_str()), (0, ""));
        if std::env::var_os("YINDOLVE_DESK_DOCS").is_some_and(|word| word == "write") {
            std::fs::write(root().join("docs").join(name), &ended.out).expect("a document");
        }
        assert_eq!(ended.out, document(name));
    }
}

#[test]
fn rows_names_scaled_leaves_and_a_legend() {
    let svg = desk(&["picture", &example("sample.txt"), "--step", "1", "--uncut"]).out;
    for part in [
        "Value diagram, 1 step ahead: 6 rows",
        ">hub = ?v0<",
        ">stock(hub)<",
        ">120<",
        ">= 15<",
        ">30<",
        ">= 3.75<",
        "S^k = 8",
        ">true<",
        ">false<",
        "faint",
    ] {
        assert!(svg.contains(part), "{part}");
    }
    for row in 0..6 {
        assert!(svg.contains(&format!(">{row}</text>")), "row {row}");
    }
    assert_eq!(svg.matches("class=\"row left\"").count(), 6);
    assert_eq!(svg.matches("<rect class=\"leaf\"").count() + svg.matches("<rect class=\"test\"").count(), 6);
    let cut = desk(&["picture", &example("sample.txt"), "--step", "1"]).out;
    assert!(cut.contains("1 step ahead: 5 rows"), "{cut}");
}

#[test]
fn a_saved_plan_and_a_file() {
    let here = folder("picture_plan");
    let [plan, svg, dot] = ["sample.plan", "sample.svg", "sample.dot"].map(|name| here.join(name).display().to_string());
    assert_eq!(desk(&["plan", &example("sample.txt"), "--steps", "1", "-o", &plan]).status, 0);
    assert_eq!(desk(&["picture", &plan, "-o", &svg]).status, 0);
    assert_eq!(desk(&["picture", &example("sample.txt"), &plan, "-o", &dot]).status, 0);
    let read = |file: &str| std::fs::read_to_string(file).expect("a picture");
    assert_eq!(read(&svg), desk(&["picture", &example("sample.txt"), "--step", "1"]).out);
    assert!(read(&dot).starts_with("digraph value {"));
}

#[test]
fn bad_input_gets_a_sentence() {
    let here = folder("picture_bad");
    let sample = example("sample.txt");
    let plan = here.join("plan").display().to_string();
    assert_eq!(desk(&["plan", &example("inventory.txt"), "--steps", "1", "-o", &plan]).status, 0);
    for (name, bytes, sentence) in [
        ("empty", "", "holds no (row ..) line"),
        ("values", "(value 0 0 1)\n", "holds no (row ..) line"),
        ("row", "(row)\n", ":1: this is no answer of the program: (row)"),
        ("words", "(row 0 leaf x)\n", ":1: this is no answer of the program"),
        ("text", "hello\n", ":1: this is no answer of the program: hello"),
        ("half", "(row 0 leaf 10)\n(row 1 281474976710656 0 5)\n", "are no whole diagram of the model"),
        ("order", "(row 1 leaf 10)\n(row 0 leaf 0)\n(row 2 281474976710656 5 1)\n", "are no whole diagram of the model"),
    ] {
        let ended = desk(&["picture", &sample, &file(&here, name, bytes)]);
        assert!(ended.err.contains(sentence), "{name}: {}", ended.err);
        assert_eq!((ended.status, ended.out.as_str()), (2, ""), "{name}");
    }
    let other = desk(&["picture", &sample, &plan]);
    assert!(other.err.contains("was saved from another model than"), "{}", other.err);
    let back = desk(&["picture", &plan, "--step", "0"]);
    assert!(back.err.contains("looks 1 step ahead already"), "{}", back.err);
    let broken = desk(&["picture", &file(&here, "model", "(reward (if (stock ?x) 1 0))\n(start)\n")]);
    assert!(broken.err.contains(":1:14: name (2): no predicate \"stock\" is declared"), "{}", broken.err);
    assert_eq!((broken.status, broken.out.as_str()), (1, ""));
    let far = desk(&["picture", &sample, "--step", "9"]);
    assert!(far.err.contains("drawn is the diagram after step 6, since the next one is refused: space (9)"), "{}", far.err);
    assert!(far.out.contains("6 steps ahead"));
    assert_eq!(far.status, 1);
}

/// A large diagram is drawn too.
#[test]
fn a_large_diagram() {
    let svg = desk(&["picture", &example("liftparts.txt"), "--step", "2"]).out;
    assert!(svg.contains("2 steps ahead: 540 rows"));
    assert_eq!(svg.matches("<rect class=\"leaf\"").count() + svg.matches("<rect class=\"test\"").count(), 540);
}
