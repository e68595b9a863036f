//! The guide's lines about reductions, moves, spreads, logs and minimum variables are those of examples/relay.txt, errand.txt, counted.txt, week.txt and allshelves.txt and of their answers.

use reference::session::Session;
use reference::slips::Slips;

fn read(name: &str) -> String {
    std::fs::read_to_string(format!("{}/../../{name}", env!("CARGO_MANIFEST_DIR"))).expect(name)
}

/// Each line of the block with its answer stands among those of the example, in this order.
#[test]
fn what_cuts_leave() {
    let guide = read("docs/GUIDE.md");
    let section = guide.split("### What cuts leave: reduce\n").nth(1).expect("the section").split("\n### ").next().expect("its end");
    let block: Vec<(&str, &str)> = section
        .split("```\n")
        .nth(1)
        .expect("a block")
        .lines()
        .map(|line| line.split_once(' ').map(|(form, answer)| (form, answer.trim())).expect(line))
        .collect();
    let mut session = Session::new(Slips::NONE);
    let mut left = block.iter().peekable();
    for (number, line) in read("examples/relay.txt").lines().enumerate() {
        let printed = match session.take(line.as_bytes()) {
            Ok(answers) => answers.iter().map(|answer| answer.print()).collect(),
            Err(refusal) => format!("(refused {} {})\n", refusal.number(), number + 1),
        };
        left.next_if(|(form, answer)| *form == line && *answer == printed.trim_end());
    }
    assert_eq!((left.next(), block.len()), (None, 5));
    for rows in ["39 rows", "49"] {
        assert!(section.contains(rows));
    }
}

/// The second backup's rows, with and without the reduction before it.
#[test]
fn fewer_variables_to_copy() {
    let text = read("examples/relay.txt");
    let model: Vec<&str> = text.lines().take_while(|line| *line != "(backup)").collect();
    let rows = |lines: &[&str]| {
        let mut session = Session::new(Slips::NONE);
        for line in model.iter().chain(lines) {
            let _ = session.take(line.as_bytes());
        }
        session.started().expect("started").value.rows().len()
    };
    assert_eq!(rows(&["(backup)", "(cut)", "(reduce)", "(backup)"]), 39);
    assert_eq!(rows(&["(backup)", "(cut)", "(backup)"]), 49);
}

/// Each line of a section's block, with its answers behind it and then what is said of them, stands among those of an example, in this order.
fn block_is_of(section: &str, example: &str, lines: usize) {
    let guide = read("docs/GUIDE.md");
    let section = guide.split(&format!("### {section}\n")).nth(1).expect("the section");
    let block = section.split("```\n").nth(1).expect("a block");
    let form = |line: &str| {
        let mut words = line.split("  ").map(str::trim).filter(|word| !word.is_empty()).map(str::to_string);
        let form = words.next().expect("a form");
        (form, words.take_while(|word| word.starts_with('(')).map(|answer| answer + "\n").collect::<String>())
    };
    let block: Vec<(String, String)> = block.lines().map(form).collect();
    let mut session = Session::new(Slips::NONE);
    let mut left = block.iter().peekable();
    for (number, line) in read(example).lines().enumerate() {
        let printed: String = match session.take(line.as_bytes()) {
            Ok(answers) => answers.iter().map(|answer| answer.print()).collect(),
            Err(refusal) => format!("(refused {} {})\n", refusal.number(), number + 1),
        };
        left.next_if(|(form, answers)| form == line && *answers == printed);
    }
    assert_eq!((left.next(), block.len()), (None, lines));
}

#[test]
fn moves_logs_and_spreads() {
    block_is_of("What to do: best", "examples/errand.txt", 8);
    block_is_of("Before rules go out: count", "examples/counted.txt", 7);
    block_is_of("What was done: did", "examples/week.txt", 17);
    block_is_of("All of them: minimum variables", "examples/allshelves.txt", 16);
}
