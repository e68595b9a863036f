//! Document 01's run byte for byte, its labels as document 02 numbers them (L8), and the marked cases of its checklist.

use reference::bellman::{Bellman, PlainAction, PlainModel, PlainVariant};
use reference::combine::{combine, Names, Operator};
use reference::diagram::{Diagram, LARGEST};
use reference::refusal::Refusal;
use reference::regress::{regress, Truths};
use reference::session::{answers, run, Answer};
use reference::slips::Slips;
use reference::state::State;
use reference::terms::{Label, Test, FIRST_PARAMETER, FIRST_VARIABLE, PREDICATES};
use reference::tree::Tree;

const RUN: &[u8] = include_bytes!("../../../examples/sample.txt");

const PRINTED: &str = "\
(value 0 0 1)
(backup 1 6)
(row 0 leaf 120)
(row 1 leaf 30)
(row 2 281474976710656 0 1)
(row 3 leaf 0)
(row 4 281474976710656 0 3)
(row 5 274877906944 2 4)
(cut 5 false 5)
(value 30 1 8)
(refused 16 18)
(value 120 1 8)
";

fn test_of(terms: &[u64]) -> Diagram {
    Diagram::test(Test::Is(Label::pack(1, terms)))
}

#[test]
fn run_whole() {
    assert_eq!(String::from_utf8(run(RUN)).unwrap(), PRINTED);
}

/// Document 02, L1: a line of exactly no bytes passes; a text without any other line is answered nothing at all.
#[test]
fn blank_lines() {
    let answered = |text: &str| String::from_utf8(run(text.as_bytes())).unwrap();
    assert_eq!(answered(""), "");
    assert_eq!(answered("\n\n"), "");
    assert_eq!(answered("\r\n"), "(refused 1 1)\n(refused 5 0)\n");
    assert_eq!(answered(" \n"), "(refused 1 1)\n(refused 5 0)\n");
    assert_eq!(answered("\n\nx"), "(refused 1 3)\n(refused 5 0)\n");
    assert_eq!(answered("\n(constant hub)\n\n"), "(refused 5 0)\n");
    // everywhere in the run, which is the same but for the number of the line that is refused
    let spaced = String::from_utf8(RUN.to_vec()).unwrap().replace('\n', "\n\n");
    assert_eq!(answered(&spaced), PRINTED.replace("(refused 16 18)", "(refused 16 35)"));
}

#[test]
fn sum_at_the_largest_value() {
    let sum = |a, b| combine(Operator::Sum, Names::Shared, &Diagram::leaf(a), &Diagram::leaf(b)).map(|c| c.diagram);
    assert_eq!(sum(LARGEST, 0), Ok(Diagram::leaf(LARGEST)));
    assert_eq!(sum(LARGEST, 1), Err(Refusal::Value));
}

#[test]
fn scale_of_eight() {
    let model = "(total 4)\n(discount 1 2)\n(reward 0)\n(action wait)\n(variant only 4)\n(start)\n";
    let text = format!("{model}{}", "(backup)\n".repeat(20));
    let answers = answers(text.as_bytes(), Slips::NONE);
    assert_eq!(answers[18], Answer::Backup { k: 19, rows: 1 });
    assert_eq!(answers[19], Answer::Refused { refusal: Refusal::Scale, line: 26 });
}

#[test]
fn arguments_are_replaced_together() {
    let (a, b) = (FIRST_VARIABLE, FIRST_VARIABLE + 1);
    let truths = Truths::from([(1, test_of(&[a, b]))]);
    assert_eq!(regress(&test_of(&[b, a]), &truths, Slips::NONE), Ok(test_of(&[b, a])));
    let in_turn = Slips { arguments_in_turn: true, ..Slips::NONE };
    assert_eq!(regress(&test_of(&[b, a]), &truths, in_turn), Ok(test_of(&[a, a])));
}

/// The run's model and states, worked out without diagrams.
#[test]
fn run_by_brute_force() {
    let test = |predicate, terms: &[u64], no: Tree| Tree::If {
        predicate,
        terms: terms.to_vec(),
        yes: Box::new(Tree::Number(1)),
        no: Box::new(no),
    };
    let filled = test(0, &[FIRST_PARAMETER, FIRST_VARIABLE], test(1, &[FIRST_VARIABLE], Tree::Number(0)));
    let variants = vec![
        PlainVariant { weight: Tree::Number(3), truths: [(1, filled)].into() },
        PlainVariant { weight: Tree::Number(1), truths: [].into() },
    ];
    let mut arities = [0; PREDICATES];
    arities[..2].copy_from_slice(&[2, 1]);
    let reward = Tree::If { predicate: 1, terms: vec![0], yes: Box::new(Tree::Number(10)), no: Box::new(Tree::Number(0)) };
    let actions = vec![PlainAction { parameters: 1, variants }];
    let model = PlainModel { arities, total: 4, discount: (1, 2), reward, actions };
    let empty = State { objects: 2, constants: vec![0], facts: [].into() };
    let stocked = State { facts: [(1, vec![0])].into(), ..empty.clone() };
    let mut bellman = Bellman::new(&model);
    assert_eq!(bellman.value(0, &empty), 0);
    assert_eq!(bellman.value(1, &empty), 30);
    assert_eq!(bellman.value(1, &stocked), 120);
    assert_eq!(bellman.value(3, &empty), 3750);
}
