//! Reductions (document 02, L13): winning paths and counts worked out by hand, the order of the checks, and the limits.

use reference::calls::{reduce, Lent, RESULT_WORDS, SPACE_WORDS};
use reference::cut::paths;
use reference::diagram::Diagram;
use reference::listing::write_listing;
use reference::reduce::{combinations, descending, runs, valuations, COMBINATIONS, RUNS};
use reference::refusal::Refusal;
use reference::session::{answers, run, Answer, Session};
use reference::slips::Slips;
use reference::terms::{Arities, Label, FIRST_PARAMETER, FIRST_VARIABLE, PREDICATES};
use reference::tree::Tree;

/// The first three variables.
const X: u64 = FIRST_VARIABLE;
const Y: u64 = X + 1;
const Z: u64 = X + 2;

/// Predicate 1 has arity 1, predicates 2 to 9 arity 2, predicate 10 arity 6, all others 0.
fn arities() -> Arities {
    let mut arities = [0; PREDICATES];
    arities[..11].copy_from_slice(&[2, 1, 2, 2, 2, 2, 2, 2, 2, 2, 6]);
    arities
}

fn when(predicate: u64, terms: &[u64], yes: Tree, no: Tree) -> Tree {
    Tree::If { predicate, terms: terms.to_vec(), yes: Box::new(yes), no: Box::new(no) }
}

fn read(tree: &Tree) -> Diagram {
    tree.read().expect("a small diagram")
}

/// Both of these, at the same variables.
fn both(first: Tree, second: &Tree) -> Tree {
    match first {
        Tree::Number(0) => Tree::Number(0),
        Tree::Number(_) => second.clone(),
        Tree::If { predicate, terms, yes, no } => when(predicate, &terms, both(*yes, second), both(*no, second)),
    }
}

fn formed(diagram: &Diagram) -> usize {
    let paths = descending(paths(diagram).expect("few paths"));
    combinations(&paths, &valuations(&diagram.variables(), Slips::NONE), &arities(), COMBINATIONS).expect("few combinations").1
}

fn call(tree: &Tree) -> Result<Vec<u64>, Refusal> {
    reduce(&write_listing(&read(tree)), &arities(), Lent::ENOUGH)
}

fn reduced_to(tree: &Tree, right: &Tree) -> bool {
    call(tree) == Ok(write_listing(&read(right)))
}

/// "p(x), or p(y)": what y finds, x could have found.
#[test]
fn a_path_that_another_valuation_wins() {
    let (five, zero) = (Tree::Number(5), Tree::Number(0));
    let one = when(1, &[X], five.clone(), zero.clone());
    assert!(reduced_to(&when(1, &[X], five, when(1, &[Y], Tree::Number(5), zero)), &one));
    assert!(reduced_to(&one, &one));
}

/// One with stock (1) is near (2) one without, or near one that is: the one in between has stock or has none, so that one of the two steps is enough. No cut finds it.
#[test]
fn what_several_paths_do_together() {
    let (five, zero) = (|| Tree::Number(5), || Tree::Number(0));
    let over = when(2, &[X, Z], when(2, &[Z, Y], five(), zero()), zero());
    let between = |near: Tree| when(1, &[X], when(1, &[Y], zero(), near), zero());
    let whole = between(when(2, &[X, Y], five(), over));
    assert!(reduced_to(&whole, &between(when(2, &[X, Y], five(), zero()))));
    assert_eq!(reference::cut::cut(&read(&whole), &arities(), Slips::NONE), Err(Refusal::Nothing));
}

/// The descending order: the higher leaf first, and of equal ones the one with the true edge where they part.
#[test]
fn path_order() {
    let leaf = Tree::Number;
    let tree = when(1, &[X], when(2, &[X, X], leaf(3), leaf(7)), when(2, &[X, X], leaf(7), leaf(3)));
    let sides = |path: &reference::cut::Path| path.literals.iter().map(|(_, side)| *side).collect::<Vec<bool>>();
    let order: Vec<(u64, Vec<bool>)> = descending(paths(&read(&tree)).unwrap()).iter().map(|path| (path.leaf, sides(path))).collect();
    assert_eq!(order, [(7, vec![true, false]), (7, vec![false, true]), (3, vec![true, true]), (3, vec![false, false])]);
    // p(x) and not p(y), or the other way round: the same by exchanged names, and the true edge at the root stays
    let (one, other) = (when(1, &[Y], leaf(0), leaf(5)), when(1, &[Y], leaf(5), leaf(0)));
    assert!(reduced_to(&when(1, &[X], one.clone(), other), &when(1, &[X], one, leaf(0))));
}

/// Where nothing is p and nothing is r, the last path wins with leaf 0; its edge from r(x, z) to r(y, z) stays, and so the way over both, which wins nowhere.
#[test]
fn a_path_to_zero_wins() {
    let (ten, zero) = (|| Tree::Number(10), || Tree::Number(0));
    let of_y = || when(2, &[Y, Z], ten(), zero());
    let whole = when(1, &[X], of_y(), when(2, &[X, Z], ten(), of_y()));
    assert!(reduced_to(&whole, &whole));
}

/// Lowest objects first, the lowest variable changing slowest; one valuation where there is no variable.
#[test]
fn order_of_valuations() {
    let objects = |count: u64| -> Vec<Vec<u64>> {
        let variables = (X..X + count).collect();
        valuations(&variables, Slips::NONE).iter().map(|valuation| valuation.values().copied().collect()).collect()
    };
    assert_eq!(objects(0), [[]]);
    assert_eq!(objects(1), [[0]]);
    assert_eq!(objects(2), [[0, 0], [0, 1], [1, 0], [1, 1]]);
    assert_eq!(objects(3).len(), 27);
    assert_eq!(objects(3)[..4], [[0, 0, 0], [0, 0, 1], [0, 0, 2], [0, 1, 0]]);
}

#[test]
fn combinations_counted_by_hand() {
    let (one, zero) = (|| Tree::Number(1), || Tree::Number(0));
    let count = |tree: Tree| formed(&read(&tree));
    assert_eq!(count(zero()), 1);
    assert_eq!(count(when(11, &[], one(), zero())), 2);
    assert_eq!(count(when(1, &[X], one(), zero())), 2);
    // a fact for each of four valuations
    assert_eq!(count(when(2, &[X, Y], one(), zero())), 2 + 4 + 8 + 16);
    // p(x), p(y): of object 0 alone two ways; with 1, which is not asked for where p is false of 0, three; then four
    assert_eq!(count(when(1, &[X], when(1, &[Y], one(), zero()), zero())), 2 + 3 + 4 + 4);
    // n paths by tests of both variables
    let tests = (3..6).fold(when(2, &[X, Y], one(), zero()), |all, predicate| both(all, &when(predicate, &[X, Y], one(), zero())));
    assert_eq!(count(tests), 5 + 25 + 125 + 625);
}

#[test]
fn order_of_checks() {
    let (one, zero) = (|| Tree::Number(1), || Tree::Number(0));
    let (three, five) = ([X, Y, Z, X, Y, Z], [X, Y, Z, X + 3, X + 4, X]);
    let parameter = |rest: Tree| when(1, &[FIRST_PARAMETER], rest, zero());
    let constant = |rest: Tree| when(1, &[0], rest, zero());
    let equality = |rest: Tree| when(0, &[X, Y], rest, zero());
    // 14, 18, 6, 17, 26, 27, 28
    let many = (11..20).fold(one(), |below, p| when(p, &[], below.clone(), when(1, &[FIRST_PARAMETER], Tree::Number(p), below)));
    let words = write_listing(&read(&parameter(one())));
    assert_eq!(reduce(&words[1..], &arities(), Lent { result: 0, space: 0 }), Err(Refusal::Listing));
    assert_eq!(reduce(&words, &arities()[1..], Lent { result: 0, space: 0 }), Err(Refusal::Listing));
    for lent in [Lent { result: RESULT_WORDS - 1, space: SPACE_WORDS }, Lent { result: RESULT_WORDS, space: SPACE_WORDS - 1 }] {
        assert_eq!(reduce(&words, &arities(), lent), Err(Refusal::Buffer));
    }
    assert_eq!(call(&many), Err(Refusal::Unbound));
    assert_eq!(call(&parameter(constant(one()))), Err(Refusal::Unbound));
    assert_eq!(call(&constant(when(10, &five, one(), zero()))), Err(Refusal::Kinds));
    assert_eq!(call(&equality(when(10, &five, one(), zero()))), Err(Refusal::Kinds));
    assert_eq!(call(&when(10, &five, one(), zero())), Err(Refusal::Runs));
    assert_eq!(call(&when(10, &three, one(), zero())), Err(Refusal::Combinations));
    assert!(call(&when(1, &[X], one(), zero())).is_ok());
    // variables need not be closed up; the result is
    let label = Label::pack(1, &[X + 63]);
    let words = write_listing(&Diagram::test(reference::terms::Test::Is(label)));
    assert_eq!(reduce(&words, &arities(), Lent::ENOUGH), Ok(write_listing(&read(&when(1, &[X], one(), zero())))));
}

#[test]
fn runs_of_variables_and_paths() {
    assert_eq!([(0, 256), (1, 256), (2, 128), (3, 18), (4, 2)].map(|(v, paths)| runs(v, paths)), [256, 256, 512, 486, 512]);
    assert_eq!([(2, 129), (3, 19), (4, 3), (5, 2)].map(|(v, paths)| runs(v, paths)), [516, 513, 768, 6_250]);
    assert!(runs(64, 2) > RUNS && runs(40, 256) > RUNS);
}

/// How many combinations the value diagram of a stored text has, where any number passes.
fn stored(name: &str) -> usize {
    let path = format!("{}/../corpus/{name}.txt", env!("CARGO_MANIFEST_DIR"));
    let text = std::fs::read_to_string(path).expect(name);
    let mut session = Session::new(Slips::NONE);
    for line in text.lines().take_while(|line| *line != "(reduce)") {
        session.take(line.as_bytes()).expect(line);
    }
    let held = session.started().expect("started");
    let paths = descending(paths(&held.value).expect("few paths"));
    combinations(&paths, &valuations(&held.value.variables(), Slips::NONE), &held.arities, usize::MAX).expect("no limit").1
}

#[test]
fn stored_texts_at_the_limit() {
    assert_eq!(stored("combinations-at-100000"), COMBINATIONS);
    assert_eq!(stored("combinations-at-100001"), COMBINATIONS + 1);
    assert_eq!(stored("combinations-lowest-variable-slowest"), COMBINATIONS);
}

/// An accepted reduction leaves k and the state; a refused one leaves all.
#[test]
fn what_a_reduction_leaves() {
    let text = "(predicate p 1)\n(reward (if (p ?x) 5 (if (p ?y) 5 0)))\n(action wait)\n(variant only 100)\n(start)\n(objects 2)\n(true p 1)\n(backup)\n(reduce)\n(value)\n";
    let printed = String::from_utf8(run(text.as_bytes())).unwrap();
    assert!(printed.ends_with("(value 19500 1 2000)\n"), "{printed}");
    let kinds =
        text.replace("?x", "hub").replacen("(predicate", "(constant hub)\n(predicate", 1).replace("(true p 1)", "(is hub 0)\n(true p 1)");
    assert!(answers(kinds.as_bytes(), Slips::NONE).contains(&Answer::Refused { refusal: Refusal::Kinds, line: 11 }));
}
