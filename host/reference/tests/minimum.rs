//! Minimum variables (document 02, L12): numbers of diagrams by hand, closing up, moving apart and freeing kind by kind, and what is refused.

mod trees;

use reference::calls::{self, Lent};
use reference::combine::{combine, Combined, Names, Operator};
use reference::cut::cut;
use reference::diagram::{Diagram, Row, Space};
use reference::listing::write_listing;
use reference::reduce::reduce;
use reference::refusal::Refusal;
use reference::regress::{free, regress, Truths};
use reference::session::run;
use reference::slips::Slips;
use reference::state::{by_valuations, value, State};
use reference::terms::{Arities, Label, Term, EQUALITY, FIRST_MINIMUM, FIRST_PARAMETER, FIRST_VARIABLE, LAST_MINIMUM, PREDICATES};
use std::collections::{BTreeMap, BTreeSet};
use trees::{number, read, when};

const P: Term = FIRST_PARAMETER;
const X: Term = FIRST_VARIABLE;
const Y: Term = FIRST_MINIMUM;

/// p is predicate 1 of arity 1, r predicate 2 of arity 2, t predicate 3 of arity 6, all others have arity 0.
fn arities() -> Arities {
    let mut arities = [0; PREDICATES];
    arities[..4].copy_from_slice(&[2, 1, 2, 6]);
    arities
}

/// 5 where r relates the two, else 0.
fn related(a: Term, b: Term) -> Diagram {
    read(when(2, &[a, b], number(5), number(0)))
}

fn in_state(diagram: &Diagram, objects: u64, facts: &[(u64, &[u64])]) -> Result<u64, Refusal> {
    let facts: BTreeSet<(u64, Vec<u64>)> = facts.iter().map(|(predicate, objects)| (*predicate, objects.to_vec())).collect();
    let state = State { objects, constants: Vec::new(), facts };
    let found = value(diagram, &arities(), &state);
    if let Ok(found) = found {
        assert_eq!(found, by_valuations(diagram, &arities(), &state));
    }
    found
}

/// Some van serves all shelves: it is not enough that each shelf has a van.
#[test]
fn numbers_by_hand() {
    let all = related(X, Y);
    assert_eq!(in_state(&all, 2, &[(2, &[0, 0]), (2, &[0, 1])]), Ok(5));
    assert_eq!(in_state(&all, 2, &[(2, &[0, 0]), (2, &[1, 1])]), Ok(0));
    assert_eq!(in_state(&all, 1, &[(2, &[0, 0])]), Ok(5));
    // all of them, and the worst of all choices
    let every = read(when(1, &[Y], number(3), number(2)));
    assert_eq!(in_state(&every, 3, &[(1, &[0]), (1, &[1]), (1, &[2])]), Ok(3));
    assert_eq!(in_state(&every, 3, &[(1, &[0]), (1, &[2])]), Ok(2));
    // r(%y, ?x) is tested by its minimum variable first, and ?x is chosen before it all the same
    let from_all = related(Y, X);
    assert_eq!(in_state(&from_all, 2, &[(2, &[0, 0]), (2, &[1, 1])]), Ok(0));
    assert_eq!(in_state(&from_all, 2, &[(2, &[0, 1]), (2, &[1, 1])]), Ok(5));
    // shelves alone: where p holds of %y, r must relate it to ?x
    let shelves = read(when(1, &[Y], when(2, &[X, Y], number(5), number(0)), number(5)));
    assert_eq!(in_state(&shelves, 3, &[(1, &[1]), (1, &[2]), (2, &[0, 1]), (2, &[0, 2])]), Ok(5));
    assert_eq!(in_state(&shelves, 3, &[(1, &[1]), (1, &[2]), (2, &[0, 1]), (2, &[1, 2])]), Ok(0));
    // ?x may be what %y is: the lowest choice is made behind it
    let same = read(when(EQUALITY, &[X, Y], number(4), number(1)));
    assert_eq!((in_state(&same, 1, &[]), in_state(&same, 2, &[])), (Ok(4), Ok(1)));
}

/// v counts both kinds, and with a minimum variable no tables take the place of valuations.
#[test]
fn valuations_of_both_kinds() {
    assert_eq!(in_state(&related(X, Y), 1_000, &[(2, &[0, 0])]), Ok(0));
    assert_eq!(in_state(&related(X, Y), 1_001, &[]), Err(Refusal::Valuations));
    let three = |last: Term| {
        let inner = when(1, &[last], number(9), number(0));
        read(when(1, &[X], when(1, &[X + 1], inner, number(0)), number(0)))
    };
    assert_eq!(value(&three(X + 2), &arities(), &State { objects: 101, constants: Vec::new(), facts: BTreeSet::new() }), Ok(0));
    assert_eq!(in_state(&three(Y), 101, &[]), Err(Refusal::Valuations));
    assert_eq!(in_state(&three(Y), 100, &[]), Ok(0));
}

#[test]
fn renumbered_kind_by_kind() {
    let spread = read(when(3, &[X + 2, Y + 9, X + 6, LAST_MINIMUM, 3, P], number(1), number(0)));
    let closed = read(when(3, &[X, Y, X + 1, Y + 1, 3, P], number(1), number(0)));
    assert_eq!(spread.closed_up(), closed);
    // freed, the maximum variables move up and the minimum ones stay
    let freed = read(when(3, &[X + 4, Y + 9, X + 8, LAST_MINIMUM, 3, X], number(1), number(0)));
    assert_eq!(free(&spread, 2, Slips::NONE), Ok(freed));
    assert_eq!(free(&related(P, LAST_MINIMUM), 4, Slips::NONE), Ok(related(X, LAST_MINIMUM)));
    assert_eq!(free(&related(X + 60, Y), 4, Slips::NONE), Err(Refusal::Variables));
    // regression leaves both kinds as they are
    let truths = Truths::from([(2, read(when(2, &[X + 1, X], number(1), number(0))))]);
    assert_eq!(regress(&related(X + 3, Y + 7), &truths, Slips::NONE), Ok(related(Y + 7, X + 3)));
}

fn combined(operator: Operator, names: Names, a: &Diagram, b: &Diagram) -> Diagram {
    combine(operator, names, a, b).expect("a small combination").diagram
}

/// The second's variables of each kind follow after the first's.
#[test]
fn apart() {
    let (a, b) = (related(X + 3, Y + 5), related(X + 3, Y));
    let sum = read(when(2, &[X, Y], when(2, &[X + 1, Y + 1], number(10), number(5)), when(2, &[X + 1, Y + 1], number(5), number(0))));
    assert_eq!(combined(Operator::Sum, Names::Apart, &a, &b), sum);
    // either relation suffices for 5, and two vans for 10
    assert_eq!(in_state(&sum, 2, &[(2, &[0, 0]), (2, &[0, 1])]), Ok(10));
    // shared names stay: one choice serves both sides
    let shared = combined(Operator::Sum, Names::Shared, &a, &b);
    assert_eq!(shared.variables(), BTreeSet::from([X + 3, Y, Y + 5]));
}

/// A max of shared names is one apart in every respect, if either side has a minimum variable.
#[test]
fn a_max_is_done_apart() {
    let (a, b) = (related(X + 1, Y + 1), read(when(1, &[X + 1], number(7), number(2))));
    for (a, b) in [(&a, &b), (&b, &a), (&a, &a)] {
        let apart = combine(Operator::Max, Names::Apart, a, b);
        assert_eq!(combine(Operator::Max, Names::Shared, a, b), apart);
        let Combined { diagram, .. } = apart.expect("a small combination");
        assert_eq!(diagram.closed_up(), diagram);
    }
    // not so without one, nor a sum
    assert_eq!(combined(Operator::Max, Names::Shared, &b, &b), b);
    assert_eq!(combined(Operator::Sum, Names::Shared, &a, &a).variables(), a.variables());
    // van 0 brings to shelves 0 and 1, and takes from shelf 2: it does neither for all of them, though with shared names each shelf would have one or the other
    let max = combined(Operator::Max, Names::Shared, &related(X, Y), &related(Y, X));
    assert_eq!(in_state(&max, 3, &[(2, &[0, 0]), (2, &[0, 1]), (2, &[2, 0])]), Ok(0));
    assert_eq!(in_state(&max, 3, &[(2, &[0, 0]), (2, &[1, 0]), (2, &[2, 0])]), Ok(5));
}

/// A conjunction of tests of t over so many variables of a kind, from a first one on.
fn many(first: Term, count: u64) -> Diagram {
    let mut space = Space::new();
    let [mut below, none] = [1, 0].map(|leaf| space.form(Row::Leaf(leaf)).expect("room"));
    let variables: Vec<Term> = (first..first + count).collect();
    for six in variables.chunks(6).rev() {
        let terms: Vec<Term> = six.iter().copied().chain([six[0]; 6]).take(6).collect();
        below = space.form(Row::Branch { label: Label::pack(3, &terms), yes: below, no: none }).expect("room");
    }
    space.diagram(below)
}

/// 8 judges each kind by itself.
#[test]
fn variables_of_each_kind() {
    let both = |a: &Diagram, b: &Diagram| combine(Operator::Product, Names::Apart, a, b).map(|combined| combined.diagram.variables().len());
    assert_eq!(both(&many(X, 64), &many(Y, 64)), Ok(128));
    assert_eq!(both(&many(Y, 64), &many(X, 64)), Ok(128));
    assert_eq!(both(&many(Y, 64), &many(Y, 1)), Err(Refusal::Variables));
    assert_eq!(both(&many(X, 1), &many(X, 64)), Err(Refusal::Variables));
    assert_eq!(both(&many(Y, 32), &many(Y + 32, 32)), Ok(64));
    let max = |b: &Diagram| combine(Operator::Max, Names::Shared, &many(Y, 64), b).map(|combined| combined.diagram.variables().len());
    assert_eq!(max(&many(Y, 1)), Err(Refusal::Variables));
    assert_eq!(max(&many(X, 64)), Ok(128));
}

#[test]
fn cuts_and_reductions() {
    let all = related(X, Y);
    assert_eq!(cut(&all, &arities(), Slips::NONE), Err(Refusal::Minimum));
    assert_eq!(reduce(&all, &arities(), Slips::NONE), Err(Refusal::Kinds));
    // 25 comes before 17, and 17 before 26
    let mut space = Space::new();
    let mut below = space.form(Row::Leaf(9)).expect("room");
    for i in (0..300_u64).rev() {
        let leaf = space.form(Row::Leaf(i)).expect("room");
        below = space.form(Row::Branch { label: Label::pack(2, &[X + i / 64, Y + i % 64]), yes: leaf, no: below }).expect("room");
    }
    let long = space.diagram(below);
    assert_eq!(cut(&long, &arities(), Slips::NONE), Err(Refusal::Minimum));
    assert_eq!(reduce(&long, &arities(), Slips::NONE), Err(Refusal::Paths));
}

/// Library calls: 14, 18 and then 25 of a cut; 6 for a truth diagram that has one.
#[test]
fn calls() {
    let (arities, all) = (arities(), write_listing(&related(X, Y)));
    let too_small = Lent { result: 0, space: 0 };
    assert_eq!(calls::cut(&all, &arities, Lent::ENOUGH), Err(Refusal::Minimum));
    assert_eq!(calls::cut(&all, &arities, too_small), Err(Refusal::Buffer));
    assert_eq!(calls::cut(&all, &[], too_small), Err(Refusal::Listing));
    assert_eq!(calls::reduce(&all, &arities, Lent::ENOUGH), Err(Refusal::Kinds));
    assert_eq!(calls::value(&all, &arities, 2, &[], &[2, 1, 0, 0, 0, 0, 0, 2, 1, 1, 0, 0, 0, 0]), Ok(5));
    let truth = |leaf: u64| {
        let words = write_listing(&read(when(2, &[X, Y], number(leaf), number(0))));
        let mut truths: [Option<&[u64]>; PREDICATES] = [None; PREDICATES];
        truths[2] = Some(&words);
        calls::regress(&all, &truths, &arities, Lent::ENOUGH)
    };
    assert_eq!(truth(1), Err(Refusal::Unbound));
    assert_eq!(truth(2), Err(Refusal::Truth));
}

/// Where %name is a word of the grammar and not allowed it is 6, in its place among the words; elsewhere it is 1.
#[test]
fn words() {
    let before = "(predicate p 1)\n(action go !a)\n(variant only 100)\n";
    let answered = |line: &str| String::from_utf8(run(format!("{before}{line}\n").as_bytes())).expect("plain text");
    let refused = |line: &str| match answered(line).strip_suffix("(refused 5 0)\n") {
        Some("") => 0,
        Some(first) => first.trim_matches(['(', ')', '\n']).split(' ').nth(1).and_then(|n| n.parse().ok()).expect("a number"),
        None => panic!("{line}"),
    };
    let cases = BTreeMap::from([
        ("(reward (if (p %x) 1 0))", 0),
        ("(reward (if (= %x ?x) 1 0))", 0),
        ("(variant other (if (p %x) 1 0))", 6),
        ("(variant other (if (= %x %x) 1 0))", 6),
        ("(variant other (if (q %x) 1 0))", 2),
        ("(variant other (if (p %x c) 1 0))", 3),
        ("(variant other (if (= %x c) 1 0))", 6),
        ("(variant other (if (= c %x) 1 0))", 2),
        ("(becomes (p ?x) (if (p %x) 1 0))", 6),
        ("(becomes (p %x) 1)", 1),
        ("(becomes (%p ?x) 1)", 1),
        ("(action other %x)", 1),
        ("(constant %x)", 1),
        ("(reward %x)", 1),
        ("(reward (if (%p ?x) 1 0))", 1),
        ("(reward (if (p %) 1 0))", 1),
        ("(reward (if (p %%x) 1 0))", 1),
        ("(reward (if (p %1x) 1 0))", 1),
        ("(reward (if (p %sixteenletterss) 1 0))", 0),
        ("(reward (if (p %sixteenletterssx) 1 0))", 1),
    ]);
    for (line, number) in cases {
        assert_eq!(refused(line), number, "{line}");
    }
}
