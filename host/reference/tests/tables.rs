//! The second way to a value (document 02, L6): entries counted by hand, and which way is used.

use reference::calls::value;
use reference::diagram::Diagram;
use reference::listing::{read_arities, read_listing};
use reference::refusal::Refusal;
use reference::state::{by_valuations, State};
use reference::tables::{worked, Worked, ENTRIES};
use reference::terms::{Label, EQUALITY, FIRST_VARIABLE, LEAF_MARK, PREDICATES};
use std::collections::BTreeSet;

const X: u64 = FIRST_VARIABLE;
const Y: u64 = X + 1;
const Z: u64 = X + 2;

/// p is predicate 1 of arity 1, r predicate 2 of arity 2.
fn arities() -> Vec<u64> {
    let mut arities = vec![0; PREDICATES];
    arities[..3].copy_from_slice(&[2, 1, 2]);
    arities
}

fn leaf(value: u64) -> [u64; 3] {
    [LEAF_MARK, value, 0]
}

fn p(term: u64, yes: u64, no: u64) -> [u64; 3] {
    [Label::pack(1, &[term]).0, yes, no]
}

fn r(terms: [u64; 2], yes: u64, no: u64) -> [u64; 3] {
    [Label::pack(2, &terms).0, yes, no]
}

fn same(terms: [u64; 2], yes: u64, no: u64) -> [u64; 3] {
    [Label::pack(EQUALITY, &terms).0, yes, no]
}

fn diagram(rows: &[[u64; 3]]) -> Diagram {
    read_listing(&rows.concat(), &read_arities(&arities()).unwrap()).unwrap()
}

fn state(objects: u64, facts: &[(u64, &[u64])]) -> State {
    let facts: BTreeSet<(u64, Vec<u64>)> = facts.iter().map(|(predicate, objects)| (*predicate, objects.to_vec())).collect();
    State { objects, constants: Vec::new(), facts }
}

fn by_tables(rows: &[[u64; 3]], state: &State) -> Result<Worked, Refusal> {
    let diagram = diagram(rows);
    let arities = read_arities(&arities()).unwrap();
    let worked = worked(&diagram, &arities, state, ENTRIES);
    if let Ok(worked) = worked {
        assert_eq!(worked.value, by_valuations(&diagram, &arities, state), "the highest leaf");
    }
    worked
}

/// (if (p ?x) (if (p ?y) 2 1) 0)
fn two() -> [[u64; 3]; 5] {
    [leaf(2), leaf(1), p(Y, 0, 1), leaf(0), p(X, 2, 3)]
}

/// Three leaves; each branch has joins of n entries together, a union of n and an aggregation of 1.
#[test]
fn two_tests_of_one_variable_each() {
    assert_eq!(by_tables(&two(), &state(2, &[])), Ok(Worked { value: 0, entries: 13 }));
    assert_eq!(by_tables(&two(), &state(2, &[(1, &[1])])), Ok(Worked { value: 2, entries: 13 }));
    assert_eq!(by_tables(&two(), &state(2_046, &[])), Ok(Worked { value: 0, entries: 8_189 }));
    assert_eq!(by_tables(&two(), &state(2_047, &[])), Err(Refusal::Valuations), "8,193 entries");
}

/// The two ways meet in the call of the library: 1,000 objects by valuations, 1,001 by tables, 2,047 not at all.
#[test]
fn the_way_that_is_used() {
    let call = |rows: &[[u64; 3]], objects: u64, facts: &[u64]| value(&rows.concat(), &arities(), objects, &[], facts);
    let fact = |object: u64| [1, object, 0, 0, 0, 0, 0];
    for objects in [1_000, 1_001, 2_046] {
        assert_eq!(call(&two(), objects, &[]), Ok(0));
        assert_eq!(call(&two(), objects, &fact(objects - 1)), Ok(2));
    }
    assert_eq!(call(&two(), 2_047, &fact(0)), Err(Refusal::Valuations));
    assert_eq!(call(&two(), u64::MAX, &[]), Err(Refusal::Valuations));
    // 1,000,000 valuations of one variable are gone through, though its tables would have 2,000,003 entries.
    let one = [leaf(1), leaf(0), p(X, 0, 1)];
    assert_eq!(call(&one, 1_000_000, &fact(999_999)), Ok(1));
    assert_eq!(call(&one, 1_000_001, &fact(0)), Err(Refusal::Valuations));
}

/// 8,192 entries pass: (if (p ?x) (if (p ?y) 1 0) 0) has one leaf fewer than the diagram above.
#[test]
fn just_at_the_limit() {
    let both = [leaf(1), leaf(0), p(Y, 0, 1), p(X, 2, 1)];
    assert_eq!(by_tables(&both, &state(2_047, &[(1, &[5])])), Ok(Worked { value: 1, entries: ENTRIES }));
    assert_eq!(by_tables(&both, &state(2_048, &[(1, &[5])])), Err(Refusal::Valuations), "8,196 entries");
}

/// (if (p ?x) (if (p ?y) (if (p ?z) 3 2) 1) 0) has 4 leaves and 2n + 1 entries a branch.
#[test]
fn three_tests_and_a_ground_one() {
    let three = [leaf(3), leaf(2), p(Z, 0, 1), leaf(1), p(Y, 2, 3), leaf(0), p(X, 4, 5)];
    let at = |objects: u64| by_tables(&three, &state(objects, &[(1, &[0])]));
    assert_eq!(at(20), Ok(Worked { value: 3, entries: 4 + 3 * 41 }));
    let worked_out = |objects: u64| worked(&diagram(&three), &read_arities(&arities()).unwrap(), &state(objects, &[(1, &[0])]), ENTRIES);
    assert_eq!(worked_out(1_364), Ok(Worked { value: 3, entries: 8_191 }));
    assert_eq!(worked_out(1_365), Err(Refusal::Valuations), "8,197 entries");
    // A ground test, here of a constant, has one case: two leaves of which one is shared, a join of one entry and an empty one, and a union of one.
    let ground = [leaf(3), leaf(2), p(Z, 0, 1), leaf(1), p(Y, 2, 3), leaf(0), p(X, 4, 5), p(0, 6, 5)];
    let worked_out =
        |objects: u64, most: u64| worked(&diagram(&ground), &read_arities(&arities()).unwrap(), &state(objects, &[(1, &[0])]), most);
    assert_eq!(worked_out(5, ENTRIES), Ok(Worked { value: 3, entries: 4 + 3 * 11 + 2 }));
    assert_eq!(worked_out(5, 39), Ok(Worked { value: 3, entries: 39 }));
    assert_eq!(worked_out(5, 38), Err(Refusal::Valuations));
}

/// A chain r(?x, ?y), r(?y, ?z): the row of r(?y, ?z) is below the test of ?y, so that only ?z goes there, and ?x and ?y at the root.
#[test]
fn a_chain() {
    let chain = [leaf(1), leaf(0), r([Y, Z], 0, 1), r([X, Y], 2, 1)];
    let objects = 3;
    let facts: [(u64, &[u64]); 2] = [(2, &[0, 1]), (2, &[1, 2])];
    // r(?y, ?z): joins of 2 and 7, a union of 9, 3 left. r(?x, ?y): 2 and 7, 9, then ?x goes and 3 are left, then ?y and 1 is.
    let entries = 2 + (2 + 7 + 9 + 3) + (2 + 7 + 9 + 3 + 1);
    assert_eq!(by_tables(&chain, &state(objects, &facts)), Ok(Worked { value: 1, entries }));
    assert_eq!(by_tables(&chain, &state(objects, &facts[..1])), Ok(Worked { value: 0, entries }));
}

/// A side that lacks variables is filled in: the false join of r(?x, ?z) has 3 entries of two names, which fill 6 of the 8 that its union has of three names.
#[test]
fn missing_variables_are_filled_in() {
    // (if (= ?x ?y) (if (r ?x ?z) (if (r ?y ?z) 4 3) 2) 1), where ?x and ?y stay named below
    let rows = [leaf(4), leaf(3), r([Y, Z], 0, 1), leaf(2), r([X, Z], 2, 3), leaf(1), same([X, Y], 4, 5)];
    // 4 leaves; r(?y, ?z): 1 + 3, union 4, ?z is tested above by r(?x, ?z), so all 4 stay. r(?x, ?z): names ?x ?y ?z: true 1 · 2, false 3 · 1 (its child has no name),
    // union 8, ?z goes, 4. ?x = ?y: true 2 of two names, false 2, union 4, 2, 1.
    let entries = 4 + (1 + 3 + 4) + (2 + 3 + 8 + 4) + (2 + 2 + 4 + 2 + 1);
    assert_eq!(by_tables(&rows, &state(2, &[(2, &[1, 1])])), Ok(Worked { value: 4, entries }));
}

/// An empty side's names are names of the union too: without a fact p(?y) has no true case, but its true row's table names ?x.
#[test]
fn an_empty_side_is_filled_in() {
    let rows = [leaf(3), leaf(2), r([X, Y], 0, 1), leaf(1), p(Y, 2, 3), leaf(0), p(X, 4, 5)];
    // 4 leaves; r(?x, ?y): 0 + 9, 9, all stay. p(?y): 0 + 3, 9 of two names, 3 of ?x. p(?x): 0 + 3, 3, 1.
    let entries = 4 + (9 + 9) + (3 + 9 + 3) + (3 + 3 + 1);
    assert_eq!(by_tables(&rows, &state(3, &[])), Ok(Worked { value: 0, entries }));
}

/// A row that two rows lead to is worked once, and keeps what either of them tests.
#[test]
fn a_shared_row() {
    // (if (p ?x) (if (p ?y) S 1) S) with S = (if (r ?x ?y) 3 0): S is below tests of both variables.
    let rows = [leaf(3), leaf(0), r([X, Y], 0, 1), leaf(1), p(Y, 2, 3), p(X, 4, 2)];
    // 3 leaves; S 0 + 4, union 4, nothing goes. p(?y): true 1 case by the two of ?x, so 2, false 1, union 4, ?y goes (the root tests ?x alone): 2. p(?x): true 1, false 1 · 2, union 4, 2, 1.
    let entries = 3 + (4 + 4) + (2 + 1 + 4 + 2) + (1 + 2 + 4 + 2 + 1);
    assert_eq!(by_tables(&rows, &state(2, &[(1, &[0])])), Ok(Worked { value: 1, entries }));
}

/// A leaf is a table of one entry; one variable twice in an atom is one name.
#[test]
fn small_ones() {
    assert_eq!(by_tables(&[leaf(7)], &state(5, &[])), Ok(Worked { value: 7, entries: 1 }));
    assert_eq!(
        by_tables(&[leaf(1), leaf(0), r([X, X], 0, 1)], &state(3, &[(2, &[1, 1])])),
        Ok(Worked { value: 1, entries: 2 + 1 + 2 + 3 + 1 })
    );
}
