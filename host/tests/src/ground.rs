//! Document 02, L14: two ground listings have the same value in every state exactly if they are equal. As many objects as constants, each constant at its
//! own, are enough to tell.

use crate::models::{ground_facts, Signature, Size};
use crate::random::Random;
use reference::diagram::Diagram;
use reference::listing::write_listing;
use reference::state::{value, State};
use reference::terms::{Arities, Term};
use reference::tree::Tree;

type Atom = (u64, Vec<Term>);

/// Few facts, so that there are at most 256 states.
const SIZE: Size = Size { predicates: 2, ..Size::SMALL };

fn test(atom: &Atom, yes: Tree, no: Tree) -> Tree {
    Tree::If { predicate: atom.0, terms: atom.1.clone(), yes: Box::new(yes), no: Box::new(no) }
}

fn random_tree(random: &mut Random, atoms: &[Atom], depth: u64) -> Tree {
    if depth == 0 || atoms.is_empty() || random.once_in(6) {
        return Tree::Number(random.below(3));
    }
    let atom = random.pick(atoms).clone();
    let yes = random_tree(random, atoms, depth - 1);
    test(&atom, yes, random_tree(random, atoms, depth - 1))
}

/// The tree where the atom is known.
fn given(tree: &Tree, atom: &Atom, truth: bool) -> Tree {
    match tree {
        Tree::Number(value) => Tree::Number(*value),
        Tree::If { predicate, terms, yes, no } if (*predicate, terms) == (atom.0, &atom.1) => {
            given(if truth { yes } else { no }, atom, truth)
        }
        Tree::If { predicate, terms, yes, no } => test(&(*predicate, terms.clone()), given(yes, atom, truth), given(no, atom, truth)),
    }
}

/// The tree with one atom in place of another.
fn exchanged(tree: &Tree, atom: &Atom, other: &Atom) -> Tree {
    match tree {
        Tree::Number(value) => Tree::Number(*value),
        Tree::If { predicate, terms, yes, no } => {
            let own = (*predicate, terms.clone());
            test(if own == *atom { other } else { &own }, exchanged(yes, atom, other), exchanged(no, atom, other))
        }
    }
}

/// The same numbers, asked in another order.
fn asked_first(tree: &Tree, atom: &Atom) -> Tree {
    test(atom, given(tree, atom, true), given(tree, atom, false))
}

/// As many objects as constants, constant c at object c, and every choice of facts.
fn states(constants: u64, facts: &[Atom]) -> Vec<State> {
    let chosen = |choice: u64| facts.iter().enumerate().filter(move |(i, _)| choice >> i & 1 == 1).map(|(_, fact)| fact.clone()).collect();
    (0..1 << facts.len()).map(|choice| State { objects: constants, constants: (0..constants).collect(), facts: chosen(choice) }).collect()
}

fn values(diagram: &Diagram, arities: &Arities, states: &[State]) -> Vec<u64> {
    states.iter().map(|state| value(diagram, arities, state).expect("no variable")).collect()
}

/// A tree, the same asked in another order, the same with one atom for another, and a fourth: of each pair the values are equal exactly if the listings are.
pub fn check(seed: u64) -> Result<(), String> {
    let random = &mut Random::new(seed);
    let signature = Signature { constants: random.between(1, SIZE.constants), ..Signature::random(random, SIZE) };
    // over as many objects as constants, the facts are the ground atoms
    let atoms: Vec<Atom> = ground_facts(&signature, signature.constants);
    let tree = random_tree(random, &atoms, 3);
    let turned = (0..2).fold(tree.clone(), |tree, _| asked_first(&tree, random.pick(&atoms)));
    let close = exchanged(&tree, random.pick(&atoms), random.pick(&atoms));
    let diagrams = [tree, turned, close, random_tree(random, &atoms, 2)].map(|tree| tree.read().expect("few rows"));
    let states = states(signature.constants, &atoms);
    let known: Vec<_> = diagrams.iter().map(|diagram| (write_listing(diagram), values(diagram, &signature.arities, &states))).collect();
    for (listing, values) in &known {
        for (other, others) in &known {
            if (listing == other) != (values == others) {
                return Err(format!("{listing:?} has the values {values:?}, and {other:?} {others:?}"));
            }
        }
    }
    if known[0].0 != known[1].0 {
        return Err(format!("{:?}, asked in another order, is {:?}", known[0].0, known[1].0));
    }
    Ok(())
}

/// docs/GUIDE.md, "Support": two different listings with the same value in every state, of up to three objects and with constants placed in every way.
#[cfg(test)]
mod examples {
    use super::{test, Atom};
    use crate::meaning::every_state;
    use crate::models::Signature;
    use reference::state::value;
    use reference::terms::{EQUALITY, FIRST_VARIABLE, PREDICATES};
    use reference::tree::Tree;

    /// Two constants, a and b, and the predicate stock.
    fn differ_with_equal_values(first: Tree, second: Tree) {
        let mut arities = [0; PREDICATES];
        (arities[EQUALITY as usize], arities[1]) = (2, 1);
        let signature = Signature { constants: 2, equality: true, predicates: 1, arities };
        let [first, second] = [first, second].map(|tree| tree.read().expect("few rows"));
        assert_ne!(first, second);
        for state in (1..=3).flat_map(|objects| every_state(&signature, objects)) {
            assert_eq!(value(&first, &arities, &state), value(&second, &arities, &state), "{state:?}");
        }
    }

    fn stock(term: u64) -> Atom {
        (1, vec![term])
    }

    fn ten_if(term: u64) -> Tree {
        test(&stock(term), Tree::Number(10), Tree::Number(0))
    }

    #[test]
    fn with_a_variable() {
        let (x, y) = (FIRST_VARIABLE, FIRST_VARIABLE + 1);
        differ_with_equal_values(ten_if(x), test(&stock(x), Tree::Number(10), ten_if(y)));
    }

    #[test]
    fn with_equality() {
        let a_is_b = (EQUALITY, vec![0, 1]);
        let [first, second] = [0, 1].map(|constant| test(&a_is_b, ten_if(constant), Tree::Number(5)));
        differ_with_equal_values(first, second);
    }
}
