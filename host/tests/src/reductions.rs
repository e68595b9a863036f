//! Reductions (document 02, L13): the value stays in every state of up to three objects, and the combinations counted, the winning paths and the result are those that the states
//! of as many objects as there are variables give, without any combination.

use crate::meaning::{diagram, every_state, expect, is_listing};
use crate::models::{ground_facts, minimum_terms, state, terms, Signature, Size};
use crate::random::Random;
use crate::tally::Tally;
use reference::cut::{cut, paths, Edge};
use reference::diagram::{Diagram, Row};
use reference::reduce::{combinations, descending, reduce, valuations};
use reference::refusal::Refusal;
use reference::slips::Slips;
use reference::state::{by_valuations, State, Valuation};
use reference::terms::{is_minimum, Arities};
use reference::tree::Tree;
use std::collections::BTreeSet;

/// All states of these facts are gone through; of more facts only some.
const FACTS: usize = 12;

/// The edges that a valuation follows in a state, and the leaf they lead to.
fn followed(diagram: &Diagram, arities: &Arities, state: &State, valuation: &Valuation) -> (Vec<Edge>, u64) {
    let (mut at, mut edges) = (diagram.root(), Vec::new());
    loop {
        match diagram.rows()[at] {
            Row::Leaf(leaf) => return (edges, leaf),
            Row::Branch { label, yes, no } => {
                let arity = arities[label.predicate() as usize] as usize;
                let side = state.holds(label.predicate(), &label.places()[..arity], valuation);
                edges.push((at, side));
                at = if side { yes } else { no };
            }
        }
    }
}

/// How many combinations are formed and which edges stay, by states: a state of as many objects as there are variables makes one choice of paths for the first i valuations, and every
/// consistent choice is made by one; its winning path is the highest that it leads a valuation along.
fn by_states(diagram: &Diagram, signature: &Signature) -> (usize, BTreeSet<Edge>) {
    let valuations = valuations(&diagram.variables(), Slips::NONE);
    let objects = diagram.variables().len().max(1) as u64;
    let (mut choices, mut kept) = (vec![BTreeSet::new(); valuations.len()], BTreeSet::new());
    for state in every_state(signature, objects) {
        let followed: Vec<(Vec<Edge>, u64)> = valuations.iter().map(|v| followed(diagram, &signature.arities, &state, v)).collect();
        for (i, choice) in choices.iter_mut().enumerate() {
            choice.insert(followed[..=i].to_vec());
        }
        // the highest leaf, and then the true side at the first row where two paths part
        let place = |(edges, leaf): &&(Vec<Edge>, u64)| (*leaf, edges.iter().map(|(_, side)| *side).collect::<Vec<bool>>());
        kept.extend(followed.iter().max_by_key(place).expect("a valuation").0.iter().copied());
    }
    (choices.iter().map(BTreeSet::len).sum(), kept)
}

/// The diagram as a tree in which every edge that does not stay leads to leaf 0.
fn tree(diagram: &Diagram, arities: &Arities, at: usize, kept: &BTreeSet<Edge>) -> Tree {
    match diagram.rows()[at] {
        Row::Leaf(leaf) => Tree::Number(leaf),
        Row::Branch { label, yes, no } => {
            let side = |truth: bool, child: usize| match kept.contains(&(at, truth)) {
                true => Box::new(tree(diagram, arities, child, kept)),
                false => Box::new(Tree::Number(0)),
            };
            let terms = label.places()[..arities[label.predicate() as usize] as usize].to_vec();
            Tree::If { predicate: label.predicate(), terms, yes: side(true, yes), no: side(false, no) }
        }
    }
}

/// A diagram for a reduction: without equality, constants and minimum variables but for some, of up to four variables.
fn drawn(random: &mut Random) -> (Signature, Diagram) {
    let size = *random.pick(&[Size { depth: 4, predicates: 2, ..Size::PLAIN }, Size { depth: 5, ..Size::PLAIN }]);
    let size = if random.once_in(8) { Size { constants: 1, equality: random.once_in(2), ..size } } else { size };
    let signature = Signature::random(random, size);
    let variables = *random.pick(&[0, 1, 2, 2, 2, 3, 3, 3, 4]);
    let depth = if variables == 4 { 1 } else { size.depth };
    let mut terms = terms(&signature, 0, variables);
    if random.once_in(8) {
        terms.extend(minimum_terms(random.between(1, 2)));
    }
    let drawn = diagram(random, &signature, &terms, depth);
    (signature, drawn)
}

/// Every state of so many objects, or some of them where there are too many.
fn states(random: &mut Random, signature: &Signature, objects: u64) -> Vec<State> {
    match ground_facts(signature, objects).len() {
        0..=FACTS => every_state(signature, objects),
        _ => (0..60).map(|_| state(random, signature, objects)).collect(),
    }
}

/// One random diagram and its reduction.
pub fn check(seed: u64, slips: Slips, tally: &mut Tally) -> Result<(), String> {
    let random = &mut Random::new(seed);
    let (signature, whole) = drawn(random);
    let arities = &signature.arities;
    let answer = reduce(&whole, arities, slips);
    let all = descending(paths(&whole).unwrap_or_default());
    let combined = |limit: usize| combinations(&all, &valuations(&whole.variables(), slips), arities, limit);
    let variables = whole.variables().len();
    let of_minimum = whole.variables().into_iter().any(is_minimum);
    let plain = signature.constants == 0 && !signature.equality && !of_minimum;
    expect(!plain || answer != Err(Refusal::Kinds), || format!("26 for {whole:?}"))?;
    let refused = matches!(answer, Err(Refusal::Paths | Refusal::Kinds));
    expect(!of_minimum || refused, || format!("{answer:?} with a minimum variable in {whole:?}"))?;
    let runs = valuations(&whole.variables(), Slips::NONE).len() * all.len();
    if !refused {
        expect((answer == Err(Refusal::Runs)) == (runs > 512), || format!("{answer:?} with {runs} valuations times paths"))?;
    }
    let few = matches!(answer, Ok(_) | Err(Refusal::Combinations)) && ground_facts(&signature, variables as u64).len() <= FACTS;
    if few && slips == Slips::NONE {
        let (formed, kept) = by_states(&whole, &signature);
        let right = tree(&whole, arities, whole.root(), &kept).read().map(|diagram| diagram.closed_up());
        expect(combined(formed).map(|(_, counted)| counted) == Ok(formed), || format!("not {formed} combinations for {whole:?}"))?;
        expect(combined(formed - 1) == Err(Refusal::Combinations), || format!("more than {} combinations pass", formed - 1))?;
        expect(answer == right, || format!("{answer:?}, not {right:?}, for {whole:?}"))?;
    }
    let Ok(reduced) = tally.watch(answer) else {
        return Ok(());
    };
    expect(is_listing(&reduced, &signature), || "the result is no listing".to_string())?;
    expect(reduced == reduced.closed_up(), || "the result is not closed up".to_string())?;
    for objects in 1..=3 {
        for state in states(random, &signature, objects) {
            let value = |diagram: &Diagram| by_valuations(diagram, arities, &state);
            expect(value(&reduced) == value(&whole), || {
                format!("value {}, not {}, in {state:?} of {whole:?}", value(&reduced), value(&whole))
            })?;
        }
    }
    if reduced != whole.closed_up() {
        tally.see("a reduction took an edge away");
    }
    if cut(&whole, arities, Slips::NONE) == Err(Refusal::Nothing) && reduced != whole.closed_up() {
        tally.see("a reduction took an edge away where nothing was left to cut");
    }
    Ok(())
}
