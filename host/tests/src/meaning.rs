//! The meaning of combinations, regressions, freeing and cuts, choice by choice and state by state.

use crate::models::{ground_facts, minimum_terms, model, state, terms, Signature, Size};
use crate::random::Random;
use crate::tally::Tally;
use reference::bellman::next_state;
use reference::best::{bindings, bound};
use reference::combine::{combine_with, Names, Operator};
use reference::cut::cut;
use reference::diagram::{Diagram, Row, Space};
use reference::listing::{read_listing, write_listing};
use reference::refusal::Refusal;
use reference::regress::{free, regress, Truths};
use reference::slips::Slips;
use reference::state::{by_valuations_with, leaf_in, value, value_with, State, Valuation};
use reference::terms::{is_minimum, is_parameter, Label, Term, FIRST_PARAMETER, FIRST_VARIABLE};
use std::collections::BTreeSet;

const OPERATORS: [Operator; 3] = [Operator::Sum, Operator::Product, Operator::Max];

/// A random diagram over these terms.
pub fn diagram(random: &mut Random, signature: &Signature, terms: &[Term], depth: u64) -> Diagram {
    loop {
        let leaves = [0, 1, random.below(10), random.below(1_000_000)];
        if let Ok(diagram) = signature.tree(random, terms, depth, &leaves).read() {
            return diagram;
        }
    }
}

/// Constants, so many parameters, three variables and up to two minimum variables.
fn terms_of_both_kinds(random: &mut Random, signature: &Signature, parameters: u64) -> Vec<Term> {
    terms(signature, parameters, 3).into_iter().chain(minimum_terms(random.below(3))).collect()
}

/// The diagram below a row. All rows are distinct and reduced, so they keep their numbers in a space.
fn below(diagram: &Diagram, root: usize) -> Diagram {
    let mut space = Space::new();
    for row in diagram.rows() {
        space.form(*row).expect("few rows");
    }
    space.diagram(root)
}

/// The pair set worked out on diagrams instead of row numbers. In a product a pair with leaf 0 on either side has no successors.
fn pair_set(operator: Operator, a: &Diagram, b: &Diagram, set: &mut BTreeSet<(Diagram, Diagram)>) {
    if !set.insert((a.clone(), b.clone())) {
        return;
    }
    let root = |d: &Diagram| d.rows()[d.root()];
    let label = |d: &Diagram| match root(d) {
        Row::Branch { label, .. } => label,
        Row::Leaf(_) => Label(u64::MAX),
    };
    let lower = label(a).min(label(b));
    let zero = root(a) == Row::Leaf(0) || root(b) == Row::Leaf(0);
    if lower == Label(u64::MAX) || (operator == Operator::Product && zero) {
        return;
    }
    for side in [true, false] {
        let descend = |d: &Diagram| match root(d) {
            Row::Branch { label, yes, no } if label == lower => below(d, if side { yes } else { no }),
            _ => d.clone(),
        };
        pair_set(operator, &descend(a), &descend(b), set);
    }
}

pub fn expect(condition: bool, message: impl FnOnce() -> String) -> Result<(), String> {
    if condition {
        Ok(())
    } else {
        Err(message())
    }
}

pub fn is_listing(diagram: &Diagram, signature: &Signature) -> bool {
    read_listing(&write_listing(diagram), &signature.arities).as_ref() == Ok(diagram)
}

/// A combination leads every choice to the operator's result of the operands' leaves; apart, its number is that of the operands' numbers. A max with a minimum variable is done apart.
pub fn check_combination(seed: u64, slips: Slips, tally: &mut Tally) -> Result<(), String> {
    let random = &mut Random::new(seed);
    let size = *random.pick(&[Size::SMALL, Size::PLACES]);
    let signature = Signature::random(random, size);
    let terms = terms_of_both_kinds(random, &signature, 1);
    let (a, b) = (diagram(random, &signature, &terms, 4), diagram(random, &signature, &terms, 4));
    let operator = *random.pick(&OPERATORS);
    let shared = tally.watch(combine_with(operator, Names::Shared, &a, &b, slips));
    if operator == Operator::Max && [&a, &b].into_iter().any(|operand| operand.variables().into_iter().any(is_minimum)) {
        let apart = combine_with(operator, Names::Apart, &a, &b, slips);
        tally.see("a max of shared names done apart");
        expect(shared == apart, || format!("not what a call apart answers, for a max with a minimum variable, of {a:?} and {b:?}"))?;
    } else if let Ok(combined) = shared {
        expect(is_listing(&combined.diagram, &signature), || "the result is no listing".to_string())?;
        let mut pairs = BTreeSet::new();
        pair_set(operator, &a, &b, &mut pairs);
        expect(pairs.len() == combined.pairs, || format!("{} pairs, not {}", combined.pairs, pairs.len()))?;
        for _ in 0..20 {
            let salt = random.next();
            let choice = |label: Label| Random::new(salt ^ label.0).once_in(2);
            let right = operator.apply(a.leaf_under(&choice), b.leaf_under(&choice));
            let leaf = combined.diagram.leaf_under(&choice);
            expect(u128::from(leaf) == right, || format!("leaf {leaf}, not {right}"))?;
        }
    }
    let (a, b) = (without_parameters(&a), without_parameters(&b));
    let objects = random.between(1, 3);
    let state = state(random, &signature, objects);
    let number = |d: &Diagram| by_valuations_with(d, &signature.arities, &state, &Valuation::new(), Slips::NONE);
    let result = |d: &Diagram| value_with(d, &signature.arities, &state, &Valuation::new(), slips).expect("few valuations");
    let is_right = |combined: &Diagram, a: &Diagram, b: &Diagram, operator: Operator| {
        let (result, right) = (result(combined), operator.apply(number(a), number(b)));
        expect(u128::from(result) == right, || format!("the number {result}, not {right}, of {operator:?}"))
    };
    if let Ok(combined) = tally.watch(combine_with(operator, Names::Apart, &a, &b, slips)) {
        expect(is_listing(&combined.diagram, &signature), || "the result apart is no listing".to_string())?;
        expect(combined.diagram == combined.diagram.closed_up(), || "the result is not closed up".to_string())?;
        is_right(&combined.diagram, &a, &b, operator)?;
    }
    // as a backup multiplies by a weight, whose parameters have objects by then
    let weight = diagram(random, &signature, &crate::models::terms(&signature, 0, 0), 2);
    match tally.watch(combine_with(Operator::Product, Names::Shared, &a, &weight, slips)) {
        Ok(combined) => is_right(&combined.diagram, &a, &weight, Operator::Product),
        Err(_) => Ok(()),
    }
}

/// The first parameter becomes a variable of its own.
fn without_parameters(diagram: &Diagram) -> Diagram {
    free(diagram, 1, Slips::NONE).expect("few variables")
}

/// The regressed diagram leads a valuation in the old state where the diagram leads it in the next one.
pub fn check_regression(seed: u64, slips: Slips, tally: &mut Tally) -> Result<(), String> {
    let random = &mut Random::new(seed);
    let size = *random.pick(&[Size::SMALL, Size::PLACES]);
    let (signature, plain) = model(random, size);
    let action = random.pick(&plain.actions);
    let variant = random.pick(&action.variants);
    let terms = terms_of_both_kinds(random, &signature, 0);
    let value = diagram(random, &signature, &terms, 3);
    let truths: Result<Truths, _> = variant.truths.iter().map(|(p, tree)| tree.read().map(|d| (*p, d))).collect();
    let Ok(regressed) = tally.watch(truths.and_then(|truths| regress(&value, &truths, slips))) else {
        return Ok(());
    };
    expect(is_listing(&regressed, &signature), || "the result is no listing".to_string())?;
    for _ in 0..10 {
        let objects = random.between(1, 3);
        let state = state(random, &signature, objects);
        let tuple: Vec<u64> = (0..action.parameters).map(|_| random.below(objects)).collect();
        let mut valuation: Valuation = (FIRST_PARAMETER..).zip(tuple.iter().copied()).collect();
        valuation.extend(terms.iter().map(|term| (*term, random.below(objects))));
        let next = next_state(&signature.arities, variant, &state, &tuple);
        let leaf = leaf_in(&regressed, &signature.arities, &state, &valuation);
        let right = leaf_in(&value, &signature.arities, &next, &valuation);
        expect(leaf == right, || format!("leaf {leaf}, not {right}, in {state:?} under {valuation:?}"))?;
    }
    Ok(())
}

/// Freed parameters are maximum variables, the others of that kind behind them, and the minimum variables are those that there were; the number is the highest over the bindings.
pub fn check_freeing(seed: u64, slips: Slips) -> Result<(), String> {
    let random = &mut Random::new(seed);
    let signature = Signature::random(random, Size::SMALL);
    let (parameters, more) = (random.below(3), random.below(3));
    let terms = terms_of_both_kinds(random, &signature, parameters);
    let whole = diagram(random, &signature, &terms, 4);
    let count = parameters + more;
    let freed = free(&whole, count, slips).map_err(|refusal| format!("refused with {}", refusal.number()))?;
    expect(is_listing(&freed, &signature), || "the result is no listing".to_string())?;
    let moved = |term: &Term| match *term {
        term if is_parameter(term) => FIRST_VARIABLE + (term - FIRST_PARAMETER),
        term if is_minimum(term) => term,
        term => term + count,
    };
    let right: BTreeSet<Term> = whole.parameters().iter().chain(&whole.variables()).map(moved).collect();
    expect(freed.variables() == right, || format!("the variables {:?}, not {right:?}", freed.variables()))?;
    let objects = random.between(1, 3);
    let state = state(random, &signature, objects);
    let number = |d: &Diagram, bound: &Valuation| by_valuations_with(d, &signature.arities, &state, bound, Slips::NONE);
    let best = bindings(objects, parameters).map(|objects| number(&whole, &bound(&objects))).max().expect("a binding");
    expect(number(&freed, &Valuation::new()) == best, || format!("not the number {best} in {state:?}, freed"))
}

/// Cuts, one after another, keep the value in every state of one and two objects; of two objects only in some where predicates have many places. A diagram with a minimum variable has none.
pub fn check_cut(seed: u64, slips: Slips, tally: &mut Tally) -> Result<(), String> {
    let random = &mut Random::new(seed);
    let many_places = random.once_in(4);
    let size = if many_places { Size::PLACES } else { Size::SMALL };
    let signature = Signature::random(random, Size { constants: 1, predicates: 2, ..size });
    let terms = if random.once_in(8) { terms_of_both_kinds(random, &signature, 0) } else { terms(&signature, 0, 3) };
    let mut cut_so_far = diagram(random, &signature, &terms, 4);
    if cut_so_far.variables().into_iter().any(is_minimum) {
        let answer = tally.watch(cut(&cut_so_far, &signature.arities, slips));
        return expect(answer == Err(Refusal::Minimum), || format!("{answer:?} for a cut of {cut_so_far:?}"));
    }
    let whole = cut_so_far.clone();
    for _ in 0..3 {
        match tally.watch(cut(&cut_so_far, &signature.arities, slips)) {
            Ok(answer) => {
                expect(answer.diagram != cut_so_far, || "the cut changed nothing".to_string())?;
                cut_so_far = answer.diagram;
            }
            Err(_) => break,
        }
    }
    expect(is_listing(&cut_so_far, &signature), || "the result is no listing".to_string())?;
    let of_two = if many_places { (0..60).map(|_| state(random, &signature, 2)).collect() } else { every_state(&signature, 2) };
    for state in every_state(&signature, 1).into_iter().chain(of_two) {
        let value = |d: &Diagram| value(d, &signature.arities, &state).expect("few valuations");
        expect(value(&cut_so_far) == value(&whole), || format!("value {}, not {}, in {state:?}", value(&cut_so_far), value(&whole)))?;
    }
    Ok(())
}

/// Every state of so many objects, constants placed in every way.
pub fn every_state(signature: &Signature, objects: u64) -> Vec<State> {
    let facts = ground_facts(signature, objects);
    let mut places: Vec<Vec<u64>> = vec![Vec::new()];
    for _ in 0..signature.constants {
        places = places.iter().flat_map(|place| (0..objects).map(|o| [&place[..], &[o]].concat())).collect();
    }
    let mut states = Vec::new();
    for choice in 0..1_u64 << facts.len() {
        let chosen: BTreeSet<_> = (0..facts.len()).filter(|i| choice >> i & 1 == 1).map(|i| facts[i].clone()).collect();
        states.extend(places.iter().map(|constants| State { objects, constants: constants.clone(), facts: chosen.clone() }));
    }
    states
}
