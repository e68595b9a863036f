//! Document 02, L13, "Reduction by model checking": R12 of source document 000.

use crate::cut::{paths, without, Edge, Path};
use crate::diagram::Diagram;
use crate::refusal::{require, Refusal};
use crate::slips::Slips;
use crate::state::Valuation;
use crate::terms::{is_constant, is_minimum, Arities, Label, Term, EQUALITY};
use std::collections::{BTreeMap, BTreeSet};

/// Valuations times paths.
pub const RUNS: u128 = 512;
/// Combinations formed.
pub const COMBINATIONS: usize = 100_000;

/// "Run all valuations over as many invented objects as there are variables": lowest objects first, the lowest variable changing slowest.
pub fn valuations(variables: &BTreeSet<Term>, slips: Slips) -> Vec<Valuation> {
    let invented = variables.len() as u64;
    let objects = 0..if slips.one_object_fewer { invented.max(2) - 1 } else { invented };
    let mut found = vec![Valuation::new()];
    for variable in variables {
        let with = |valuation: &Valuation, object| valuation.iter().map(|(v, o)| (*v, *o)).chain([(*variable, object)]).collect();
        found = found.iter().flat_map(|valuation| objects.clone().map(move |object| with(valuation, object))).collect();
    }
    found
}

/// How many runs there are, valuations times paths: v^v valuations of v variables, one where there is none.
pub fn runs(variables: usize, paths: usize) -> u128 {
    let valuations = (variables as u128).checked_pow(variables as u32).unwrap_or(u128::MAX);
    valuations.saturating_mul(paths as u128)
}

/// Whether a label is no equality and names neither a constant nor a minimum variable: the others are not reduced.
pub fn is_plain(label: Label, arities: &Arities) -> bool {
    let terms = &label.places()[..arities[label.predicate() as usize] as usize];
    let is_other = |term: &Term| is_constant(*term) || is_minimum(*term);
    label.predicate() != EQUALITY && !terms.iter().any(is_other)
}

/// "A descending path order": the highest leaf first; "the order among equal leaves is true edge first from the root".
pub fn descending(mut paths: Vec<Path>) -> Vec<Path> {
    // they come true edge first, and equal ones stay in their order
    paths.sort_by_key(|path| std::cmp::Reverse(path.leaf));
    paths
}

/// An atom over invented objects, packed as a label with these in the places of terms.
type Fact = Label;

/// A path for each valuation so far: the facts that they settle, and the least place in the path order of any of them.
#[derive(Clone)]
struct Combination {
    facts: BTreeMap<Fact, bool>,
    winner: usize,
}

impl Combination {
    /// With one path more, if that is consistent: no fact is both true and false.
    fn with(&self, place: usize, facts: &[(Fact, bool)]) -> Option<Combination> {
        if facts.iter().any(|(fact, truth)| self.facts.get(fact) == Some(&!truth)) {
            return None;
        }
        let mut longer = self.clone();
        longer.facts.extend(facts.iter().cloned());
        longer.winner = self.winner.min(place);
        // a path may contradict itself where two variables have one object
        facts.iter().all(|(fact, truth)| longer.facts[fact] == *truth).then_some(longer)
    }
}

/// What the literals of a path say under a valuation.
fn facts_of(path: &Path, valuation: &Valuation, arities: &Arities) -> Vec<(Fact, bool)> {
    let fact = |label: &Label| {
        let terms = &label.places()[..arities[label.predicate() as usize] as usize];
        Label::pack(label.predicate(), &terms.iter().map(|term| valuation[term]).collect::<Vec<u64>>())
    };
    path.literals.iter().map(|(label, truth)| (fact(label), *truth)).collect()
}

/// Every consistent combination, by its winning path's place, and how many were formed: after each valuation, one for every consistent choice of paths for those so far. Above
/// the limit, 28.
pub fn combinations(
    paths: &[Path],
    valuations: &[Valuation],
    arities: &Arities,
    limit: usize,
) -> Result<(BTreeSet<usize>, usize), Refusal> {
    let mut combinations = vec![Combination { facts: BTreeMap::new(), winner: usize::MAX }];
    let mut formed = 0;
    for valuation in valuations {
        let runs: Vec<Vec<(Fact, bool)>> = paths.iter().map(|path| facts_of(path, valuation, arities)).collect();
        let mut longer = Vec::new();
        for combination in &combinations {
            longer.extend(runs.iter().enumerate().filter_map(|(place, facts)| combination.with(place, facts)));
            require(formed + longer.len() <= limit, Refusal::Combinations)?;
        }
        formed += longer.len();
        combinations = longer;
    }
    Ok((combinations.iter().map(|combination| combination.winner).collect(), formed))
}

/// Every edge on no winning path goes to leaf 0, then the diagram is reduced and closed up; 17, 26, 27, 28.
pub fn reduce(diagram: &Diagram, arities: &Arities, slips: Slips) -> Result<Diagram, Refusal> {
    let paths = descending(paths(diagram)?);
    require(diagram.labels().all(|label| is_plain(label, arities)), Refusal::Kinds)?;
    let variables = diagram.variables();
    require(runs(variables.len(), paths.len()) <= RUNS, Refusal::Runs)?;
    let (winners, _) = combinations(&paths, &valuations(&variables, slips), arities, COMBINATIONS)?;
    let kept: BTreeSet<Edge> = winners.iter().flat_map(|place| paths[*place].edges.iter().copied()).collect();
    Ok(without(diagram, |edge| !kept.contains(&edge)))
}
