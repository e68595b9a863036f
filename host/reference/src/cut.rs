//! Document 01, "Cut".

use crate::diagram::{Diagram, Row, Space};
use crate::refusal::{require, Refusal};
use crate::slips::Slips;
use crate::terms::{is_variable, Arities, Label, Term, EQUALITY};
use std::collections::{BTreeMap, BTreeSet};

pub const PATHS: usize = 256;

/// A row and its true or false side.
pub type Edge = (usize, bool);

#[derive(Clone, Debug, PartialEq, Eq)]
pub struct Path {
    pub edges: Vec<Edge>,
    pub literals: Vec<(Label, bool)>,
    pub leaf: u64,
}

#[derive(Clone, Debug, PartialEq, Eq)]
pub struct Cut {
    pub edge: Edge,
    pub diagram: Diagram,
}

/// All paths, those to leaf 0 included, true side first; or 17.
pub fn paths(diagram: &Diagram) -> Result<Vec<Path>, Refusal> {
    let mut found = Vec::new();
    let mut open = vec![(diagram.root(), Path { edges: Vec::new(), literals: Vec::new(), leaf: 0 })];
    while let Some((at, path)) = open.pop() {
        match diagram.rows()[at] {
            Row::Leaf(leaf) => {
                require(found.len() < PATHS, Refusal::Paths)?;
                found.push(Path { leaf, ..path });
            }
            Row::Branch { label, yes, no } => {
                for (side, child) in [(false, no), (true, yes)] {
                    let mut longer = path.clone();
                    longer.edges.push((at, side));
                    longer.literals.push((label, side));
                    open.push((child, longer));
                }
            }
        }
    }
    Ok(found)
}

pub fn terms_of<'a>(path: &'a Path, arities: &'a Arities) -> impl Iterator<Item = Term> + 'a {
    path.literals.iter().flat_map(|(label, _)| label.places().into_iter().take(arities[label.predicate() as usize] as usize))
}

type Replacement = BTreeMap<Term, Term>;

/// The replacement made longer so that these terms become those, if it can be.
fn extended(replacement: &Replacement, these: &[Term], those: &[Term]) -> Option<Replacement> {
    let mut longer = replacement.clone();
    for (this, that) in these.iter().zip(those) {
        let becomes = if is_variable(*this) { *longer.entry(*this).or_insert(*that) } else { *this };
        if becomes != *that {
            return None;
        }
    }
    Some(longer)
}

struct Matcher<'a> {
    first: &'a Path,
    terms: &'a BTreeSet<Term>,
}

impl Matcher<'_> {
    /// Tries each literal in turn, one with the fewest matches first, and goes back when one has no match.
    fn matches(&self, literals: &[(Label, bool)], replacement: &Replacement) -> bool {
        let ways = literals.iter().map(|(label, side)| self.ways(*label, *side, replacement)).enumerate();
        let Some((at, ways)) = ways.min_by_key(|(_, ways)| ways.len()) else {
            return true;
        };
        let rest = [&literals[..at], &literals[at + 1..]].concat();
        ways.iter().any(|longer| self.matches(&rest, longer))
    }

    /// Every longer replacement under which the literal is one of the first path or is t = t true.
    fn ways(&self, label: Label, side: bool, replacement: &Replacement) -> BTreeSet<Replacement> {
        let mut ways = BTreeSet::new();
        let places = label.places();
        for (target, sign) in &self.first.literals {
            if *sign != side || target.predicate() != label.predicate() {
                continue;
            }
            let goal = target.places();
            ways.extend(extended(replacement, &places, &goal));
            if label.predicate() == EQUALITY {
                ways.extend(extended(replacement, &places[..2], &[goal[1], goal[0]]));
            }
        }
        if label.predicate() == EQUALITY && side {
            ways.extend(self.terms.iter().filter_map(|term| extended(replacement, &places[..2], &[*term, *term])));
        }
        ways
    }
}

/// Whether the second path has a leaf at least as high and a replacement that carries its literals into the first.
fn covers(first: &Path, second: &Path, arities: &Arities) -> bool {
    if second.leaf < first.leaf {
        return false;
    }
    let terms: BTreeSet<Term> = terms_of(first, arities).chain(terms_of(second, arities)).collect();
    Matcher { first, terms: &terms }.matches(&second.literals, &Replacement::new())
}

fn may_go(diagram: &Diagram, arities: &Arities, edge: Edge, paths: &[Path], slips: Slips) -> bool {
    let Row::Branch { yes, no, .. } = diagram.rows()[edge.0] else {
        return false;
    };
    let child = if edge.1 { yes } else { no };
    if diagram.rows()[child] == Row::Leaf(0) {
        return false;
    }
    let through = |path: &Path| path.edges.contains(&edge);
    let may_cover = |first: &Path, second: &Path| {
        if slips.cover_through_edge {
            first.edges != second.edges
        } else {
            !through(second)
        }
    };
    paths
        .iter()
        .filter(|first| through(first) && first.leaf > 0)
        .all(|first| paths.iter().any(|second| may_cover(first, second) && covers(first, second, arities)))
}

/// The diagram with these edges led to leaf 0, reduced and closed up.
pub fn without(diagram: &Diagram, goes: impl Fn(Edge) -> bool) -> Diagram {
    let mut space = Space::new();
    let zero = space.form(Row::Leaf(0)).expect("the first row");
    let mut places: Vec<usize> = Vec::new();
    for (number, row) in diagram.rows().iter().enumerate() {
        let row = match *row {
            Row::Branch { label, yes, no } => Row::Branch {
                label,
                yes: if goes((number, true)) { zero } else { places[yes] },
                no: if goes((number, false)) { zero } else { places[no] },
            },
            leaf => leaf,
        };
        places.push(space.form(row).expect("as many rows as before, and leaf 0"));
    }
    space.diagram(places[diagram.root()]).closed_up()
}

/// The highest row number, true edge first, whose edge may go; 25 for a minimum variable (document 02, L12), 17, then 16.
pub fn cut(diagram: &Diagram, arities: &Arities, slips: Slips) -> Result<Cut, Refusal> {
    require(!diagram.has_minimum(), Refusal::Minimum)?;
    let paths = paths(diagram)?;
    for number in (0..diagram.rows().len()).rev() {
        for side in [true, false] {
            let edge = (number, side);
            if may_go(diagram, arities, edge, &paths, slips) {
                return Ok(Cut { edge, diagram: without(diagram, |other| other == edge) });
            }
        }
    }
    Err(Refusal::Nothing)
}
