//! Document 02, L5: the weights of an action add up on every path that does not contradict itself by equality.

use crate::combine::{combine, Names, Operator};
use crate::cut::{paths, Path};
use crate::diagram::Diagram;
use crate::refusal::{require, Refusal};
use crate::terms::{Arities, Label, Term, EQUALITY};
use std::collections::BTreeMap;

/// The weights of one action summed, begun at leaf 0, each added in order; 10, 11, 9.
pub fn sum<'a>(weights: impl IntoIterator<Item = &'a Diagram>) -> Result<Diagram, Refusal> {
    weights
        .into_iter()
        .try_fold(Diagram::leaf(0), |sum, weight| combine(Operator::Sum, Names::Shared, &sum, weight).map(|combined| combined.diagram))
}

/// The weight rule on one action's summed weights: 17 for over 256 paths, then 13.
pub fn check(sum: &Diagram, total: u64, arities: &Arities) -> Result<(), Refusal> {
    require(wrong_paths(sum, total, arities)?.is_empty(), Refusal::Weights)
}

/// The paths to a leaf other than the total that do not contradict themselves, true side first; or 17.
pub fn wrong_paths(sum: &Diagram, total: u64, arities: &Arities) -> Result<Vec<Path>, Refusal> {
    let wrong = |path: &Path| path.leaf != total && !contradicts(&path.literals, arities);
    Ok(paths(sum)?.into_iter().filter(wrong).collect())
}

/// Terms joined by true equalities, through any number of them: the class of each term that one of them names.
struct Joined {
    classes: BTreeMap<Term, usize>,
}

impl Joined {
    fn by(literals: &[(Label, bool)]) -> Joined {
        let mut classes: BTreeMap<Term, usize> = BTreeMap::new();
        let true_equalities = literals.iter().filter(|(label, truth)| *truth && label.predicate() == EQUALITY);
        for (number, (label, _)) in true_equalities.enumerate() {
            let [a, b, ..] = label.places();
            // every class that one of the two terms was in becomes the class of this equality
            let old = [classes.insert(a, number), classes.insert(b, number)];
            classes.values_mut().filter(|class| old.contains(&Some(**class))).for_each(|class| *class = number);
        }
        Joined { classes }
    }

    fn join(&self, a: Term, b: Term) -> bool {
        a == b || self.classes.get(&a).is_some_and(|class| self.classes.get(&b) == Some(class))
    }
}

/// "A path does so exactly if its true equalities join two terms that one of its false equalities names, or two of its literals on one predicate
/// agree place by place under them and differ in truth."
pub fn contradicts(literals: &[(Label, bool)], arities: &Arities) -> bool {
    let joined = Joined::by(literals);
    let places = |label: Label| label.places().into_iter().take(arities[label.predicate() as usize] as usize);
    let false_equality = |(label, truth): &(Label, bool)| {
        let [a, b, ..] = label.places();
        label.predicate() == EQUALITY && !truth && joined.join(a, b)
    };
    let differ = |(one, truth): &(Label, bool)| {
        literals.iter().any(|(other, other_truth)| {
            one.predicate() == other.predicate() && truth != other_truth && places(*one).zip(places(*other)).all(|(a, b)| joined.join(a, b))
        })
    };
    literals.iter().any(false_equality) || literals.iter().any(differ)
}
