//! The weight rule (document 02, L5) against brute force over states.

use crate::follows::{possible, some_other_sum, Literal};
use crate::models::{terms, weights, Signature, Size};
use crate::random::Random;
use crate::tally::Tally;
use reference::cut::{paths, Path};
use reference::diagram::Diagram;
use reference::refusal::Refusal;
use reference::terms::Arities;
use reference::tree::Tree;
use reference::weights::{check as rule, contradicts, sum};

/// Actions of one seed.
const ACTIONS: u64 = 10;

/// The weights of random actions; how many pass without being the one leaf W.
pub fn check(seed: u64, tally: &mut Tally) -> Result<u64, String> {
    let random = &mut Random::new(seed);
    (0..ACTIONS).map(|_| check_action(random, tally).map(u64::from)).sum()
}

/// The weights of one random action. A path contradicts itself exactly if no state follows it, and the rule passes exactly the weights that add up to the
/// total in every state. The answer tells whether these pass without being the one leaf W.
fn check_action(random: &mut Random, tally: &mut Tally) -> Result<bool, String> {
    let size = Size::EQUALITIES;
    let signature = Signature::random(random, size);
    let parameters = random.between(0, size.parameters);
    let (count, total) = (random.between(1, size.variants), random.between(1, size.total));
    let terms = terms(&signature, parameters, 0);
    let trees = weights(random, &signature, &terms, size, (count, total), &[]);
    let diagrams: Result<Vec<Diagram>, Refusal> = trees.iter().map(Tree::read).collect();
    let Ok(sum) = tally.watch(diagrams.and_then(|diagrams| sum(&diagrams))) else {
        return Ok(false);
    };
    let told = |what: &str| Err(format!("{what}: weights {trees:?}, total {total}"));
    let answer = tally.watch(rule(&sum, total, &signature.arities));
    let Ok(paths) = paths(&sum) else {
        return if answer == Err(Refusal::Paths) { Ok(false) } else { told("over 256 paths and not 17") };
    };
    if let Some(path) =
        paths.iter().find(|path| contradicts(&path.literals, &signature.arities) == possible(&literals(path, &signature.arities)))
    {
        return told(&format!("{:?} contradicts itself and a state follows it, or neither", path.literals));
    }
    match (answer, some_other_sum(&trees, &terms, total)) {
        (Ok(()), false) => Ok(sum != Diagram::leaf(total)),
        (Err(Refusal::Weights), true) => Ok(false),
        (answer, true) => told(&format!("{answer:?}, and in some state they add up to another number")),
        (answer, false) => told(&format!("{answer:?}, and in every state they add up")),
    }
}

fn literals(path: &Path, arities: &Arities) -> Vec<Literal> {
    let literal = |(label, truth): &(reference::terms::Label, bool)| {
        let predicate = label.predicate();
        Literal { predicate, terms: label.places()[..arities[predicate as usize] as usize].to_vec(), truth: *truth }
    };
    path.literals.iter().map(literal).collect()
}
