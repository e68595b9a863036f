//! Random models and states, and their texts.

use crate::follows::{self, Literal};
use crate::random::Random;
use reference::bellman::{PlainAction, PlainModel, PlainVariant};
use reference::declarations::DEFAULT_DISCOUNT;
use reference::diagram::LARGEST;
use reference::state::State;
use reference::terms::{
    is_constant, Arities, Term, VariableKind, EQUALITY, FIRST_MINIMUM, FIRST_PARAMETER, FIRST_VARIABLE, LARGEST_ARITY, PREDICATES,
    VARIABLES,
};
use reference::tree::Tree;
use std::collections::{BTreeMap, BTreeSet};

/// How large the parts of a random model may be.
#[derive(Clone, Copy)]
pub struct Size {
    pub constants: u64,
    /// Whether diagrams have equalities.
    pub equality: bool,
    pub predicates: u64,
    pub arity: u64,
    /// Of a reward.
    pub variables: u64,
    /// Minimum variables of a reward.
    pub minimum: u64,
    pub depth: u64,
    /// Conditions inside one another in a weight.
    pub weight_depth: u64,
    /// One case of weights in so many is wrong; none where this is 0.
    pub wrong: u64,
    pub actions: u64,
    pub parameters: u64,
    pub variants: u64,
    pub objects: u64,
    pub leaf: u64,
    pub total: u64,
    pub divisor: u64,
}

impl Size {
    /// Small enough for brute force over states.
    pub const SMALL: Size = Size {
        constants: 2,
        equality: true,
        predicates: 3,
        arity: 2,
        variables: 2,
        minimum: 0,
        depth: 3,
        weight_depth: 3,
        wrong: 0,
        actions: 2,
        parameters: 2,
        variants: 2,
        objects: 3,
        leaf: 5,
        total: 4,
        divisor: 3,
    };

    /// Predicates of up to all places, over two objects.
    pub const PLACES: Size = Size { predicates: 2, arity: LARGEST_ARITY, objects: 2, ..Size::SMALL };

    /// No constant and no equality, and few variables after a backup: diagrams that may be reduced.
    pub const PLAIN: Size = Size { constants: 0, equality: false, depth: 2, actions: 1, parameters: 1, ..Size::SMALL };

    /// Rewards with minimum variables. These are never cut, so that there are few of each kind: values two backups later are still gone through.
    pub const MINIMUM: Size = Size { minimum: 2, parameters: 1, objects: 2, ..Size::SMALL };

    /// Still fewer, and three objects.
    pub const FEW_MINIMUM: Size = Size { variables: 1, minimum: 1, depth: 2, variants: 1, objects: 3, ..Size::MINIMUM };

    /// Rewards of up to all variables.
    pub const VARIABLES: Size = Size { variables: VARIABLES, depth: 5, ..Size::PLACES };

    /// Backups soon meet the limits.
    pub const LARGE: Size = Size {
        constants: 3,
        equality: true,
        predicates: 6,
        arity: LARGEST_ARITY,
        variables: 5,
        minimum: 0,
        depth: 5,
        weight_depth: 3,
        wrong: 0,
        actions: 3,
        parameters: 4,
        variants: 4,
        objects: 7,
        leaf: 1_000,
        total: 100,
        divisor: 100,
    };

    /// Few conditions with many variables, many variants and large numbers.
    pub const WIDE: Size = Size {
        arity: 3,
        variables: 12,
        depth: 2,
        variants: 8,
        leaf: 1_000_000_000_000_000_000,
        total: 1_000_000,
        divisor: 1_000_000,
        ..Size::SMALL
    };

    /// Weights with many equalities, some of them wrong.
    pub const EQUALITIES: Size = Size { constants: 3, predicates: 2, depth: 1, weight_depth: 5, wrong: 40, parameters: 4, ..Size::SMALL };
}

/// The predicates, numbered from 1, and the number of constants.
pub struct Signature {
    pub constants: u64,
    pub equality: bool,
    pub predicates: u64,
    pub arities: Arities,
}

impl Signature {
    pub fn random(random: &mut Random, size: Size) -> Signature {
        let mut arities = [0; PREDICATES];
        arities[EQUALITY as usize] = 2;
        let predicates = random.between(1, size.predicates);
        for arity in &mut arities[1..=predicates as usize] {
            *arity = random.between(0, size.arity);
        }
        Signature { constants: random.between(0, size.constants), equality: size.equality, predicates, arities }
    }

    /// An atom over these terms; one without terms where there are none, if a predicate allows it.
    fn atom(&self, random: &mut Random, terms: &[Term]) -> Option<(u64, Vec<Term>)> {
        let predicate = random.between(u64::from(!self.equality), self.predicates);
        let arity = self.arities[predicate as usize];
        if arity > 0 && terms.is_empty() {
            return None;
        }
        Some((predicate, (0..arity).map(|_| *random.pick(terms)).collect()))
    }

    /// An atom for a weight: an equality half the time.
    fn weight_atom(&self, random: &mut Random, terms: &[Term]) -> Option<(u64, Vec<Term>)> {
        if self.equality && terms.len() > 1 && random.once_in(2) {
            return Some((EQUALITY, vec![*random.pick(terms), *random.pick(terms)]));
        }
        self.atom(random, terms)
    }

    pub fn tree(&self, random: &mut Random, terms: &[Term], depth: u64, leaves: &[u64]) -> Tree {
        if depth > 0 && !random.once_in(5) {
            if let Some((predicate, terms_of_atom)) = self.atom(random, terms) {
                let yes = Box::new(self.tree(random, terms, depth - 1, leaves));
                let no = Box::new(self.tree(random, terms, depth - 1, leaves));
                return Tree::If { predicate, terms: terms_of_atom, yes, no };
            }
        }
        Tree::Number(*random.pick(leaves))
    }

    fn constants(&self) -> Vec<Term> {
        (0..self.constants).collect()
    }
}

/// Constants, so many parameters and so many variables.
pub fn terms(signature: &Signature, parameters: u64, variables: u64) -> Vec<Term> {
    let parameters = FIRST_PARAMETER..FIRST_PARAMETER + parameters;
    let variables = FIRST_VARIABLE..FIRST_VARIABLE + variables;
    signature.constants().into_iter().chain(parameters).chain(variables).collect()
}

/// So many minimum variables.
pub fn minimum_terms(count: u64) -> std::ops::Range<Term> {
    FIRST_MINIMUM..FIRST_MINIMUM + count
}

/// Weights, one for each variant, below a path of literals: they add up to the total where a state follows that path, but for wrong cases.
pub fn weights(random: &mut Random, signature: &Signature, terms: &[Term], size: Size, parts: (u64, u64), path: &[Literal]) -> Vec<Tree> {
    let depth = size.weight_depth;
    if !random.once_in(depth + 1) {
        if let Some((predicate, terms_of_atom)) = signature.weight_atom(random, terms) {
            let size = Size { weight_depth: depth - 1, ..size };
            let mut side = |truth: bool| {
                let literal = Literal { predicate, terms: terms_of_atom.clone(), truth };
                weights(random, signature, terms, size, parts, &[path, &[literal]].concat())
            };
            let (yes, no) = (side(true), side(false));
            let join = |(yes, no)| Tree::If { predicate, terms: terms_of_atom.clone(), yes: Box::new(yes), no: Box::new(no) };
            return yes.into_iter().zip(no).map(join).collect();
        }
    }
    let (count, total) = parts;
    let wrong = size.wrong > 0 && random.once_in(size.wrong);
    let mut left = match wrong || !follows::possible(path) {
        false => total,
        true if random.once_in(20) => LARGEST,
        true => *random.pick(&[0, total, total + 1, 3 * total]),
    };
    let mut numbers = Vec::new();
    for i in 0..count {
        let number = if i + 1 == count { left } else { random.between(0, left) };
        left -= number;
        numbers.push(Tree::Number(number));
    }
    numbers
}

pub fn model(random: &mut Random, size: Size) -> (Signature, PlainModel) {
    let signature = Signature::random(random, size);
    // Large numbers only now and then, since their refusals hide others.
    let size = if random.once_in(3) { size } else { Size { leaf: 5, total: 4, divisor: 3, ..size } };
    let total = random.between(1, size.total);
    let divisor = random.between(1, size.divisor);
    let gain = random.between(0, divisor);
    let (variables, minimum) = (random.between(0, size.variables), random.between(0, size.minimum));
    let leaves = [0, 0, 1, random.between(0, size.leaf), random.between(0, size.leaf)];
    let terms_of_reward: Vec<Term> = terms(&signature, 0, variables).into_iter().chain(minimum_terms(minimum)).collect();
    let reward = signature.tree(random, &terms_of_reward, size.depth, &leaves);
    let actions = (0..random.between(1, size.actions)).map(|_| action(random, &signature, size, total)).collect();
    let discount = if random.once_in(4) { DEFAULT_DISCOUNT } else { (gain, divisor) };
    let model = PlainModel { arities: signature.arities, total, discount, reward, actions };
    (signature, model)
}

fn action(random: &mut Random, signature: &Signature, size: Size, total: u64) -> PlainAction {
    let parameters = random.between(0, size.parameters);
    let count = random.between(1, size.variants);
    let weights = weights(random, signature, &terms(signature, parameters, 0), size, (count, total), &[]);
    let variants = weights.into_iter().map(|weight| variant(random, signature, size, parameters, weight)).collect();
    PlainAction { parameters, variants }
}

fn variant(random: &mut Random, signature: &Signature, size: Size, parameters: u64, weight: Tree) -> PlainVariant {
    let mut truths = BTreeMap::new();
    for predicate in 1..=signature.predicates {
        if random.once_in(2) {
            let arity = signature.arities[predicate as usize];
            truths.insert(predicate, truth(random, signature, predicate, &terms(signature, parameters, arity), size.depth));
        }
    }
    PlainVariant { weight, truths }
}

/// A truth diagram; often one that keeps what was true, or that asks for its arguments the other way round.
fn truth(random: &mut Random, signature: &Signature, predicate: u64, terms: &[Term], depth: u64) -> Tree {
    let arguments = (0..signature.arities[predicate as usize]).map(|i| FIRST_VARIABLE + i);
    let kept = |terms: Vec<Term>| Tree::If { predicate, terms, yes: Box::new(Tree::Number(1)), no: Box::new(Tree::Number(0)) };
    match random.below(4) {
        0 => kept(arguments.rev().collect()),
        1 => match signature.tree(random, terms, 1, &[0, 1]) {
            Tree::If { predicate: tested, terms, yes, .. } => {
                Tree::If { predicate: tested, terms, yes, no: Box::new(kept(arguments.collect())) }
            }
            number => number,
        },
        _ => signature.tree(random, terms, depth, &[0, 1]),
    }
}

pub fn state(random: &mut Random, signature: &Signature, objects: u64) -> State {
    let constants = (0..signature.constants).map(|_| random.below(objects)).collect();
    let often = random.between(1, 4);
    let mut facts = BTreeSet::new();
    for fact in ground_facts(signature, objects) {
        if random.once_in(often) {
            facts.insert(fact);
        }
    }
    State { objects, constants, facts }
}

/// A state of some few facts, where all of them would be too many to go through.
pub fn sparse_state(random: &mut Random, signature: &Signature, objects: u64) -> State {
    let constants = (0..signature.constants).map(|_| random.below(objects)).collect();
    let mut facts = BTreeSet::new();
    for _ in 0..random.below(40) {
        let predicate = random.between(1, signature.predicates);
        let places = signature.arities[predicate as usize];
        facts.insert((predicate, (0..places).map(|_| random.below(objects)).collect()));
    }
    State { objects, constants, facts }
}

/// Every fact over so many objects.
pub fn ground_facts(signature: &Signature, objects: u64) -> Vec<(u64, Vec<u64>)> {
    let mut facts = Vec::new();
    for predicate in 1..=signature.predicates {
        let mut tuples: Vec<Vec<u64>> = vec![Vec::new()];
        for _ in 0..signature.arities[predicate as usize] {
            tuples = tuples.iter().flat_map(|tuple| (0..objects).map(|o| [&tuple[..], &[o]].concat())).collect();
        }
        facts.extend(tuples.into_iter().map(|tuple| (predicate, tuple)));
    }
    facts
}

/// The text of a term, as constant c0, parameter !a0, variable ?x0 or minimum variable %x0.
fn write_term(term: Term) -> String {
    match VariableKind::of(term) {
        _ if is_constant(term) => format!("c{term}"),
        Some(kind) => format!("{}x{}", kind.sign(), term - kind.first()),
        None => format!("!a{}", term - FIRST_PARAMETER),
    }
}

pub fn write_tree(tree: &Tree) -> String {
    match tree {
        Tree::Number(value) => value.to_string(),
        Tree::If { predicate, terms, yes, no } => {
            let name = if *predicate == EQUALITY { "=".to_string() } else { format!("p{predicate}") };
            let terms: String = terms.iter().map(|t| format!(" {}", write_term(*t))).collect();
            format!("(if ({name}{terms}) {} {})", write_tree(yes), write_tree(no))
        }
    }
}

/// The model part of a text, (start) included; the default discount is left out.
pub fn write_model(signature: &Signature, model: &PlainModel) -> Vec<String> {
    let mut lines: Vec<String> = (0..signature.constants).map(|c| format!("(constant c{c})")).collect();
    lines.extend((1..=signature.predicates).map(|p| format!("(predicate p{p} {})", signature.arities[p as usize])));
    lines.push(format!("(total {})", model.total));
    if model.discount != DEFAULT_DISCOUNT {
        lines.push(format!("(discount {} {})", model.discount.0, model.discount.1));
    }
    lines.push(format!("(reward {})", write_tree(&model.reward)));
    for (i, action) in model.actions.iter().enumerate() {
        let parameters: String = (0..action.parameters).map(|p| format!(" !a{p}")).collect();
        lines.push(format!("(action act{i}{parameters})"));
        for (j, variant) in action.variants.iter().enumerate() {
            lines.push(format!("(variant way{j} {})", write_tree(&variant.weight)));
            for (predicate, truth) in &variant.truths {
                let arguments: String = (0..signature.arities[*predicate as usize]).map(|a| format!(" ?x{a}")).collect();
                lines.push(format!("(becomes (p{predicate}{arguments}) {})", write_tree(truth)));
            }
        }
    }
    lines.push("(start)".to_string());
    lines
}

pub fn write_state(state: &State) -> Vec<String> {
    let mut lines = vec![format!("(objects {})", state.objects)];
    lines.extend(state.constants.iter().enumerate().map(|(c, object)| format!("(is c{c} {object})")));
    lines.extend(state.facts.iter().map(write_fact));
    lines
}

pub fn write_fact((predicate, objects): &(u64, Vec<u64>)) -> String {
    let objects: String = objects.iter().map(|o| format!(" {o}")).collect();
    format!("(true p{predicate}{objects})")
}
