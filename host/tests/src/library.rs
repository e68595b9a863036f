//! The static library beside the reference: the same lent words to both, and the answer, the counts, the result words and those
//! behind them compared.

use crate::listings::damage;
use crate::old::old_listing;
use crate::random::Random;
use crate::shapes::{diagram, leaves, Atoms, Shape};
use reference::calls::{self as right, Lent, FACT_WORDS, RESULT_WORDS, SPACE_WORDS};
use reference::combine::{Names, Operator};
use reference::diagram::Diagram;
use reference::listing::{read_arities, read_listing, write_listing};
use reference::refusal::Refusal;
use reference::state::VALUATIONS;
use reference::terms::{
    is_minimum, Label, VariableKind, EQUALITY, FIRST_MINIMUM, FIRST_PARAMETER, FIRST_VARIABLE, LARGEST_ARITY, LAST_VARIABLE, PARAMETERS,
    PREDICATES, VARIABLES,
};
use std::collections::BTreeMap;
use yindolve::calls;

/// The calls and the refusals that each can answer, 0 for an accepted call.
const CALLS: [(&str, &[u64]); 12] = [
    ("check", &[0, 14]),
    ("sum apart", &[0, 8, 9, 10, 11, 14, 18]),
    ("sum shared", &[0, 9, 10, 11, 14, 18]),
    ("product apart", &[0, 8, 9, 10, 11, 14, 18]),
    ("product shared", &[0, 9, 10, 11, 14, 18]),
    ("max apart", &[0, 8, 9, 10, 14, 18]),
    ("max shared", &[0, 8, 9, 10, 14, 18]),
    ("regress", &[0, 6, 7, 9, 10, 14, 18]),
    ("free", &[0, 4, 6, 8, 14, 18]),
    ("cut", &[0, 14, 16, 17, 18, 25]),
    ("reduce", &[0, 6, 14, 17, 18, 26, 27, 28]),
    ("value", &[0, 4, 6, 14, 15]),
];

/// How often each call gave each answer.
#[derive(Default)]
pub struct Answers {
    met: BTreeMap<(&'static str, u64), u64>,
}

impl Answers {
    pub fn print(&self) {
        for (call, numbers) in CALLS {
            let times = |number: &u64| self.met.get(&(call, *number)).copied().unwrap_or(0);
            let counts: Vec<String> = numbers.iter().map(|number| format!("{number}: {}", times(number))).collect();
            println!("{call}, times each answer was met: {}", counts.join(", "));
        }
    }

    /// The answers that a call can give and never gave, and those that it gave and cannot give.
    pub fn wrong(&self) -> Vec<(&'static str, u64)> {
        let possible = CALLS.iter().flat_map(|(call, numbers)| numbers.iter().map(move |number| (*call, *number)));
        let missing = possible.clone().filter(|answer| !self.met.contains_key(answer));
        let others = self.met.keys().copied().filter(|answer| !possible.clone().any(|p| p == *answer));
        missing.chain(others).collect()
    }
}

/// What a call writes besides the result: the counts in the order of the C function, unused ones last.
type Counts = [u64; 3];

/// What a call has to write: the words of the result and its counts.
type Written = (Vec<u64>, Vec<u64>);

/// A count of lent words: enough and a few more, now and then too few.
fn lent_words(random: &mut Random, enough: usize) -> usize {
    match random.below(40) {
        0 => enough - 1,
        1 => random.below(enough as u64) as usize,
        _ => enough + random.below(4) as usize,
    }
}

fn random_words(random: &mut Random, count: usize) -> Vec<u64> {
    (0..count).map(|_| random.next()).collect()
}

/// Makes a call both ways, on memory of random words.
fn compare(
    random: &mut Random,
    answers: &mut Answers,
    call: &'static str,
    library: impl FnOnce(&mut [u64], &mut [u64], &mut Counts) -> Result<(), yindolve::Refusal>,
    reference: impl FnOnce(Lent) -> Result<Written, Refusal>,
) -> Result<(), String> {
    let lent = Lent { result: lent_words(random, RESULT_WORDS), space: lent_words(random, SPACE_WORDS) };
    let before = (random_words(random, lent.result), [random.next(), random.next(), random.next()]);
    let (mut result, mut counts) = before.clone();
    let number = match library(&mut result, &mut random_words(random, lent.space), &mut counts) {
        Ok(()) => 0,
        Err(refusal) => refusal.number(),
    };
    let (mut right_result, mut right_counts) = before;
    let right_number = match reference(lent) {
        Ok((words, written)) => {
            right_result[..words.len()].copy_from_slice(&words);
            right_counts[..written.len()].copy_from_slice(&written);
            0
        }
        Err(refusal) => refusal.number(),
    };
    if number != right_number {
        return Err(format!("{call} answers {number}, not {right_number}"));
    }
    if counts != right_counts {
        return Err(format!("{call} answers {number} and writes the counts {counts:?}, not {right_counts:?}"));
    }
    if let Some(at) = (0..lent.result).find(|at| result[*at] != right_result[*at]) {
        return Err(format!("{call} answers {number}; word {at} of the result is {}, not {}", result[at], right_result[at]));
    }
    *answers.met.entry((call, number)).or_default() += 1;
    Ok(())
}

fn rows(words: &[u64]) -> u64 {
    words.len() as u64 / 3
}

/// The words of a random listing, now and then damaged.
fn listing(random: &mut Random, atoms: &Atoms, shape: Shape, leaves: &[u64]) -> Vec<u64> {
    let labels = atoms.labels(random, shape.levels);
    let mut words = write_listing(&diagram(random, &labels, shape.width, leaves));
    while random.once_in(20) && !words.is_empty() {
        damage(random, &mut words);
    }
    words
}

/// The arity list as it is lent, now and then a wrong one.
fn lent_arities(random: &mut Random, atoms: &Atoms) -> Vec<u64> {
    let mut arities = atoms.arities.to_vec();
    if random.once_in(50) {
        match random.below(4) {
            0 => arities[0] = random.below(LARGEST_ARITY + 1),
            1 => arities[random.below(PREDICATES as u64) as usize] = *random.pick(&[LARGEST_ARITY + 1, LARGEST_ARITY + 2, u64::MAX]),
            2 => arities.truncate(random.below(PREDICATES as u64) as usize),
            _ => arities.push(0),
        }
    }
    arities
}

fn check_listing(random: &mut Random, answers: &mut Answers) -> Result<(), String> {
    let (parameters, variables) = (random.below(PARAMETERS + 1), random.between(1, VARIABLES));
    let atoms = &Atoms::random(random, parameters, variables);
    let (shape, leaves) = (Shape::any(random, 8), leaves(random));
    let mut words = listing(random, atoms, shape, &leaves);
    if random.once_in(2) && !words.is_empty() {
        damage(random, &mut words);
    }
    let arities = lent_arities(random, atoms);
    let read = || read_listing(&words, &read_arities(&arities)?);
    let library = |_: &mut [u64], _: &mut [u64], _: &mut Counts| calls::check(&arities, &words);
    compare(random, answers, "check", library, |_| read().map(|_| (vec![], vec![])))
}

type Combination = fn(&[u64], &[u64], &[u64], &mut [u64], &mut [u64], &mut u64, &mut u64) -> Result<(), yindolve::Refusal>;

const COMBINATIONS: [(&str, Combination, Operator, Names); 6] = [
    ("sum apart", calls::sum_apart, Operator::Sum, Names::Apart),
    ("sum shared", calls::sum_shared, Operator::Sum, Names::Shared),
    ("product apart", calls::product_apart, Operator::Product, Names::Apart),
    ("product shared", calls::product_shared, Operator::Product, Names::Shared),
    ("max apart", calls::max_apart, Operator::Max, Names::Apart),
    ("max shared", calls::max_shared, Operator::Max, Names::Shared),
];

fn check_combination(random: &mut Random, answers: &mut Answers) -> Result<(), String> {
    let (call, library, operator, names) = *random.pick(&COMBINATIONS);
    let (parameters, variables) = (random.below(3), *random.pick(&[3, 16, 48]));
    let mut atoms = Atoms::random(random, parameters, variables);
    if random.once_in(4) {
        // all variables of a kind, or of both
        let kinds = &VariableKind::ALL[random.below(2) as usize..];
        atoms.terms = kinds.iter().flat_map(|kind| kind.first()..=kind.last()).collect();
    } else if random.once_in(4) {
        atoms.terms.extend(FIRST_VARIABLE..=LAST_VARIABLE);
    }
    let arities = lent_arities(random, &atoms);
    let rarely = *random.pick(&[1, 8, 8]);
    let mut operand = || {
        let (shape, leaves) = (Shape::any(random, rarely), leaves(random));
        listing(random, &atoms, shape, &leaves)
    };
    let (first, second) = (operand(), operand());
    compare(
        random,
        answers,
        call,
        |result, work, [rows, pairs, _]| library(&arities, &first, &second, result, work, rows, pairs),
        |lent| {
            let (words, pairs) = right::combine(operator, names, &first, &second, &arities, lent)?;
            let counts = vec![rows(&words), pairs as u64];
            Ok((words, counts))
        },
    )
}

/// The words of truth diagrams and where they stand, now and then in the wrong place. One in `rarely` is large.
fn truths(random: &mut Random, atoms: &Atoms, rarely: u64) -> (Vec<u64>, Vec<u64>) {
    let (mut words, mut spans) = (Vec::new(), vec![0; 2 * PREDICATES]);
    for predicate in atoms.predicates.iter().map(|p| *p as usize) {
        if random.once_in(2) {
            let arguments = atoms.arities[predicate] + u64::from(random.once_in(20));
            let minimum = random.once_in(20).then_some(FIRST_MINIMUM);
            let terms = [0, 1, FIRST_PARAMETER].into_iter().chain(FIRST_VARIABLE..FIRST_VARIABLE + arguments).chain(minimum);
            let (atoms, shape) = (atoms.about(terms.collect()), Shape::any(random, rarely));
            let leaves: &[u64] = if random.once_in(20) { &[0, 1, 2] } else { &[0, 1] };
            let truth = listing(random, &atoms, shape, leaves);
            (spans[2 * predicate], spans[2 * predicate + 1]) = (words.len() as u64, truth.len() as u64);
            words.extend(truth);
        }
    }
    if random.once_in(20) {
        let at = random.below(spans.len() as u64) as usize;
        let far = *random.pick(&[0, 3, words.len() as u64, u64::MAX]);
        spans[at] = far.wrapping_sub(random.below(4));
    }
    if random.once_in(20) {
        spans.resize(random.below(70) as usize, 9);
    }
    (words, spans)
}

/// The truth diagrams as the spans say, cut off where the lent words end.
fn by_predicate<'a>(words: &'a [u64], spans: &[u64]) -> [Option<&'a [u64]>; PREDICATES] {
    let word = |at: usize| spans.get(at).copied().unwrap_or(0);
    let end = |number: u64| number.min(words.len() as u64) as usize;
    std::array::from_fn(|predicate| {
        let (first, count) = (word(2 * predicate), word(2 * predicate + 1));
        (count > 0).then(|| &words[end(first)..end(first.saturating_add(count))])
    })
}

/// A value that tests one atom above a wide diagram, and a wide truth diagram for its predicate: the step of the root has about
/// 4,096 pairs.
fn many_pairs(random: &mut Random, atoms: &mut Atoms) -> (Vec<u64>, (Vec<u64>, Vec<u64>)) {
    let tested = (1..PREDICATES as u64 - 2).find(|p| atoms.arities[*p as usize] > 0).unwrap_or(1);
    atoms.predicates = vec![PREDICATES as u64 - 1];
    atoms.arities[PREDICATES - 1] = 2;
    let mut wide = |atoms: &Atoms, above: &[Label], leaves: &[u64]| {
        let (levels, width) = (random.between(9, 13), random.between(20, 36));
        let labels = [above, &atoms.labels(random, levels)].concat();
        write_listing(&diagram(random, &labels, width, leaves))
    };
    let root = Label::pack(tested, &vec![atoms.terms[0]; atoms.arities[tested as usize] as usize]);
    let value = wide(&atoms.about((0..8).collect()), &[root], &(0..64).collect::<Vec<u64>>());
    let arguments = FIRST_VARIABLE..FIRST_VARIABLE + atoms.arities[tested as usize];
    let truth = wide(&atoms.about((0..8).chain(arguments).collect()), &[], &[0, 1]);
    let mut spans = vec![0; 2 * PREDICATES];
    spans[2 * tested as usize + 1] = truth.len() as u64;
    (value, (truth, spans))
}

fn check_regression(random: &mut Random, answers: &mut Answers) -> Result<(), String> {
    let (parameters, variables) = (random.below(3), random.between(1, 12));
    let mut atoms = Atoms::random(random, parameters, variables);
    let (value, (truths, spans)) = if random.once_in(10) {
        many_pairs(random, &mut atoms)
    } else {
        let (shape, leaves) = (Shape::any(random, 20), leaves(random));
        (listing(random, &atoms, shape, &leaves), truths(random, &atoms, 20))
    };
    let arities = lent_arities(random, &atoms);
    compare(
        random,
        answers,
        "regress",
        |result, work, [rows, ..]| calls::regress(&arities, &value, &truths, &spans, result, work, rows),
        |lent| {
            let words = right::regress(&value, &by_predicate(&truths, &spans), &arities, lent)?;
            let counts = vec![rows(&words)];
            Ok((words, counts))
        },
    )
}

fn check_freeing(random: &mut Random, answers: &mut Answers) -> Result<(), String> {
    let (parameters, variables) = (random.below(PARAMETERS + 1), random.between(1, VARIABLES));
    let atoms = &Atoms::random(random, parameters, variables);
    let arities = lent_arities(random, atoms);
    let (shape, leaves) = (Shape::any(random, 8), leaves(random));
    let words = listing(random, atoms, shape, &leaves);
    let count = if random.once_in(10) { *random.pick(&[PARAMETERS + 1, 1 << 32, u64::MAX]) } else { random.below(PARAMETERS + 2) };
    compare(
        random,
        answers,
        "free",
        |result, work, [rows, ..]| calls::free(&arities, &words, count, result, work, rows),
        |lent| {
            let words = right::free(&words, count, &arities, lent)?;
            let counts = vec![rows(&words)];
            Ok((words, counts))
        },
    )
}

fn check_cut(random: &mut Random, answers: &mut Answers) -> Result<(), String> {
    let most = if random.once_in(4) { VARIABLES } else { 6 };
    let (parameters, variables) = (random.below(2), random.between(1, most));
    let atoms = &Atoms::random(random, parameters, variables);
    let arities = lent_arities(random, atoms);
    let shape = match random.below(6) {
        0 => Shape::any(random, 8),
        1 => Shape { levels: random.between(5, 9), width: random.between(2, 8) },
        _ => Shape { levels: random.between(1, 5), width: random.between(1, 6) },
    };
    let leaves = leaves(random);
    let words = listing(random, atoms, shape, &leaves);
    compare(
        random,
        answers,
        "cut",
        |result, work, [row, edge, rows]| calls::cut(&arities, &words, result, work, row, edge, rows),
        |lent| {
            let (words, (row, edge)) = right::cut(&words, &arities, lent)?;
            let counts = vec![row as u64, u64::from(edge), rows(&words)];
            Ok((words, counts))
        },
    )
}

/// Atoms for a reduction: as a rule without equality, constants, minimum variables and parameters, and of up to three variables.
fn plain_atoms(random: &mut Random) -> Atoms {
    let parameters = u64::from(random.once_in(12));
    let variables = *random.pick(&[1, 2, 2, 2, 3, 3, 4, 6]);
    let mut atoms = Atoms::random(random, parameters, variables);
    if !random.once_in(12) {
        atoms.predicates.retain(|predicate| *predicate != EQUALITY);
        atoms.terms.retain(|term| *term >= FIRST_PARAMETER && !is_minimum(*term));
    }
    if random.once_in(2) {
        let most = random.below(3);
        atoms.arities[1..].iter_mut().for_each(|arity| *arity = (*arity).min(most));
    }
    atoms
}

/// The library's own values of two listings in a state of up to three objects.
fn values_agree(random: &mut Random, atoms: &Atoms, before: &[u64], after: &[u64]) -> Result<(), String> {
    let objects = random.between(1, 3);
    let facts: Vec<u64> = (0..random.below(30))
        .flat_map(|_| {
            [*random.pick(&atoms.predicates)].into_iter().chain((0..LARGEST_ARITY).map(|_| random.below(objects))).collect::<Vec<u64>>()
        })
        .collect();
    let value = |words: &[u64]| {
        let mut value = 0;
        calls::value(&atoms.arities, words, objects, &[], &facts, &mut value).map(|()| value)
    };
    match (value(before), value(after)) {
        (Ok(before), Ok(after)) if before != after => {
            Err(format!("the value {before} is {after} after the reduction, with facts {facts:?}"))
        }
        _ => Ok(()),
    }
}

fn check_reduction(random: &mut Random, answers: &mut Answers) -> Result<(), String> {
    let atoms = &plain_atoms(random);
    let arities = lent_arities(random, atoms);
    let shape = match random.below(8) {
        0 => Shape::any(random, 8),
        1 => Shape { levels: random.between(5, 9), width: random.between(2, 8) },
        _ => Shape { levels: random.between(1, 5), width: random.between(1, 6) },
    };
    let leaves = leaves(random);
    let words = listing(random, atoms, shape, &leaves);
    compare(
        random,
        answers,
        "reduce",
        |result, work, [rows, ..]| calls::reduce(&arities, &words, result, work, rows),
        |lent| {
            let words = right::reduce(&words, &arities, lent)?;
            let counts = vec![rows(&words)];
            Ok((words, counts))
        },
    )?;
    let (result, work, rows) = (&mut vec![0; RESULT_WORDS][..], &mut vec![0; SPACE_WORDS][..], &mut 0);
    match calls::reduce(&atoms.arities, &words, result, work, rows) {
        Ok(()) => (0..4).try_for_each(|_| values_agree(random, atoms, &words, &result[..3 * *rows as usize])),
        Err(_) => Ok(()),
    }
}

/// A number of objects: few valuations, which the reference goes through, or so many that tables take their place, some of them with too many entries.
fn objects(random: &mut Random, variables: u32) -> u64 {
    let objects = match random.below(3) {
        0 => *random.pick(&[VALUATIONS + 1, u64::MAX, 100, 1_000, 1_001, 8_192]),
        1 => *random.pick(&[11, 16, 20, 32, 60, 64, 200, 500, 1_365, 2_046, 2_047, 2_048, 4_000]),
        _ => *random.pick(&[0, 1, 2, 2, 3, 3, 4, 5, 7, 10]),
    };
    match objects.checked_pow(variables) {
        Some(5_000..=VALUATIONS) if !random.once_in(100) => 2,
        _ => objects,
    }
}

/// Atoms of which half the time each has at most two places, so that tables may do.
fn narrow_atoms(random: &mut Random, parameters: u64, variables: u64) -> Atoms {
    let mut atoms = Atoms::random(random, parameters, variables);
    if random.once_in(2) {
        let most = random.between(1, 2);
        atoms.arities[1..].iter_mut().for_each(|arity| *arity = (*arity).min(most));
    }
    atoms
}

fn check_value(random: &mut Random, answers: &mut Answers) -> Result<(), String> {
    let most = if random.once_in(2) { VARIABLES } else { 8 };
    let (parameters, variables) = (u64::from(random.once_in(10)), random.between(1, most));
    let atoms = &narrow_atoms(random, parameters, variables);
    let arities = lent_arities(random, atoms);
    let (shape, leaves) = (Shape::any(random, 8), leaves(random));
    let words = listing(random, atoms, shape, &leaves);
    let used = read_listing(&words, &atoms.arities).map_or(0, |read| read.variables().len() as u32);
    let objects = objects(random, used);
    let object = |random: &mut Random| if random.once_in(400) { objects } else { random.below(objects.max(1)) };
    let constants: Vec<u64> = (0..random.below(20)).map(|_| object(random)).collect();
    let mut facts = Vec::new();
    for _ in 0..random.below(60) {
        facts.push(if random.once_in(20) { random.below(40) } else { *random.pick(&atoms.predicates) });
        let arity = atoms.arities.get(facts[facts.len() - 1] as usize).copied().unwrap_or(0);
        let unused = random.next();
        facts.extend((0..LARGEST_ARITY).map(|place| if place < arity { object(random) } else { unused }));
    }
    facts.truncate(facts.len().saturating_sub(random.below(2 * FACT_WORDS as u64) as usize));
    compare(
        random,
        answers,
        "value",
        |_, _, [value, ..]| calls::value(&arities, &words, objects, &constants, &facts, value),
        |_| right::value(&words, &arities, objects, &constants, &facts).map(|value| (vec![], vec![value])),
    )
}

/// A listing of the old kind meets 14 in every call that takes one, as each operand.
fn check_old_listing(random: &mut Random) -> Result<(), String> {
    let atoms = Atoms::random(random, PARAMETERS, VARIABLES);
    let (shape, leaves) = (Shape::small(random), leaves(random));
    let labels = atoms.labels(random, shape.levels);
    let Some(old) = old_listing(&diagram(random, &labels, shape.width, &leaves)) else {
        return Ok(());
    };
    let (arities, leaf) = (&atoms.arities[..], &write_listing(&Diagram::leaf(0))[..]);
    let (result, work) = (&mut vec![0; RESULT_WORDS][..], &mut vec![0; SPACE_WORDS][..]);
    let (first, second, third) = (&mut 0, &mut 0, &mut 0);
    let mut met = vec![("check", calls::check(arities, &old))];
    let spans: Vec<u64> =
        (0..PREDICATES as u64).flat_map(|predicate| if predicate == 1 { [0, old.len() as u64] } else { [0, 0] }).collect();
    for (call, combination, ..) in COMBINATIONS {
        met.push((call, combination(arities, &old, leaf, result, work, first, second)));
        met.push((call, combination(arities, leaf, &old, result, work, first, second)));
    }
    met.push(("regress", calls::regress(arities, &old, &[], &[], result, work, first)));
    met.push(("regress, a truth diagram", calls::regress(arities, leaf, &old, &spans, result, work, first)));
    met.push(("free", calls::free(arities, &old, 0, result, work, first)));
    met.push(("cut", calls::cut(arities, &old, result, work, first, second, third)));
    met.push(("reduce", calls::reduce(arities, &old, result, work, first)));
    met.push(("value", calls::value(arities, &old, 1, &[], &[], first)));
    match met.iter().find(|(_, answer)| *answer != Err(yindolve::Refusal::Listing)) {
        Some((call, answer)) => Err(format!("{call} answers {answer:?} to {old:?}, of the old kind")),
        None => Ok(()),
    }
}

/// One call of each kind.
pub fn check(seed: u64, answers: &mut Answers) -> Result<(), String> {
    let random = &mut Random::new(seed);
    check_old_listing(random)?;
    check_listing(random, answers)?;
    check_combination(random, answers)?;
    check_regression(random, answers)?;
    check_freeing(random, answers)?;
    check_cut(random, answers)?;
    check_reduction(random, answers)?;
    check_value(random, answers)
}
