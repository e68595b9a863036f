//! Lent listings, whole, damaged and of the old kind, and the refusals of library calls.

use crate::meaning::diagram;
use crate::models::{minimum_terms, terms, Signature, Size};
use crate::old::{old_listing, OLD_LEAF_MARK};
use crate::random::Random;
use crate::tally::Tally;
use reference::calls::{combine, cut, free, reduce, regress, value, Lent, RESULT_WORDS, SPACE_WORDS};
use reference::combine::{Names, Operator};
use reference::diagram::LARGEST;
use reference::listing::{read_listing, write_listing};
use reference::refusal::Refusal;
use reference::terms::{
    Arities, Term, VariableKind, FIRST_MINIMUM, FIRST_VARIABLE, LAST_MINIMUM, LAST_VARIABLE, LEAF_MARK, PARAMETERS, PREDICATES,
    PREDICATE_BIT,
};

/// Words that come near to a number, a label or a leaf's mark.
const WORDS: [u64; 12] = [
    0,
    1,
    FIRST_VARIABLE - 1,
    LAST_VARIABLE,
    FIRST_MINIMUM,
    LAST_MINIMUM + 1,
    OLD_LEAF_MARK,
    1 << PREDICATE_BIT,
    (PREDICATES as u64) << PREDICATE_BIT,
    LARGEST + 1,
    LEAF_MARK - 1,
    LEAF_MARK,
];

/// One small damage to the words of a listing.
pub fn damage(random: &mut Random, words: &mut Vec<u64>) {
    let at = random.below(words.len() as u64) as usize;
    match random.below(6) {
        0 => words[at] = words[at].wrapping_add(1),
        1 => words[at] = words[at].wrapping_sub(1),
        2 => words[at] = *random.pick(&WORDS),
        3 => {
            words.pop();
        }
        4 => {
            let row = at / 3 * 3;
            let copy = words[row..(row + 3).min(words.len())].to_vec();
            words.extend(copy);
        }
        _ => {
            let other = random.below(words.len() as u64) as usize;
            words.swap(at, other);
        }
    }
}

/// What every call that takes a listing answers, with these words as one of its operands.
fn every_call(random: &mut Random, words: &[u64], arities: &Arities) -> Vec<Result<(), Refusal>> {
    let lent = Lent { result: RESULT_WORDS - usize::from(random.once_in(10)), space: SPACE_WORDS };
    let leaf = [LEAF_MARK, 1, 0];
    let names = *random.pick(&[Names::Apart, Names::Shared]);
    let mut truths: [Option<&[u64]>; PREDICATES] = [None; PREDICATES];
    truths[1] = Some(words);
    let count = random.between(0, PARAMETERS + 1);
    let objects = random.between(0, 3);
    vec![
        combine(Operator::Sum, names, words, &leaf, arities, lent).map(|_| ()),
        combine(Operator::Product, names, &leaf, words, arities, lent).map(|_| ()),
        regress(words, &[None; PREDICATES], arities, lent).map(|_| ()),
        regress(&leaf, &truths, arities, lent).map(|_| ()),
        free(words, count, arities, lent).map(|_| ()),
        cut(words, arities, lent).map(|_| ()),
        reduce(words, arities, lent).map(|_| ()),
        value(words, arities, objects, &[random.below(3)], &[]).map(|_| ()),
    ]
}

/// A listing that is taken is the very listing of its diagram, so no two damaged ones stand for one diagram; every call agrees on 14, which it gives to every
/// listing of the old kind.
pub fn check(seed: u64, tally: &mut Tally) -> Result<(), String> {
    let random = &mut Random::new(seed);
    let size = *random.pick(&[Size::SMALL, Size::PLACES]);
    let signature = Signature::random(random, size);
    let terms: Vec<Term> = terms(&signature, PARAMETERS, 4).into_iter().chain(minimum_terms(random.below(4))).collect();
    let lent = diagram(random, &signature, &terms, 4);
    if let Some(old) = old_listing(&lent) {
        if every_call(random, &old, &signature.arities).iter().any(|answer| *answer != Err(Refusal::Listing)) {
            return Err(format!("{old:?}, of the old kind, is taken"));
        }
    }
    let firsts = VariableKind::ALL.map(|kind| random.between(kind.first(), kind.last() + 1 - lent.variables_of(kind).len() as u64));
    let mut words = write_listing(&lent.numbered_from(|kind| firsts[kind as usize]));
    for _ in 0..random.below(3) {
        if !words.is_empty() {
            damage(random, &mut words);
        }
    }
    let arities = &signature.arities;
    let read = read_listing(&words, arities);
    if let Ok(diagram) = &read {
        if write_listing(diagram) != words {
            return Err(format!("{words:?} is taken for another listing"));
        }
    }
    for answer in every_call(random, &words, arities) {
        if (answer == Err(Refusal::Listing)) != read.is_err() {
            return Err(format!("{answer:?} for {words:?}"));
        }
        let _ = tally.watch(answer);
    }
    Ok(())
}
