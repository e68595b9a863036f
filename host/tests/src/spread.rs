//! How many states have which value (document 02, L11): by brute force over every choice of the ground facts, with exactly 16 of them and 17 as well, and with states among them that
//! meet 15.

use crate::meaning::expect;
use crate::models::{ground_facts, model, state, write_model, Signature, Size};
use crate::random::Random;
use crate::tables;
use crate::tally::Tally;
use reference::bellman::{Bellman, PlainAction, PlainModel, PlainVariant};
use reference::declarations::DEFAULT_DISCOUNT;
use reference::refusal::Refusal;
use reference::session::{Answer, Session};
use reference::slips::Slips;
use reference::state::{valuations, State, Valuation, VALUATIONS};
use reference::tables::ENTRIES;
use reference::terms::{EQUALITY, FIRST_VARIABLE, PREDICATES};
use reference::tree::Tree;
use std::collections::BTreeMap;

/// The most ground facts.
const FACTS: u64 = 16;
/// The most states times valuations that brute force goes through.
const WORK: u64 = 100_000;
/// Behind a backup brute force takes states of fewer.
const FEW_FACTS: u64 = 9;

/// The states of so many objects with these constants, one for each choice of facts.
pub fn states<'a>(signature: &Signature, objects: u64, constants: &'a [u64]) -> impl Iterator<Item = State> + 'a {
    let facts = ground_facts(signature, objects);
    (0..1_u64 << facts.len()).map(move |choice| {
        let chosen = facts.iter().enumerate().filter(|(place, _)| choice >> place & 1 == 1).map(|(_, fact)| fact.clone()).collect();
        State { objects, constants: constants.to_vec(), facts: chosen }
    })
}

/// The lines of all states, worked out by the Bellman equation.
pub fn lines(bellman: &mut Bellman, k: u64, states: impl Iterator<Item = State>) -> String {
    let mut counts: BTreeMap<u128, u64> = BTreeMap::new();
    for state in states {
        *counts.entry(bellman.value(k, &state)).or_default() += 1;
    }
    counts.iter().map(|(value, states)| format!("(count {value} {states})\n")).collect()
}

fn printed(answers: &[Answer]) -> String {
    answers.iter().map(Answer::print).collect()
}

/// What a session whose constants are placed at these objects should answer to (count n); none where brute force would take too long.
fn right(
    session: &Session,
    bellman: &mut Bellman,
    signature: &Signature,
    n: u64,
    constants: Option<&[u64]>,
) -> Option<Result<String, Refusal>> {
    let run = session.started().expect("started");
    let Some(constants) = constants else {
        return Some(Err(Refusal::Place));
    };
    if !(1..=64).contains(&n) || constants.iter().any(|object| *object >= n) {
        return Some(Err(Refusal::Range));
    }
    let facts: u64 = signature.arities[1..=signature.predicates as usize].iter().map(|arity| n.pow(*arity as u32)).sum();
    if facts > FACTS {
        return Some(Err(Refusal::Ground));
    }
    let first = State { objects: n, constants: constants.to_vec(), facts: Default::default() };
    if valuations(&run.value, &first).saturating_mul(1 << facts) > WORK || (run.k > 0 && facts > FEW_FACTS) {
        return None;
    }
    Some(Ok(lines(bellman, run.k, states(signature, n, constants))))
}

/// One random model, before a state, with one and behind backups, cuts and reductions.
pub fn check(seed: u64, slips: Slips, tally: &mut Tally) -> Result<(), String> {
    let random = &mut Random::new(seed);
    let sizes = [Size::SMALL, Size { predicates: 2, ..Size::SMALL }, Size::PLAIN, Size::PLACES, Size::MINIMUM, Size::FEW_MINIMUM];
    let size = *random.pick(&sizes);
    let (signature, plain) = model(random, size);
    let mut session = Session::new(slips);
    for line in write_model(&signature, &plain) {
        session.take(line.as_bytes()).map_err(|refusal| format!("{line} is refused with {}", refusal.number()))?;
    }
    let mut bellman = Bellman::new(&plain);
    let mut placed = if signature.constants == 0 { Some(Vec::new()) } else { None };
    for round in 0..4 {
        let n = *random.pick(&[0, 1, 1, 2, 2, 2, 3, 3, 4, 64, 65]);
        if let Some(right) = right(&session, &mut bellman, &signature, n, placed.as_deref()) {
            let answer = tally.watch(session.take(format!("(count {n})").as_bytes()));
            let answer = answer.as_deref().map(printed).map_err(|refusal| *refusal);
            expect(answer == right, || format!("{answer:?}, not {right:?}, for (count {n})"))?;
            if right.is_ok() {
                tally.see(if session.started().is_some_and(|run| run.k > 0) { "states counted behind a backup" } else { "states counted" });
            }
        }
        if round == 0 {
            let objects = random.between(1, 3);
            let State { constants, .. } = state(random, &signature, objects);
            session.take(format!("(objects {objects})").as_bytes()).expect("objects");
            for (c, object) in constants.iter().enumerate() {
                session.take(format!("(is c{c} {object})").as_bytes()).expect("placed");
            }
            placed = Some(constants);
        } else {
            let _ = session.take(random.pick(&["(backup)", "(backup)", "(cut)", "(reduce)"]).as_bytes());
        }
    }
    Ok(())
}

/// Arities and objects with exactly 16 ground facts.
const SIXTEEN: [(&[u64], u64); 7] = [(&[0; 16], 1), (&[0; 16], 3), (&[1], 16), (&[2], 4), (&[1, 1], 8), (&[4], 2), (&[2, 1, 0, 1], 3)];

/// A model of one certain outcome with these arities and this reward.
fn plain_model(arities: &[u64], reward: Tree) -> (Signature, PlainModel) {
    let mut all = [0; PREDICATES];
    all[EQUALITY as usize] = 2;
    all[1..=arities.len()].copy_from_slice(arities);
    let signature = Signature { constants: 0, equality: true, predicates: arities.len() as u64, arities: all };
    let variant = PlainVariant { weight: Tree::Number(1), truths: BTreeMap::new() };
    let actions = vec![PlainAction { parameters: 0, variants: vec![variant] }];
    (signature, PlainModel { arities: all, total: 1, discount: DEFAULT_DISCOUNT, reward, actions })
}

/// A session with this model; the reward's variables are written ?v0, ?v1, .., so that they keep their numbers.
fn session_of(signature: &Signature, plain: &PlainModel) -> Session {
    let mut session = Session::new(Slips::NONE);
    for line in write_model(signature, plain) {
        session.take(line.replace("?x", "?v").replace("%x", "%v").as_bytes()).expect("a line of the model");
    }
    session
}

/// Exactly 16 ground facts by brute force, and 17, which are refused before any state is formed.
fn sixteen_and_seventeen(random: &mut Random) -> Result<(), String> {
    for _ in 0..3 {
        let (arities, objects) = *random.pick(&SIXTEEN);
        let (signature, _) = plain_model(arities, Tree::Number(0));
        let reward = signature.tree(random, &[FIRST_VARIABLE], 5, &[0, 1, 7, 1_000_000_000_000_000_000]);
        let (signature, plain) = plain_model(arities, reward);
        let answer = session_of(&signature, &plain).take(format!("(count {objects})").as_bytes());
        let right = lines(&mut Bellman::new(&plain), 0, states(&signature, objects, &[]));
        expect(answer.as_deref().map(printed) == Ok(right.clone()), || {
            format!("{answer:?}, not {right:?}, for {objects} objects and {arities:?}")
        })?;
        let (signature, plain) = plain_model(&[arities, &[0]].concat(), plain.reward);
        let answer = session_of(&signature, &plain).take(format!("(count {objects})").as_bytes());
        expect(answer == Err(Refusal::Ground), || format!("{answer:?} with 17 ground facts"))?;
    }
    Ok(())
}

fn test(terms: &[u64], yes: Tree, no: Tree) -> Tree {
    let predicate = if terms.len() == 2 { EQUALITY } else { 1 };
    Tree::If { predicate, terms: terms.iter().map(|v| FIRST_VARIABLE + v).collect(), yes: Box::new(yes), no: Box::new(no) }
}

/// Over so many objects some states of a `growing` reward meet 15.
pub const GROWING_OBJECTS: u64 = 5;

/// A test of p that four variables stay named below, since equalities above test them: each fact more brings as many entries as these four have choices. So many tests of variables of their own
/// stand below.
pub fn growing(below: u64) -> Tree {
    let end = (5..5 + below).rev().fold(Tree::Number(9), |inner, v| test(&[v], inner, Tree::Number(0)));
    let chain = (1..5).rev().fold(end, |inner, v| test(&[v], inner, Tree::Number(v)));
    let equal = |inner: Tree, (a, b): (u64, u64)| test(&[a, b], inner, Tree::Number(0));
    [(3, 4), (1, 2)].into_iter().fold(test(&[0], chain, Tree::Number(6)), equal)
}

/// States among others that meet 15: the whole form is refused exactly if one does, by the count of entries alone.
fn refused_states() -> Result<(), String> {
    let (mut passed, mut middle) = (0, 0);
    for below in [0, 3, 4, 5, 30, 55] {
        let (signature, plain) = plain_model(&[1], growing(below));
        let mut session = session_of(&signature, &plain);
        let run = session.started().expect("started");
        let too_many = |state: &State| {
            let entries = tables::entries(&run.value, &run.arities, state, &Valuation::new());
            valuations(&run.value, state) > VALUATIONS && entries > u128::from(ENTRIES)
        };
        let refused: Vec<bool> = states(&signature, GROWING_OBJECTS, &[]).map(|state| too_many(&state)).collect();
        let right = if refused.contains(&true) { Err(Refusal::Valuations) } else { Ok(1 << GROWING_OBJECTS) };
        match (refused[0], right) {
            (_, Ok(_)) => passed += 1,
            (first, Err(_)) => middle += u64::from(!first),
        }
        let answer = session.take(format!("(count {GROWING_OBJECTS})").as_bytes());
        let states = |answer: &Answer| if let Answer::Count { states, .. } = answer { *states } else { 0 };
        let counted = answer.as_ref().map(|answers| answers.iter().map(states).sum()).map_err(|refusal| *refusal);
        expect(counted == right, || format!("{counted:?}, not {right:?}, where the states that meet 15 are {refused:?}"))?;
    }
    expect(passed > 0 && middle > 0, || format!("{passed} passed, {middle} met 15 in the middle"))
}

/// The cases at the limits.
pub fn check_limits(seed: u64) -> Result<(), String> {
    sixteen_and_seventeen(&mut Random::new(seed))?;
    refused_states()
}
