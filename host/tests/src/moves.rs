//! Which move to make (document 02, L9): the first action, then the lowest objects, whose sum inside the Bellman step is highest, by brute force over next states, ties included; and
//! what a backup then states is the reward and that sum.

use crate::meaning::expect;
use crate::models::{model, state, write_model, write_state, Signature, Size};
use crate::random::Random;
use crate::tally::Tally;
use reference::bellman::{Bellman, PlainAction, PlainModel, PlainVariant};
use reference::declarations::DEFAULT_DISCOUNT;
use reference::refusal::Refusal;
use reference::session::{Answer, Session};
use reference::slips::Slips;
use reference::state::State;
use reference::terms::{Term, EQUALITY, FIRST_PARAMETER, PREDICATES};
use reference::tree::Tree;
use std::collections::BTreeMap;

/// Looked ahead so far at most: brute force goes one step further.
const STEPS: u64 = 2;

const OPERATIONS: [&str; 5] = ["(backup)", "(backup)", "(cut)", "(cut)", "(reduce)"];

const SIZES: [Size; 6] =
    [Size { actions: 3, ..Size::SMALL }, Size::SMALL, Size { actions: 2, ..Size::PLAIN }, Size::PLACES, Size::MINIMUM, Size::FEW_MINIMUM];

/// Actions that pay where a relation holds of their parameters, in some order: several moves are equally good, and which is first depends on the order of the objects.
fn related(random: &mut Random) -> (Signature, PlainModel) {
    let (arity, total) = (random.between(2, 3), random.between(1, 3));
    let mut arities = [0; PREDICATES];
    (arities[EQUALITY as usize], arities[2]) = (2, arity);
    let when = |predicate: u64, terms: Vec<Term>, yes: u64, no: u64| {
        let (yes, no) = (Box::new(Tree::Number(yes)), Box::new(Tree::Number(no)));
        Tree::If { predicate, terms, yes, no }
    };
    let mut actions = Vec::new();
    for _ in 0..random.between(1, 2) {
        let mut terms: Vec<Term> = (FIRST_PARAMETER..FIRST_PARAMETER + arity).collect();
        terms.rotate_left(random.below(arity) as usize);
        let paying = random.between(1, total);
        let truths = BTreeMap::from([(1, when(2, terms, 1, 0))]);
        let variant = |weight: u64, truths| PlainVariant { weight: Tree::Number(weight), truths };
        actions.push(PlainAction { parameters: arity, variants: vec![variant(paying, truths), variant(total - paying, BTreeMap::new())] });
    }
    let reward = when(1, Vec::new(), random.between(1, 9), 0);
    let signature = Signature { constants: 0, equality: false, predicates: 2, arities };
    (signature, PlainModel { arities, total, discount: DEFAULT_DISCOUNT, reward, actions })
}

/// The first of the moves whose sum is highest.
pub struct Highest {
    /// As it is printed.
    pub line: String,
    pub sum: u128,
    /// Whether another move has the sum too.
    tie: bool,
    /// Whether another would be the first with the last parameter changing slowest.
    by_order: bool,
}

pub fn first_highest(bellman: &mut Bellman, k: u64, state: &State) -> Highest {
    let moves = bellman.moves(k, state);
    let sum = moves.iter().map(|(_, sum)| *sum).max().expect("a move");
    let highest: Vec<(usize, Vec<u64>)> = moves.into_iter().filter(|(_, other)| *other == sum).map(|(found, _)| found).collect();
    let (action, objects) = highest[0].clone();
    let turned = |(_, objects): &&(usize, Vec<u64>)| objects.iter().rev().copied().collect::<Vec<u64>>();
    let by_order = highest.iter().filter(|(other, _)| *other == action).min_by_key(turned) != Some(&highest[0]);
    Highest { line: Answer::Best { action: format!("act{action}"), objects }.print(), sum, tie: highest.len() > 1, by_order }
}

fn scale(plain: &PlainModel, k: u64) -> u128 {
    (u128::from(plain.total) * u128::from(plain.discount.1)).pow(k as u32)
}

/// The move answered in this state, and the value that the next backup states.
fn check_state(session: &mut Session, plain: &PlainModel, bellman: &mut Bellman, state: &State, tally: &mut Tally) -> Result<(), String> {
    for line in write_state(state) {
        session.take(line.as_bytes()).map_err(|refusal| format!("{line} is refused with {}", refusal.number()))?;
    }
    let k = session.started().expect("started").k;
    let answer = tally.watch(session.take(b"(best)"));
    let mut next = session.clone();
    let backup = next.take(b"(backup)");
    let printed = match answer.as_deref() {
        Ok([answer]) => answer.print(),
        Ok(other) => return Err(format!("{other:?} for (best)")),
        Err(Refusal::Valuations) => return Ok(()),
        Err(refusal) => {
            let of_calls = matches!(refusal, Refusal::Variables | Refusal::Space | Refusal::Pairs | Refusal::Value);
            return expect(of_calls && backup.is_err(), || format!("{refusal:?} for (best), and {backup:?} for (backup)"));
        }
    };
    let Highest { line: right, sum, tie, by_order } = first_highest(bellman, k, state);
    expect(printed == right, || format!("{printed:?}, not {right:?}, in {state:?}"))?;
    if by_order {
        tally.see("a move by the first parameter slowest");
    }
    tally.see(match (sum, tie) {
        (0, _) => "a move where all sums are 0",
        (_, true) => "a move with a tie",
        _ => "a move without a tie",
    });
    match (backup, next.take(b"(value)").as_deref()) {
        (Ok(_), Ok([Answer::Value { value, .. }])) => {
            let stated = scale(plain, k + 1) * bellman.value(0, state) + sum;
            tally.see("a backup behind a move");
            expect(u128::from(*value) == stated, || format!("the backup states {value}, and reward and move {stated}, in {state:?}"))
        }
        _ => Ok(()),
    }
}

/// One random model and some states, before and after backups, cuts and reductions.
pub fn check(seed: u64, slips: Slips, tally: &mut Tally) -> Result<(), String> {
    let random = &mut Random::new(seed);
    let size = *random.pick(&SIZES);
    let (signature, plain) = if random.once_in(4) { related(random) } else { model(random, size) };
    let mut session = Session::new(slips);
    for line in write_model(&signature, &plain) {
        session.take(line.as_bytes()).map_err(|refusal| format!("{line} is refused with {}", refusal.number()))?;
    }
    let mut bellman = Bellman::new(&plain);
    let mut states = Vec::new();
    for _ in 0..3 {
        let objects = random.between(1, size.objects);
        states.push(state(random, &signature, objects));
    }
    for _ in 0..4 {
        if session.started().is_some_and(|run| run.k > STEPS) {
            break;
        }
        for state in &states {
            check_state(&mut session, &plain, &mut bellman, state, tally)?;
        }
        let _ = tally.watch(session.take(random.pick(&OPERATIONS).as_bytes()));
    }
    Ok(())
}
