//! Values after backups, cuts and reductions, by the reference and by a program, against the Bellman equation worked out from state to state; a program's moves, spreads and logs too.

use crate::models::{ground_facts, model, state, write_model, write_state, Signature, Size};
use crate::moves::first_highest;
use crate::program::printed;
use crate::random::Random;
use crate::replay::{Logged, Week};
use crate::spread;
use crate::tally::Tally;
use reference::bellman::{Bellman, PlainModel};
use reference::refusal::Refusal;
use reference::session::{Answer, Session};
use reference::slips::Slips;
use reference::state::State;
use std::path::Path;

/// Backups, cuts and reductions, in any order.
const OPERATIONS: [&str; 5] = ["(backup)", "(backup)", "(cut)", "(cut)", "(reduce)"];

/// One model in eight has predicates of up to six places, two may be reduced as far as equality and constants are concerned, and three have rewards with minimum variables.
const SIZES: [Size; 8] =
    [Size::SMALL, Size::SMALL, Size::PLAIN, Size::PLAIN, Size::PLACES, Size::MINIMUM, Size::FEW_MINIMUM, Size::FEW_MINIMUM];

/// One random model with a random list of backups, cuts and reductions. A wrong value is described.
pub fn check(seed: u64, slips: Slips, tally: &mut Tally) -> Result<(), String> {
    let random = &mut Random::new(seed);
    let size = *random.pick(&SIZES);
    let (signature, plain) = model(random, size);
    let mut session = Session::new(slips);
    for line in write_model(&signature, &plain) {
        session.take(line.as_bytes()).map_err(|refusal| format!("{line} is refused with {}", refusal.number()))?;
    }
    let mut bellman = Bellman::new(&plain);
    let mut states = Vec::new();
    for _ in 0..4 {
        let objects = random.between(1, size.objects);
        states.push(state(random, &signature, objects));
    }
    for _ in 0..6 {
        let operation = *random.pick(&OPERATIONS);
        let answer = tally.watch(session.take(operation.as_bytes()));
        if matches!(answer.as_deref(), Ok([Answer::Reduce { .. }])) && session.started().expect("started").k > 0 {
            tally.see("a reduction behind a backup");
        }
        for state in &states {
            for line in write_state(state) {
                session.take(line.as_bytes()).map_err(|refusal| format!("{line} is refused with {}", refusal.number()))?;
            }
            let k = session.started().expect("started").k;
            let scale = (u128::from(plain.total) * u128::from(plain.discount.1)).pow(k as u32);
            match tally.watch(session.take(b"(value)")).as_deref() {
                Ok([Answer::Value { value, k: printed, scale: power }]) => {
                    let right = bellman.value(k, state);
                    if u128::from(*value) != right || *printed != k || u128::from(*power) != scale {
                        return Err(format!("(value {value} {printed} {power}) where M{k} is {right} and S^k {scale}, in {state:?}"));
                    }
                    if session.started().expect("started").value.has_minimum() {
                        tally.see(match k {
                            0 => "a value with a minimum variable",
                            1 => "a value with a minimum variable behind a backup",
                            _ => "a value with a minimum variable behind two backups or more",
                        });
                    }
                }
                Ok(other) => return Err(format!("{other:?} for (value)")),
                Err(_) => {}
            }
        }
    }
    Ok(())
}

/// What a line of a text for a program asks, and the state in hand.
struct Question {
    line: usize,
    asks: Asks,
    state: State,
}

enum Asks {
    Value,
    Best,
    Count(u64),
    /// A line of a log, with what brute force says.
    Did(String, Result<Answer, Refusal>),
}

/// States of so many ground facts are counted by brute force.
const COUNTED_FACTS: usize = 9;

/// The lines of a state and of what is asked about it.
fn ask(random: &mut Random, signature: &Signature, plain: &PlainModel, state: State, lines: &mut Vec<String>) -> Vec<Question> {
    lines.extend(write_state(&state));
    let placed = state.constants.iter().max().map_or(1, |object| object + 1);
    let few = (placed..=4).rev().find(|objects| ground_facts(signature, *objects).len() <= COUNTED_FACTS);
    let asked = [(Asks::Value, 1), (Asks::Best, 2)].into_iter().chain(few.map(|objects| (Asks::Count(objects), 3)));
    let asked: Vec<Asks> = asked.filter(|(_, seldom)| random.once_in(*seldom)).map(|(asks, _)| asks).collect();
    let mut questions: Vec<Question> = asked.into_iter().map(|asks| question(asks, &state, lines)).collect();
    if random.once_in(2) {
        let mut week = Week::begin(plain, None, state);
        for _ in 0..random.between(1, 4) {
            let logged = Logged::random(random, plain, week.state().objects);
            let right = week.take(&logged);
            questions.push(question(Asks::Did(logged.line(), right), &week.state(), lines));
        }
        questions.push(question(Asks::Value, &week.state(), lines));
    }
    questions
}

/// Puts the line of a question behind the others.
fn question(asks: Asks, state: &State, lines: &mut Vec<String>) -> Question {
    lines.push(match &asks {
        Asks::Value => "(value)".to_string(),
        Asks::Best => "(best)".to_string(),
        Asks::Count(objects) => format!("(count {objects})"),
        Asks::Did(line, _) => line.clone(),
    });
    Question { line: lines.len(), asks, state: state.clone() }
}

/// The lines that answer a question, by the equation.
fn right_lines(bellman: &mut Bellman, signature: &Signature, scale: u128, k: u64, question: &Question) -> Vec<String> {
    let state = &question.state;
    let text = match &question.asks {
        Asks::Value => format!("(value {} {k} {})\n", bellman.value(k, state), scale.pow(k as u32)),
        Asks::Best => first_highest(bellman, k, state).line,
        Asks::Count(objects) => spread::lines(bellman, k, spread::states(signature, *objects, &state.constants)),
        Asks::Did(_, Ok(answer)) => answer.print(),
        Asks::Did(_, Err(refusal)) => Answer::Refused { refusal: *refusal, line: question.line }.print(),
    };
    text.lines().map(str::to_string).collect()
}

/// One random model with backups, cuts and reductions as a text for a program: how many values, moves, spreads and lines of logs it answered, all of them as brute force does.
pub fn check_program(program: &Path, seed: u64) -> Result<u64, String> {
    let random = &mut Random::new(seed);
    let size = *random.pick(&SIZES);
    let (signature, plain) = model(random, size);
    let mut lines = write_model(&signature, &plain);
    let model_lines = lines.len();
    // what is asked, in the order of the lines
    let mut questions = Vec::new();
    for _ in 0..6 {
        lines.push(random.pick(&OPERATIONS).to_string());
        let objects = random.between(1, size.objects);
        let state = state(random, &signature, objects);
        questions.extend(ask(random, &signature, &plain, state, &mut lines));
    }
    let text: String = lines.iter().flat_map(|line| [line.as_str(), "\n"]).collect();
    let answers = String::from_utf8(printed(program, text.as_bytes())?).map_err(|error| error.to_string())?;
    let scale = u128::from(plain.total) * u128::from(plain.discount.1);
    let mut bellman = Bellman::new(&plain);
    let (mut k, mut answered) = (0, 0);
    let (mut questions, mut answers) = (questions.iter(), answers.lines());
    while let Some(answer) = answers.next() {
        let wrong = |why: &str| format!("{answer}: {why}, in\n{text}");
        let words: Vec<&str> = answer.trim_matches(['(', ')']).split(' ').collect();
        let number = |place: usize| words.get(place).and_then(|word| word.parse::<u128>().ok()).ok_or_else(|| wrong("a number is due"));
        match words[0] {
            "backup" if number(1)? == u128::from(k) + 1 => k += 1,
            "cut" | "reduce" => {}
            "value" | "best" | "count" | "did" => {
                let question = questions.next().ok_or_else(|| wrong("one too many"))?;
                let right = right_lines(&mut bellman, &signature, scale, k, question);
                let printed: Vec<&str> = [answer].into_iter().chain(answers.by_ref().take(right.len() - 1)).collect();
                if printed != right {
                    return Err(wrong(&format!("{right:?} is right at line {}", question.line)));
                }
                answered += 1;
            }
            "refused" => {
                let line = number(2)? as usize;
                if line <= model_lines {
                    return Err(wrong("a line of the model"));
                }
                match lines[line - 1].as_str() {
                    "(backup)" | "(cut)" | "(reduce)" => {}
                    written => match questions.next().filter(|question| question.line == line) {
                        // no limit is near
                        Some(question @ Question { asks: Asks::Did(..), .. }) => {
                            let right = right_lines(&mut bellman, &signature, scale, k, question);
                            if right != [answer] {
                                return Err(wrong(&format!("{right:?} is right at line {line}")));
                            }
                            answered += 1;
                        }
                        Some(_) => {}
                        None => return Err(wrong(written)),
                    },
                }
            }
            _ => return Err(wrong("not known")),
        }
    }
    match questions.next() {
        Some(question) => Err(format!("no answer to line {} of\n{text}", question.line)),
        None => Ok(answered),
    }
}
