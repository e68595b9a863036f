//! Document 02, L2 and L12: value diagrams go round, printed by (text) and read again as the reward of the next model, and rewards whose variables are written ?vN and %vN.

use crate::limits::{long_form, nested_form};
use crate::models::{minimum_terms, model, terms, write_model, write_tree, Signature, Size};
use crate::program::printed;
use crate::random::Random;
use crate::tally::Tally;
use reference::diagram::Diagram;
use reference::refusal::Refusal;
use reference::session::{answers, Answer, Session};
use reference::slips::Slips;
use reference::terms::{Term, VariableKind};
use reference::tree::Tree;
use std::path::Path;

/// A program, or the reference: a text in, its answers out.
type Answering<'a> = &'a dyn Fn(&[u8]) -> Result<Vec<u8>, String>;

const SIZES: [Size; 7] = [
    Size::SMALL,
    Size::SMALL,
    Size::PLAIN,
    Size::PLACES,
    Size { variables: 24, depth: 5, ..Size::PLACES },
    Size::MINIMUM,
    Size { variables: 12, minimum: 12, depth: 5, ..Size::PLACES },
];
const OPERATIONS: [&str; 5] = ["(backup)", "(cut)", "(cut)", "(reduce)", ""];
/// So many models behind one another have the value diagram of the one before as their reward.
const QUARTERS: u64 = 4;

/// The value diagrams of one seed go round by the reference, variables are numbered as they are written, and forms are printed up to their limits.
pub fn check(seed: u64, slips: Slips, tally: &mut Tally) -> Result<(), String> {
    check_numbers(seed, slips)?;
    check_limits(seed, slips)?;
    let answering = |text: &[u8]| Ok(answers(text, slips).iter().flat_map(|answer| answer.print().into_bytes()).collect());
    for _ in 0..rounds(&answering, seed)? {
        tally.see("a diagram goes round");
    }
    Ok(())
}

/// How many value diagrams of one seed went round by a program.
pub fn check_program(program: &Path, seed: u64) -> Result<u64, String> {
    rounds(&|text| printed(program, text), seed)
}

fn rounds(answering: Answering, seed: u64) -> Result<u64, String> {
    let random = &mut Random::new(seed);
    let size = *random.pick(&SIZES);
    let (signature, plain) = model(random, size);
    let mut lines = write_model(&signature, &plain);
    let model_lines = lines.len();
    let reward = lines.iter().position(|line| line.starts_with("(reward ")).expect("a reward");
    lines[reward] = renamed(random, &lines[reward]);
    let mut done = 0;
    for _ in 0..QUARTERS {
        lines.extend((0..random.below(4)).map(|_| random.pick(&OPERATIONS).to_string()));
        let Some((rows, Some(form))) = shown(answering, &lines)? else { break };
        lines.truncate(model_lines);
        lines[reward] = format!("(reward {form})");
        if shown(answering, &lines)? != Some((rows.clone(), Some(form))) {
            return Err(format!("another diagram is read than the one printed:\n{}\nin\n{}", rows.join("\n"), lines.join("\n")));
        }
        done += 1;
    }
    Ok(done)
}

/// The value diagram at the end of a text: its rows as (show) prints them and its form, or none where that is too long. No diagram where the model is refused: tests of many
/// variables in any order may form too many rows.
fn shown(answering: Answering, lines: &[String]) -> Result<Option<(Vec<String>, Option<String>)>, String> {
    let text: String = lines.iter().map(String::as_str).chain(["(show)", "(text)"]).flat_map(|line| [line, "\n"]).collect();
    let answers = String::from_utf8(answering(text.as_bytes())?).map_err(|error| error.to_string())?;
    let mut answers: Vec<&str> = answers.lines().collect();
    let last = answers.pop().unwrap_or_default();
    let rows: Vec<String> = answers.into_iter().filter(|line| line.starts_with("(row ")).map(str::to_string).collect();
    if last == "(refused 5 0)" {
        return Ok(None);
    }
    let is_form = last.starts_with("(if ") || last.parse::<u64>().is_ok();
    if rows.is_empty() || !(is_form || last == format!("(refused 19 {})", lines.len() + 2)) {
        return Err(format!("{last} is the answer to (text) in\n{text}"));
    }
    Ok(Some((rows, is_form.then(|| last.to_string()))))
}

/// The line with another name in the place of each variable ?x0, ?x1, .. and %x0, %x1, ..
fn with_names(line: &str, name: impl Fn(VariableKind, usize) -> String) -> String {
    let mut written = line.to_string();
    for kind in VariableKind::ALL {
        let (old, sign) = (format!("{}x", kind.sign()), kind.sign());
        let mut parts = written.split(&old);
        let mut renamed = parts.next().unwrap_or_default().to_string();
        for part in parts {
            let digits = part.bytes().take_while(u8::is_ascii_digit).count();
            renamed += &format!("{sign}{}{}", name(kind, part[..digits].parse().expect("a number")), &part[digits..]);
        }
        written = renamed;
    }
    written
}

/// Different numbers, in any order, with gaps; some of them as long as a name allows.
fn numbers(random: &mut Random, count: usize) -> Vec<u64> {
    let mut next = if random.once_in(4) { 99_999_999_990_000 + random.below(10) } else { random.below(12) };
    let mut numbers = Vec::new();
    for _ in 0..count {
        let place = random.below(numbers.len() as u64 + 1) as usize;
        numbers.insert(place, next);
        next += random.between(1, 9);
    }
    numbers
}

/// A name that is not of the way vN.
fn other_name(random: &mut Random, number: u64) -> String {
    match random.below(5) {
        0 => format!("v0{}", number % 1_000),
        1 => format!("v00{}", number % 1_000),
        2 => format!("v{}a", number % 1_000),
        3 => format!("w{number}"),
        _ => "v".to_string(),
    }
}

/// A reward's line with other names of its variables, kind by kind: all vN, all with a leading zero, or some of them so.
pub fn renamed(random: &mut Random, line: &str) -> String {
    const MOST: usize = 100;
    let ways = VariableKind::ALL.map(|_| {
        let others: Vec<bool> = (0..MOST).map(|_| random.once_in(4)).collect();
        (numbers(random, MOST), others, random.below(5))
    });
    with_names(line, |kind, i| {
        let (numbers, others, way) = &ways[kind as usize];
        match way {
            0 => format!("x{i}"),
            1 => format!("v{}", numbers[i]),
            2 => format!("v{i}"),
            4 if !others[i] => format!("v{}", numbers[i]),
            _ => format!("v0{i}"),
        }
    })
}

/// A reward is numbered kind by kind: by ascending N where every variable of a kind is written vN behind its sign, and else by first occurrence, whatever N is and however the others are
/// written.
fn check_numbers(seed: u64, slips: Slips) -> Result<(), String> {
    let random = &mut Random::new(seed ^ 0x2b);
    let signature = Signature::random(random, Size::PLACES);
    let counts = [random.between(1, 6), random.between(1, 4)];
    let drawn: Vec<Term> = terms(&signature, 0, counts[0]).into_iter().chain(minimum_terms(counts[1])).collect();
    let tree = signature.tree(random, &drawn, 4, &[0, 1, 2, 3]);
    let mut numbers = VariableKind::ALL.map(|kind| numbers(random, counts[kind as usize] as usize + 1));
    let apart = VariableKind::ALL.map(|kind| numbers[kind as usize].pop().expect("one more"));
    let occurred = VariableKind::ALL.map(|kind| {
        let mut occurred = Vec::new();
        occurrences(&tree, kind, &mut occurred);
        occurred
    });
    let by_number = |kind: VariableKind, i: usize| numbers[kind as usize].iter().filter(|n| **n < numbers[kind as usize][i]).count();
    let by_occurrence = |kind: VariableKind, i: usize| occurred[kind as usize].iter().position(|v| *v == i).expect("it occurs");
    // one kind, or both, or none by first occurrence
    let others = VariableKind::ALL.map(|kind| (random.once_in(2), other_name(random, apart[kind as usize])));
    let right = numbered(&tree, &|kind, i| if others[kind as usize].0 { by_occurrence(kind, i) } else { by_number(kind, i) })?;
    let written = with_names(&write_tree(&tree), |kind, i| format!("v{}", numbers[kind as usize][i]));
    // a variable in a part that reduces away counts as one that is written
    let below = VariableKind::ALL.into_iter().fold(written.clone(), |inner, kind| {
        let name = if others[kind as usize].0 { "z".to_string() } else { format!("v{}", apart[kind as usize]) };
        format!("(if (= {sign}{name} {sign}{name}) {inner} 4)", sign = kind.sign())
    });
    let mut cases = vec![(below, &right)];
    let all_by_number = numbered(&tree, &by_number)?;
    cases.push((written, &all_by_number));
    let named = |kind: VariableKind, i: usize| match &others[kind as usize] {
        (true, name) if occurred[kind as usize].last() == Some(&i) => name.clone(),
        _ => format!("v{}", numbers[kind as usize][i]),
    };
    cases.push((with_names(&write_tree(&tree), named), &right));
    for (written, right) in cases {
        if reward(&signature, &written, slips)? != *right {
            return Err(format!("(reward {written}) is not numbered as it is written"));
        }
    }
    Ok(())
}

/// 62 tests inside one another and 4,095 bytes of the reward line pass, and one more does not; one fewer stands there before the backup.
fn check_limits(seed: u64, slips: Slips) -> Result<(), String> {
    let random = &mut Random::new(seed);
    let (tests, bytes) = (random.between(61, 63), random.between(4_094, 4_096));
    for (lines, passes) in [(nested_form(random, tests), tests <= 62), (long_form(random, bytes), bytes <= 4_095)] {
        let text: String = lines.iter().flat_map(|line| [line.as_str(), "\n"]).collect();
        let answers = answers(text.as_bytes(), slips);
        let printed = answers.iter().filter(|answer| matches!(answer, Answer::Text { .. })).count();
        let refused = answers.iter().filter(|answer| matches!(answer, Answer::Refused { refusal: Refusal::Length, .. })).count();
        if (printed, refused) != if passes { (2, 0) } else { (1, 1) } {
            return Err(format!("{printed} forms printed and {refused} too long, with {tests} tests and with {bytes} bytes, in\n{text}"));
        }
    }
    Ok(())
}

/// The variables of a kind in a tree, from 0 on, by first occurrence.
fn occurrences(tree: &Tree, kind: VariableKind, occurred: &mut Vec<usize>) {
    if let Tree::If { terms, yes, no, .. } = tree {
        let own = terms.iter().filter(|term| VariableKind::of(**term) == Some(kind));
        for variable in own.map(|term| (term - kind.first()) as usize) {
            if !occurred.contains(&variable) {
                occurred.push(variable);
            }
        }
        occurrences(yes, kind, occurred);
        occurrences(no, kind, occurred);
    }
}

/// The diagram of a tree whose variables have other numbers.
fn numbered(tree: &Tree, number: &dyn Fn(VariableKind, usize) -> usize) -> Result<Diagram, String> {
    let read = with_numbers(tree, number).read();
    read.map(|diagram| diagram.closed_up()).map_err(|refusal| format!("{tree:?} is refused with {}", refusal.number()))
}

fn with_numbers(tree: &Tree, number: &dyn Fn(VariableKind, usize) -> usize) -> Tree {
    let other = |term: &Term| match VariableKind::of(*term) {
        Some(kind) => kind.first() + number(kind, (term - kind.first()) as usize) as Term,
        None => *term,
    };
    match tree {
        Tree::Number(value) => Tree::Number(*value),
        Tree::If { predicate, terms, yes, no } => Tree::If {
            predicate: *predicate,
            terms: terms.iter().map(other).collect(),
            yes: Box::new(with_numbers(yes, number)),
            no: Box::new(with_numbers(no, number)),
        },
    }
}

/// The diagram of a reward.
fn reward(signature: &Signature, written: &str, slips: Slips) -> Result<Diagram, String> {
    let mut session = Session::new(slips);
    let declarations = (0..signature.constants).map(|c| format!("(constant c{c})"));
    let declarations =
        declarations.chain((1..=signature.predicates).map(|p| format!("(predicate p{p} {})", signature.arities[p as usize])));
    let behind = [format!("(reward {written})"), "(action go)".to_string(), "(variant only 100)".to_string(), "(start)".to_string()];
    for line in declarations.chain(behind) {
        session.take(line.as_bytes()).map_err(|refusal| format!("{line} is refused with {}", refusal.number()))?;
    }
    Ok(session.started().expect("started").value.clone())
}
