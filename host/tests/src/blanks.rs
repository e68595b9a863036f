//! Document 02, L1: blank lines change nothing but the numbers of the lines behind them.

use crate::random::Random;
use crate::texts::{spaced, text};
use reference::session::{answers, Answer};
use reference::slips::Slips;

/// The text of a seed and the same text spaced out have the same answers, with the numbers of refused lines mapped.
pub fn check(seed: u64) -> Result<(), String> {
    let text = text(seed);
    let (spaced, numbers) = spaced(&mut Random::new(seed), &text);
    let moved = |answer: Answer| match answer {
        Answer::Refused { refusal, line } => Answer::Refused { refusal, line: numbers[line] },
        other => other,
    };
    let right: Vec<Answer> = answers(&text, Slips::NONE).into_iter().map(moved).collect();
    let other = answers(&spaced, Slips::NONE);
    if right == other {
        return Ok(());
    }
    let different = right.iter().zip(&other).position(|(a, b)| a != b).unwrap_or(right.len().min(other.len()));
    Err(format!("answer {different} is {:?} and, spaced out, {:?}", right.get(different), other.get(different)))
}
