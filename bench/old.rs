//! Words and answers of libraries from before document 02's wider labels (L8), to measure one beside a later one: four places of six bits, variables from 32 on, leaves
//! marked 2^32 - 1.

use crate::engine::{self, predicate, FIRST_VARIABLE, LEAF};

const OLD_LEAF: u64 = 4_294_967_295;
const OLD_FIRST_VARIABLE: u64 = 32;
const OLD_PLACES: usize = 4;
const OLD_TERM_BITS: usize = 6;

fn old_label(l: u64) -> u64 {
    let term = |t: u64| if t < FIRST_VARIABLE { t } else { t - FIRST_VARIABLE + OLD_FIRST_VARIABLE };
    (0..OLD_PLACES).fold(predicate(l), |word, k| (word << OLD_TERM_BITS) + term(engine::place(l, k)))
}

fn label(old: u64) -> u64 {
    let place = |k: usize| old >> (OLD_TERM_BITS * (OLD_PLACES - 1 - k)) & ((1 << OLD_TERM_BITS) - 1);
    let term = |t: u64| if t < OLD_FIRST_VARIABLE { t } else { t - OLD_FIRST_VARIABLE + FIRST_VARIABLE };
    let terms: Vec<u64> = (0..OLD_PLACES).map(|k| term(place(k))).collect();
    engine::label(old >> (OLD_TERM_BITS * OLD_PLACES), &terms)
}

fn rows(words: &[u64], first: impl Fn(u64) -> u64) -> Vec<u64> {
    words.chunks(3).flat_map(|row| [first(row[0]), row[1], row[2]]).collect()
}

/// The old words of a listing.
pub fn old_listing(words: &[u64]) -> Vec<u64> {
    rows(words, |l| if l == LEAF { OLD_LEAF } else { old_label(l) })
}

/// The listing of old words.
pub fn listing(old: &[u64]) -> Vec<u64> {
    rows(old, |l| if l == OLD_LEAF { LEAF } else { label(l) })
}

/// Answers with the labels that they have now.
pub fn answers(old: &str) -> String {
    let line = |line: &str| {
        let mut words: Vec<String> = line.split(' ').map(str::to_string).collect();
        if words[0] == "(row" && words[2] != "leaf" {
            words[2] = label(words[2].parse().unwrap()).to_string();
        }
        words.join(" ") + "\n"
    };
    old.lines().map(line).collect()
}
