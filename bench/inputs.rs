//! Random listings and states, the same in every run.

use crate::engine::{self, FACT_WORDS, FIRST_VARIABLE, LEAF, PREDICATES};
use std::collections::{HashMap, HashSet};

/// Every predicate but equality has two places.
pub const ARITIES: [u64; PREDICATES] = [2; PREDICATES];

pub struct Random(pub u64);

impl Random {
    pub fn below(&mut self, n: u64) -> u64 {
        self.0 ^= self.0 << 13;
        self.0 ^= self.0 >> 7;
        self.0 ^= self.0 << 17;
        (self.0 >> 11) % n
    }

    pub fn between(&mut self, low: u64, high: u64) -> u64 {
        low + self.below(high - low + 1)
    }
}

/// A label of one of the predicates 1 to 12, over four constants and the first variables.
fn label(r: &mut Random, variables: u64) -> u64 {
    let p = r.between(1, 12);
    let mut term = || {
        let t = r.below(4 + variables);
        if t < 4 {
            t
        } else {
            FIRST_VARIABLE + t - 4
        }
    };
    let (a, b) = (term(), term());
    engine::label(p, &[a, b])
}

/// `n` labels, ascending.
pub fn labels(r: &mut Random, n: usize, variables: u64) -> Vec<u64> {
    let mut set = HashSet::new();
    while set.len() < n {
        set.insert(label(r, variables));
    }
    let mut v: Vec<u64> = set.into_iter().collect();
    v.sort();
    v
}

/// A listing whose labels are among the given ones, with at most `width` rows of a label; `leaves` are its values.
pub fn listing(r: &mut Random, labels: &[u64], width: usize, leaves: &[u64]) -> Vec<u64> {
    let mut rows: Vec<[u64; 3]> = leaves.iter().map(|&v| [LEAF, v, 0]).collect();
    let mut seen = HashSet::new();
    for (k, &l) in labels.iter().enumerate().rev() {
        let below = rows.len();
        let wanted = if k == 0 { 1 } else { width };
        for _ in 0..wanted {
            let mut child = || {
                let reach = if r.below(4) == 0 { below } else { below.min(2 * width) };
                (below - 1 - r.below(reach as u64) as usize) as u64
            };
            let row = [l, child(), child()];
            if row[1] != row[2] && seen.insert(row) {
                rows.push(row);
            }
        }
    }
    in_order(&rows.concat())
}

/// A listing of about `rows` rows and at most `variables` variables.
pub fn listing_of(r: &mut Random, rows: usize, variables: u64) -> Vec<u64> {
    loop {
        let width = r.between(1, 3 + rows as u64 / 12) as usize;
        let n = r.between(3, 6 + rows as u64) as usize;
        let labels = labels(r, n.min(500), variables);
        let leaves: Vec<u64> = (0..r.between(2, 4 + rows as u64 / 10)).map(|v| v * 7919).collect();
        let w = listing(r, &labels, width, &leaves);
        let m = w.len() / 3;
        if m * 20 >= rows * 19 && m * 20 <= rows * 21 && m <= 1024 {
            return w;
        }
    }
}

/// Two random operands; where they have many pairs the first one's leaves are the higher ones, so that their max stays within the rows of a result.
pub fn operands(r: &mut Random, pairs: usize) -> (Vec<u64>, Vec<u64>) {
    let (n, width) = match pairs {
        0..=20 => (r.between(2, 4), r.between(1, 2)),
        21..=100 => (r.between(3, 7), r.between(1, 3)),
        101..=1000 => (r.between(5, 14), r.between(2, 5)),
        _ => (20, 16),
    };
    let universe = labels(r, (n + n / 2 + 1) as usize, 6);
    let mut one = |first: bool| {
        let mut some: Vec<u64> = vec![];
        while some.len() < n as usize {
            let l = universe[r.below(universe.len() as u64) as usize];
            if !some.contains(&l) {
                some.push(l);
            }
        }
        some.sort();
        let leaves = match (pairs > 1000, first) {
            (false, _) => (0..r.between(2, 4)).map(|v| v * 10).collect(),
            (true, true) => vec![1, 2, 3, 4],
            (true, false) => vec![0, 1],
        };
        listing(r, &some, width as usize, &leaves)
    };
    (one(true), one(false))
}

/// A random operand whose edges lead to leaf 0 with the given chance in 10.
pub fn with_zeros(r: &mut Random, chance: u64) -> Vec<u64> {
    let labels = labels(r, 8, 0);
    let mut rows: Vec<[u64; 3]> = [0, 1, 2, 3].map(|v| [LEAF, v, 0]).to_vec();
    let mut seen = HashSet::new();
    for (k, &l) in labels.iter().enumerate().rev() {
        let below = rows.len() as u64;
        for _ in 0..if k == 0 { 1 } else { 3 } {
            let mut child = || if r.below(10) < chance { 0 } else { below - 1 - r.below(below.min(6)) };
            let row = [l, child(), child()];
            if row[1] != row[2] && seen.insert(row) {
                rows.push(row);
            }
        }
    }
    in_order(&rows.concat())
}

/// So many variables that their pairs are enough labels for a chain.
const SIDE: u64 = 32;

/// A chain of tests from the label numbered `first` on, over the leaves `base` and `base` + 1 in turn.
pub fn chain(first: u64, tests: u64, base: u64) -> Vec<u64> {
    let mut words = vec![LEAF, base, 0, LEAF, base + 1, 0];
    for n in (0..tests).rev() {
        let below = if n + 1 == tests { tests % 2 } else { words.len() as u64 / 3 - 1 };
        words.extend([engine::label(1, &[FIRST_VARIABLE + (first + n) / SIDE, FIRST_VARIABLE + (first + n) % SIDE]), n % 2, below]);
    }
    words
}

/// A diagram that tells the parity of p(x1), .., p(x6): every valuation is needed where no fact is true.
pub fn parity() -> Vec<u64> {
    let mut out = vec![LEAF, 0, 0, LEAF, 1, 0];
    let (mut even, mut odd) = (0u64, 1u64);
    for v in (0..6u64).rev() {
        let l = engine::label(1, &[FIRST_VARIABLE + v, 0]);
        if v == 0 {
            out.extend([l, odd, even]);
            break;
        }
        let n = (out.len() / 3) as u64;
        out.extend([l, odd, even, l, even, odd]);
        (even, odd) = (n, n + 1);
    }
    in_order(&out)
}

/// The rows of the last one, renumbered as a walk finishes them.
fn in_order(w: &[u64]) -> Vec<u64> {
    fn go(w: &[u64], i: u64, numbers: &mut HashMap<u64, u64>, out: &mut Vec<u64>) -> u64 {
        if let Some(&n) = numbers.get(&i) {
            return n;
        }
        let (l, a, b) = (w[i as usize * 3], w[i as usize * 3 + 1], w[i as usize * 3 + 2]);
        let row = if l == LEAF { [l, a, b] } else { [l, go(w, a, numbers, out), go(w, b, numbers, out)] };
        let n = (out.len() / 3) as u64;
        out.extend(row);
        numbers.insert(i, n);
        n
    }
    let mut out = vec![];
    go(w, (w.len() / 3 - 1) as u64, &mut HashMap::new(), &mut out);
    out
}

/// Facts about ten objects.
pub fn facts(r: &mut Random, n: usize) -> Vec<u64> {
    let mut fact = || {
        let mut words = [0; FACT_WORDS];
        words[..3].copy_from_slice(&[r.between(1, 12), r.below(10), r.below(10)]);
        words
    };
    (0..n).flat_map(|_| fact()).collect()
}

/// A truth diagram for a predicate of two places: true where the first object is constant 0's, and where it was.
pub fn taught() -> Vec<u64> {
    let (x, y) = (FIRST_VARIABLE, FIRST_VARIABLE + 1);
    vec![LEAF, 1, 0, LEAF, 0, 0, engine::label(1, &[x, y]), 0, 1, engine::label(0, &[0, x]), 0, 2]
}

/// The listing with each constant below 4 as a parameter.
pub fn with_parameters(words: &[u64]) -> Vec<u64> {
    let term = |t: u64| if t < 4 { 16 + t } else { t };
    let label = |l: u64| if l == LEAF { l } else { engine::label(engine::predicate(l), &[term(engine::place(l, 0)), term(engine::place(l, 1))]) };
    words.chunks(3).flat_map(|row| [label(row[0]), row[1], row[2]]).collect()
}

/// The words of rows as (show) prints them.
pub fn rows(text: &str) -> Vec<u64> {
    let row = |line: &str| {
        let words: Vec<u64> = line.trim_matches(&['(', ')'][..]).split(' ').skip(2).map(|w| if w == "leaf" { LEAF } else { w.parse().unwrap() }).collect();
        [words[0], words[1], words.get(2).copied().unwrap_or(0)]
    };
    text.lines().flat_map(row).collect()
}

/// Two paths to the same leaf: one asks for all ordered pairs of n variables, the other for those of n - 1 others. No edge may go, since the first does not cover the second.
pub fn cliques(n: u64) -> Vec<u64> {
    let pairs = |first: u64, n: u64| (0..n * n).filter(|k| k / n != k % n).map(|k| engine::label(1, &[FIRST_VARIABLE + first + k / n, FIRST_VARIABLE + first + k % n])).collect::<Vec<u64>>();
    let mut words = vec![LEAF, 10, 0, LEAF, 0, 0];
    let mut chain = |labels: &[u64]| {
        for (k, label) in labels.iter().rev().enumerate() {
            let below = if k == 0 { 0 } else { words.len() as u64 / 3 - 1 };
            words.extend([*label, below, 1]);
        }
        words.len() as u64 / 3 - 1
    };
    let first = pairs(0, n);
    let (on_true, on_false) = (chain(&first[1..]), chain(&pairs(n, n - 1)));
    words.extend([first[0], on_true, on_false]);
    words
}

/// What is lent to a call: a result buffer, a working space, room for answers.
pub struct Room {
    pub result: Vec<u64>,
    pub work: Vec<u64>,
    pub answers: Vec<u8>,
}

pub fn room() -> Room {
    Room { result: vec![0; 3072], work: vec![0; 6144], answers: vec![0; 1 << 20] }
}
