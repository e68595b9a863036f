//! Values by tables (document 02, L6): sixty objects, tests of one variable each and of a relation, and a plain loop over all valuations.

const LEAF: u64 = u64::MAX;
const FIRST_VARIABLE: u64 = 64;
pub const OBJECTS: u64 = 60;
/// p is predicate 1 of one place, r predicate 2 of two.
pub const ARITIES: [u64; 32] = {
    let mut arities = [0; 32];
    arities[0] = 2;
    arities[1] = 1;
    arities[2] = 2;
    arities
};

fn label(predicate: u64, terms: [u64; 2]) -> u64 {
    (predicate << 48) + (terms[0] << 40) + (terms[1] << 32)
}

/// Leaf 2 where every test holds, leaf 1 where all but the lowest do, else leaf 0. The root comes last.
fn conjunction(labels: &[u64]) -> Vec<u64> {
    let mut words = vec![LEAF, 2, 0, LEAF, 1, 0, labels[labels.len() - 1], 0, 1, LEAF, 0, 0];
    for (row, label) in labels.iter().rev().skip(1).enumerate() {
        words.extend([*label, if row == 0 { 2 } else { row as u64 + 3 }, 3]);
    }
    words
}

/// The highest leaf, valuation by valuation; the facts are in a table of bits beforehand.
pub fn plain(words: &[u64], variables: u32, facts: &[u64]) -> u64 {
    let n = OBJECTS as usize;
    let (mut p, mut r) = (vec![false; n], vec![false; n * n]);
    for fact in facts.chunks(7) {
        let (a, b) = (fact[1] as usize, fact[2] as usize);
        if fact[0] == 1 { p[a] = true } else { r[a * n + b] = true }
    }
    let (mut best, mut objects) = (0, vec![0; variables as usize]);
    loop {
        let mut at = words.len() / 3 - 1;
        while words[3 * at] != LEAF {
            let term = |shift: u32| objects[((words[3 * at] >> shift & 255).saturating_sub(FIRST_VARIABLE)) as usize];
            let holds = if words[3 * at] >> 48 == 1 { p[term(40)] } else { r[term(40) * n + term(32)] };
            at = words[3 * at + if holds { 1 } else { 2 }] as usize;
        }
        best = best.max(words[3 * at + 1]);
        let Some(next) = objects.iter().rposition(|object| object + 1 < n) else { return best };
        objects[next] += 1;
        objects[next + 1..].fill(0);
    }
}

/// What is asked, the listing, the facts and how many variables it has; leaf 2 is the value.
pub fn cases() -> Vec<(&'static str, Vec<u64>, Vec<u64>, u32)> {
    let unary = |count: u64| (0..count).map(|v| label(1, [FIRST_VARIABLE + v, 0])).collect::<Vec<u64>>();
    let mut related = unary(2);
    related.push(label(2, [FIRST_VARIABLE + 2, FIRST_VARIABLE + 3]));
    let facts = [[1, 59, 0, 0, 0, 0, 0], [2, 58, 59, 0, 0, 0, 0]].concat();
    [
        ("4 tests of one variable each", unary(4), 4),
        ("16 tests of one variable each", unary(16), 16),
        ("62 tests of one variable each", unary(62), 62),
        ("2 tests of one variable each and one of a relation", related, 4),
    ]
    .map(|(what, labels, variables)| (what, conjunction(&labels), facts.clone(), variables))
    .into()
}
