//! Random texts: whole models with a run, damaged lines, models that soon meet a limit, and plain bytes.

use crate::forms::renamed;
use crate::limits;
use crate::models::{model, sparse_state, write_model, write_state, Signature, Size};
use crate::random::Random;
use crate::replay::Logged;
use reference::bellman::PlainModel;

/// The text of a seed: a whole one, one about weights, a small one damaged, one about a limit, or once in a while plain bytes or next to nothing. Some are spaced out by
/// blank lines.
pub fn text(seed: u64) -> Vec<u8> {
    let random = &mut Random::new(seed);
    if seed % 16 == 15 {
        return if random.once_in(8) { next_to_nothing(random) } else { bytes(random) };
    }
    let kind = random.below(12);
    let sizes = [Size::LARGE, Size::WIDE, Size::EQUALITIES, Size::PLACES, Size::VARIABLES, Size::PLAIN];
    let size = *sizes.get(kind as usize).unwrap_or(&Size::SMALL);
    let damaged = (7..10).contains(&kind);
    // one whole text in three has minimum variables in its reward
    let size = if random.once_in(3) { Size { minimum: size.variables, ..size } } else { size };
    let mut lines = if kind >= 10 { limits::lines(random) } else { whole(random, size) }.into_iter().map(String::into_bytes).collect();
    if damaged {
        for _ in 0..random.between(1, 6) {
            damage(random, &mut lines);
        }
    }
    let mut text: Vec<u8> = lines.into_iter().flat_map(|line| [&line[..], b"\n"].concat()).collect();
    if damaged && random.once_in(20) {
        text.pop();
    }
    if random.once_in(4) {
        text = spaced(random, &text).0;
    }
    text
}

/// The text with blank lines put in here and there, and the number that each line has in it, that of line 0 first.
pub fn spaced(random: &mut Random, text: &[u8]) -> (Vec<u8>, Vec<usize>) {
    let often = random.between(1, 8);
    let (mut spaced, mut numbers, mut lines) = (Vec::new(), vec![0], 0);
    let mut space = |spaced: &mut Vec<u8>, lines: &mut usize| {
        while random.once_in(often + 1) {
            spaced.push(b'\n');
            *lines += 1;
        }
    };
    for line in text.split_inclusive(|byte| *byte == b'\n') {
        space(&mut spaced, &mut lines);
        spaced.extend_from_slice(line);
        lines += 1;
        numbers.push(lines);
    }
    if text.is_empty() || text.ends_with(b"\n") {
        space(&mut spaced, &mut lines);
    }
    (spaced, numbers)
}

/// Any bytes at all, or those that texts are made of.
fn bytes(random: &mut Random) -> Vec<u8> {
    let any = random.once_in(2);
    let count = random.below(20_000);
    (0..count).map(|_| if any { random.next() as u8 } else { *random.pick(b"()  ?%!=az09\n") }).collect()
}

/// A few blank lines or none, and perhaps a line or some bytes behind them.
fn next_to_nothing(random: &mut Random) -> Vec<u8> {
    let blank = random.below(4) as usize;
    [&b"\n".repeat(blank), *random.pick(&[&b""[..], b"", b"x", b" \n", b"\r\n", b"(constant c0)\n", b"(start)\n\n"])].concat()
}

fn whole(random: &mut Random, size: Size) -> Vec<String> {
    let (signature, plain) = model(random, size);
    let questions = Questions { signature: &signature, plain: &plain, objects: size.objects };
    let mut lines = write_model(&signature, &plain);
    for line in lines.iter_mut().filter(|line| line.starts_with("(reward ")) {
        *line = renamed(random, line);
    }
    if random.once_in(8) {
        let (at, question) = (random.below(lines.len() as u64) as usize, questions.one(random));
        lines.insert(at, question);
    }
    for _ in 0..random.between(1, 3) {
        for _ in 0..random.below(4) {
            lines.push(random.pick(&["(backup)", "(cut)", "(cut)", "(reduce)", "(show)", "(text)"]).to_string());
        }
        if random.once_in(3) {
            // before the first state, or in the one before
            lines.push(questions.one(random));
        }
        let objects = random.between(1, size.objects);
        let mut state = write_state(&sparse_state(random, &signature, objects));
        if random.once_in(4) {
            // before a constant is placed, if there is one
            state.insert(1, questions.one(random));
        }
        lines.extend(state.iter().cloned());
        lines.push("(value)".to_string());
        if random.once_in(2) {
            lines.push(questions.one(random));
        }
        if random.once_in(2) {
            for _ in 0..random.between(1, 6) {
                lines.push(match random.below(12) {
                    0 => "(value)".to_string(),
                    1 => questions.one(random),
                    2 => random.pick(&state).clone(),
                    _ => questions.logged(random, objects),
                });
            }
        }
    }
    lines
}

/// What is asked about a model's states, or done in them.
struct Questions<'a> {
    signature: &'a Signature,
    plain: &'a PlainModel,
    /// A state has so many at most.
    objects: u64,
}

/// Tuples of objects that brute force goes through for one line of a log.
const TUPLES: u64 = 5_000;

impl Questions<'_> {
    /// (best), a line of a log, or (count n): of few states, or with a number that is refused.
    fn one(&self, random: &mut Random) -> String {
        let facts = |objects: u64| -> u64 {
            let arities = &self.signature.arities[1..=self.signature.predicates as usize];
            arities.iter().map(|arity| objects.saturating_pow(*arity as u32)).fold(0, u64::saturating_add)
        };
        let objects = *random.pick(&[0, 1, 1, 2, 2, 3, 3, 4, 5, 7, 64, 65]);
        match facts(objects) {
            facts if random.once_in(2) && (facts <= 8 || facts > 16) => format!("(count {objects})"),
            _ if random.once_in(3) => self.logged(random, self.objects),
            _ => "(best)".to_string(),
        }
    }

    /// A line of a log; (value) where the truth diagrams have too many tuples.
    fn logged(&self, random: &mut Random, objects: u64) -> String {
        let variants = self.plain.actions.iter().flat_map(|action| &action.variants);
        let tuples = |predicate: &u64| self.objects.pow(self.signature.arities[*predicate as usize] as u32);
        let most = variants.map(|variant| variant.truths.keys().map(tuples).sum::<u64>()).max().unwrap_or(0);
        match most <= TUPLES {
            true => Logged::random(random, self.plain, objects).line(),
            false => "(value)".to_string(),
        }
    }
}

const NUMBERS: [&str; 14] = [
    "0",
    "1",
    "2",
    "6",
    "7",
    "01",
    "64",
    "65",
    "1000000",
    "1000001",
    "1000000000000000000",
    "1000000000000000001",
    "18446744073709551616",
    "x",
];

const LINES: [&str; 38] = [
    "",
    "()",
    "(start)",
    "(value)",
    "(backup)",
    "(cut)",
    "(reduce)",
    "(show)",
    "(text)",
    "(best)",
    "(count 1)",
    "(count 2)",
    "(did act0 way0)",
    "(did act0 way0 0)",
    "(did act0 way0 0 1)",
    "(did act1)",
    "(objects 2)",
    "(objects 0)",
    "(is c0 1)",
    "(true p1)",
    "(true p1 0)",
    "(true p1 0 1)",
    "(constant c0)",
    "(constant p1)",
    "(predicate c1 2)",
    "(total 1)",
    "(discount 1 1)",
    "(reward 1)",
    "(action act0)",
    "(variant way0 1)",
    "(becomes (p1 ?x0) 1)",
    "(becomes (p1) 2)",
    "(reward (if (= ?x0 ?x0) 3 (if (p1 ?x1 !a0) 1 2)))",
    "(reward (if (= ?v7 c0) 3 (if (= ?v3 ?v7) 1 2)))",
    "(reward (if (= %v7 c0) 3 (if (= ?x7 %v3) 1 2)))",
    "(reward (if (= %x0 ?x0) 3 1))",
    "(becomes (p1 %x0) 1)",
    "(action act9 %a0)",
];

/// One small damage to a text.
fn damage(random: &mut Random, lines: &mut Vec<Vec<u8>>) {
    let at = random.below(lines.len() as u64) as usize;
    match random.below(8) {
        0 if lines.len() > 1 => {
            lines.remove(at);
        }
        1 => lines.insert(at, random.pick(&LINES).as_bytes().to_vec()),
        2 => {
            let copy = lines[random.below(lines.len() as u64) as usize].clone();
            lines.insert(at, copy);
        }
        3 => {
            let other = random.below(lines.len() as u64) as usize;
            lines.swap(at, other);
        }
        4 | 5 => change_word(random, &mut lines[at]),
        _ => change_byte(random, &mut lines[at]),
    }
}

fn change_byte(random: &mut Random, line: &mut Vec<u8>) {
    let byte = *random.pick(b"()  ?%!=az09A\t\r\x00\xff");
    let at = random.below(line.len() as u64 + 1) as usize;
    match random.below(3) {
        0 => line.insert(at, byte),
        1 if at < line.len() => line[at] = byte,
        _ if at < line.len() => {
            line.remove(at);
        }
        _ => line.push(byte),
    }
}

/// Another word in the place of one, or one word more or less.
fn change_word(random: &mut Random, line: &mut Vec<u8>) {
    let mut words: Vec<Vec<u8>> = line.split(|byte| *byte == b' ').map(<[u8]>::to_vec).collect();
    let at = random.below(words.len() as u64) as usize;
    let brackets = words[at].iter().rev().take_while(|byte| **byte == b')').count();
    let mut word = match random.below(6) {
        0 => random.pick(&NUMBERS).as_bytes().to_vec(),
        1 => format!("c{}", random.below(3)).into_bytes(),
        2 => format!("{}{}{}", random.pick(&["?", "%"]), random.pick(&["x", "v", "v0"]), random.below(4)).into_bytes(),
        3 => format!("!a{}", random.below(4)).into_bytes(),
        4 => format!("p{}", random.between(1, 4)).into_bytes(),
        _ => [&words[at][..words[at].len() - brackets], *random.pick(&[&b" c0"[..], b" ?x0", b" %x0", b" 0"])].concat(),
    };
    word.extend(vec![b')'; brackets]);
    words[at] = word;
    *line = words.join(&b' ');
}
