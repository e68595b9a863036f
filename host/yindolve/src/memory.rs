//! The words of a session, as the library keeps them from line to line. What is known of their places stands here and nowhere else.

use crate::calls::{ARITIES, FACT_WORDS, RESULT_WORDS, ROW_WORDS};
use crate::ffi;
use crate::listing::{Arities, Listing};
use crate::refusal::accepted;

/// The most bytes that the answer of one line has.
pub const ANSWER_BYTES: usize = 92_160;
/// Words of a session's numbers.
pub const NUMBER_WORDS: usize = 26;
/// Words of a session's names.
pub const NAME_WORDS: usize = 248;
/// Words of the model's listings.
pub const LISTING_WORDS: usize = 6_144;
/// Words that say where these stand.
pub const TABLE_WORDS: usize = 4_240;
/// Words of the state in hand, with the index of its facts.
pub const STATE_WORDS: usize = 9_248;
/// Words of the value's listing.
pub const VALUE_WORDS: usize = RESULT_WORDS;
/// Words of a session's working space.
pub const SESSION_WORK_WORDS: usize = 6_144;

// Places among the numbers.
const PART: usize = 0;
const TOTAL: usize = 10;
const DIVISOR: usize = 12;
const REWARD_START: usize = 13;
const REWARD_WORDS: usize = 14;
const OBJECTS: usize = 17;
const FACTS: usize = 18;
const LOG_COUNT: usize = 19;
const LOG_TOTAL: usize = 20;
const ROWS: usize = 21;
const STEPS: usize = 22;
const SCALE: usize = 23;
const LINES: usize = 24;
const MET: usize = 25;

// Places in the state: the constants' objects, marks of those that are placed, then the facts.
const MARKS: usize = 16;
const FIRST_FACT: usize = 32;

#[derive(Clone)]
pub struct Memory {
    numbers: Box<[u64]>,
    names: Box<[u64]>,
    arities: Box<[u64]>,
    listings: Box<[u64]>,
    table: Box<[u64]>,
    state: Box<[u64]>,
    value: Box<[u64]>,
    work: Box<[u64]>,
}

impl Memory {
    /// Before the first line.
    pub fn open() -> Memory {
        let words = |count: usize| vec![0; count].into_boxed_slice();
        let mut memory = Memory {
            numbers: words(NUMBER_WORDS),
            names: words(NAME_WORDS),
            arities: words(ARITIES),
            listings: words(LISTING_WORDS),
            table: words(TABLE_WORDS),
            state: words(STATE_WORDS),
            value: words(VALUE_WORDS),
            work: words(SESSION_WORK_WORDS),
        };
        let Memory { numbers, arities, state, .. } = &mut memory;
        // SAFETY: each pointer is to as many words as its count says, and what is written to overlaps nothing.
        let number = unsafe {
            ffi::yindolve_open(numbers.as_mut_ptr(), numbers.len(), arities.as_mut_ptr(), arities.len(), state.as_mut_ptr(), state.len())
        };
        accepted(number).expect("the memory is of the size that the library asks for");
        memory
    }

    /// Answers the next line; how many bytes of `answer` that took.
    pub fn line(&mut self, line: &[u8], answer: &mut [u8]) -> usize {
        let Memory { numbers, names, arities, listings, table, state, value, work } = self;
        let mut bytes = 0;
        // SAFETY: each pointer is to as many words as its count says, and what is written to overlaps nothing.
        let number = unsafe {
            ffi::yindolve_line(
                line.as_ptr(),
                line.len(),
                numbers.as_mut_ptr(),
                numbers.len(),
                names.as_mut_ptr(),
                names.len(),
                arities.as_mut_ptr(),
                arities.len(),
                listings.as_mut_ptr(),
                listings.len(),
                table.as_mut_ptr(),
                table.len(),
                state.as_mut_ptr(),
                state.len(),
                value.as_mut_ptr(),
                value.len(),
                work.as_mut_ptr(),
                work.len(),
                answer.as_mut_ptr(),
                answer.len(),
                &mut bytes,
            )
        };
        // opening, the lines before and `hold` leave a session's words, and nothing else writes to them
        accepted(number).expect("the memory is a session's, of the size that the library asks for");
        bytes as usize
    }

    /// Answers the whole lines of a block, as long as `ANSWER_BYTES` of `answers` are free; how many bytes that took, and how many bytes
    /// of the block were read.
    pub fn block(&mut self, block: &[u8], answers: &mut [u8]) -> (usize, usize) {
        let Memory { numbers, names, arities, listings, table, state, value, work } = self;
        let (mut bytes, mut read) = (0, 0);
        // SAFETY: each pointer is to as many words as its count says, and what is written to overlaps nothing.
        let number = unsafe {
            ffi::yindolve_lines(
                block.as_ptr(),
                block.len(),
                numbers.as_mut_ptr(),
                numbers.len(),
                names.as_mut_ptr(),
                names.len(),
                arities.as_mut_ptr(),
                arities.len(),
                listings.as_mut_ptr(),
                listings.len(),
                table.as_mut_ptr(),
                table.len(),
                state.as_mut_ptr(),
                state.len(),
                value.as_mut_ptr(),
                value.len(),
                work.as_mut_ptr(),
                work.len(),
                answers.as_mut_ptr(),
                answers.len(),
                &mut bytes,
                &mut read,
            )
        };
        // opening, the lines before and `hold` leave a session's words, and nothing else writes to them
        accepted(number).expect("the memory is a session's, of the size that the library asks for");
        (bytes as usize, read as usize)
    }

    /// The closing answer of a text that ends here; how many bytes of `answer` that took.
    pub fn end(&self, answer: &mut [u8]) -> usize {
        let mut bytes = 0;
        // SAFETY: each pointer is to as many words or bytes as its count says, and what is written to overlaps nothing.
        let number = unsafe { ffi::yindolve_end(self.numbers.as_ptr(), self.numbers.len(), answer.as_mut_ptr(), answer.len(), &mut bytes) };
        accepted(number).expect("the memory is of the size that the library asks for");
        bytes as usize
    }

    /// Whether a (start) was accepted.
    pub fn started(&self) -> bool {
        self.numbers[PART] == 1
    }

    pub fn arities(&self) -> Arities {
        Arities::written(self.arities[..].try_into().expect("the arity list has its size"))
    }

    /// S, the scale of one step.
    pub fn step_scale(&self) -> u64 {
        self.numbers[TOTAL] * self.numbers[DIVISOR]
    }

    pub fn steps(&self) -> u64 {
        self.numbers[STEPS]
    }

    pub fn scale(&self) -> u64 {
        self.numbers[SCALE]
    }

    pub fn lines(&self) -> u64 {
        self.numbers[LINES]
    }

    /// Whether a line that is not blank was met.
    pub fn met(&self) -> bool {
        self.numbers[MET] == 1
    }

    pub fn reward(&self) -> Listing {
        let (start, count) = (self.numbers[REWARD_START] as usize, self.numbers[REWARD_WORDS] as usize);
        Listing::written(&self.listings[start..start + count])
    }

    /// The value diagram, once a (start) was accepted.
    pub fn value(&self) -> Listing {
        Listing::written(&self.value[..self.numbers[ROWS] as usize * ROW_WORDS])
    }

    /// How many objects the state in hand has, 0 before there is one.
    pub fn objects(&self) -> u64 {
        self.numbers[OBJECTS]
    }

    /// The object of a constant of the state in hand, where it is placed.
    pub fn placed(&self, constant: usize) -> Option<u64> {
        (self.state[MARKS + constant] == 1).then(|| self.state[constant])
    }

    /// The facts of the state in hand.
    pub fn facts(&self) -> impl Iterator<Item = &[u64]> {
        self.state[FIRST_FACT..].chunks_exact(FACT_WORDS).take(self.numbers[FACTS] as usize)
    }

    /// How many (did ..) lines were accepted since the state was told, and the total of their rewards.
    pub fn log(&self) -> (u64, u64) {
        (self.numbers[LOG_COUNT], self.numbers[LOG_TOTAL])
    }

    /// Puts these in. The caller has checked that there is a state, that both are at most 10^18, and that a total belongs to some line.
    pub fn set_log(&mut self, count: u64, total: u64) {
        self.numbers[LOG_COUNT] = count;
        self.numbers[LOG_TOTAL] = total;
    }

    /// Puts in a value diagram that was worked out in another session of the same model. The caller has checked that it is a listing
    /// without parameters, closed up, and that the scale is S^k; the run must have begun.
    pub fn hold(&mut self, value: &Listing, steps: u64, scale: u64) {
        self.value[..value.words().len()].copy_from_slice(value.words());
        self.numbers[ROWS] = value.len() as u64;
        self.numbers[STEPS] = steps;
        self.numbers[SCALE] = scale;
    }

    /// Puts in how many lines were answered, and whether one of them is not blank.
    pub fn set_lines(&mut self, lines: u64, met: bool) {
        self.numbers[LINES] = lines;
        self.numbers[MET] = u64::from(met);
    }
}
