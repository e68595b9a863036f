//! The library's calls on lent words, for callers who keep their own memory.
//!
//! Each function takes any words: those that are not what they should be are refused. After a refusal `result` and the counts are
//! as they were; words of `result` behind a result stay; `work` may hold anything before a call and holds nothing of use after
//! it. [`Space`](crate::Space) lends its own memory to these functions and is easier to use.

use crate::ffi;
use crate::refusal::{accepted, Refusal};

pub use crate::ffi::FULL;
pub use crate::memory::{LISTING_WORDS, NAME_WORDS, NUMBER_WORDS, SESSION_WORK_WORDS, STATE_WORDS, TABLE_WORDS, VALUE_WORDS};

/// The first word of a leaf's row.
pub const LEAF: u64 = u64::MAX;
/// The highest value of a leaf.
pub const VALUE: u64 = 1_000_000_000_000_000_000;
/// The places of a label, and so the highest arity.
pub const PLACES: usize = 6;
/// The bits that a term takes in a label; the predicate stands above them all.
pub const TERM_BITS: usize = 8;
/// The number of the first parameter.
pub const FIRST_PARAMETER: u64 = 16;
/// How many parameters there are.
pub const PARAMETERS: usize = 4;
/// The number of the first maximum variable.
pub const FIRST_VARIABLE: u64 = 64;
/// The number of the first minimum variable.
pub const FIRST_MINIMUM: u64 = 128;
/// How many variables of each kind there are.
pub const VARIABLES: usize = 64;
/// The objects of a state's constants, at most.
pub const CONSTANTS: usize = 16;
/// Words of an arity list.
pub const ARITIES: usize = 32;
/// Words of a row.
pub const ROW_WORDS: usize = 3;
/// Words that a result buffer has at least.
pub const RESULT_WORDS: usize = 3_072;
/// Words that a working space has at least.
pub const WORK_WORDS: usize = 6_144;
/// Words of a fact: its predicate and an object for each place.
pub const FACT_WORDS: usize = 1 + PLACES;
/// Words that say where truth diagrams stand: two for each predicate.
pub const SPAN_WORDS: usize = 64;

/// Whether the words are a listing.
///
/// # Refusals
/// [`Listing`](Refusal::Listing).
pub fn check(arities: &[u64], words: &[u64]) -> Result<(), Refusal> {
    // SAFETY: each pointer is to as many words as its count says.
    accepted(unsafe { ffi::yindolve_check(arities.as_ptr(), arities.len(), words.as_ptr(), words.len()) })
}

macro_rules! combinations {
    ($($(#[$about:meta])* $name:ident = $function:ident;)*) => {$(
        $(#[$about])*
        ///
        /// The result goes to `result`, its rows to `rows`, and the pairs that the walk reached to `pairs`.
        ///
        /// # Refusals
        /// In this order: [`Listing`](Refusal::Listing) for the first operand, then for the second; [`Buffer`](Refusal::Buffer);
        /// [`Variables`](Refusal::Variables) (apart only; each kind by itself); [`Pairs`](Refusal::Pairs); [`Value`](Refusal::Value) (never of a max);
        /// [`Space`](Refusal::Space).
        pub fn $name(
            arities: &[u64],
            first: &[u64],
            second: &[u64],
            result: &mut [u64],
            work: &mut [u64],
            rows: &mut u64,
            pairs: &mut u64,
        ) -> Result<(), Refusal> {
            // SAFETY: each pointer is to as many words as its count says, and what is written to overlaps nothing.
            accepted(unsafe {
                ffi::$function(
                    arities.as_ptr(),
                    arities.len(),
                    first.as_ptr(),
                    first.len(),
                    second.as_ptr(),
                    second.len(),
                    result.as_mut_ptr(),
                    result.len(),
                    work.as_mut_ptr(),
                    work.len(),
                    rows,
                    pairs,
                )
            })
        }
    )*};
}

combinations! {
    /// The sum, variables set apart.
    sum_apart = yindolve_sum_apart;
    /// The sum, names shared.
    sum_shared = yindolve_sum_shared;
    /// The product, variables set apart.
    product_apart = yindolve_product_apart;
    /// The product, names shared.
    product_shared = yindolve_product_shared;
    /// The maximum, variables set apart.
    max_apart = yindolve_max_apart;
    /// The maximum, names shared; with a minimum variable on either side it is [`max_apart`] in every respect.
    max_shared = yindolve_max_shared;
}

/// The regression of a value listing under truth diagrams: each test is replaced by what makes its atom true after an action.
///
/// The listing of predicate p's truth diagram is the `spans[2 * p + 1]` words of `truths` from word `spans[2 * p]` on; a count of
/// 0 is for a predicate that stays as it is. Words of `spans` that are not lent count as 0.
///
/// # Refusals
/// In this order: [`Listing`](Refusal::Listing) for the value listing, then for the truth diagrams by predicate;
/// [`Buffer`](Refusal::Buffer); diagram by diagram [`Truth`](Refusal::Truth), then [`Unbound`](Refusal::Unbound) for a variable
/// that is no argument, as every minimum variable; then step by step [`Pairs`](Refusal::Pairs) and [`Space`](Refusal::Space).
pub fn regress(
    arities: &[u64],
    words: &[u64],
    truths: &[u64],
    spans: &[u64],
    result: &mut [u64],
    work: &mut [u64],
    rows: &mut u64,
) -> Result<(), Refusal> {
    // SAFETY: each pointer is to as many words as its count says, and what is written to overlaps nothing.
    accepted(unsafe {
        ffi::yindolve_regress(
            arities.as_ptr(),
            arities.len(),
            words.as_ptr(),
            words.len(),
            truths.as_ptr(),
            truths.len(),
            spans.as_ptr(),
            spans.len(),
            result.as_mut_ptr(),
            result.len(),
            work.as_mut_ptr(),
            work.len(),
            rows,
        )
    })
}

/// Frees the parameters of an action that has `parameters` of them: they become maximum variables 0, 1, .., and the other maximum
/// variables move up by that count; minimum variables stay.
///
/// # Refusals
/// In this order: [`Listing`](Refusal::Listing); [`Buffer`](Refusal::Buffer); [`Range`](Refusal::Range) (more than 4 parameters);
/// [`Unbound`](Refusal::Unbound) (a parameter past the count); [`Variables`](Refusal::Variables) (a maximum variable would pass the
/// last one).
pub fn free(arities: &[u64], words: &[u64], parameters: u64, result: &mut [u64], work: &[u64], rows: &mut u64) -> Result<(), Refusal> {
    // SAFETY: each pointer is to as many words as its count says, and what is written to overlaps nothing.
    accepted(unsafe {
        ffi::yindolve_free_parameters(
            arities.as_ptr(),
            arities.len(),
            words.as_ptr(),
            words.len(),
            parameters,
            result.as_mut_ptr(),
            result.len(),
            work.as_ptr(),
            work.len(),
            rows,
        )
    })
}

/// Cuts one edge: it goes to leaf 0 without changing any value. The row whose edge went goes to `row`, 1 for its true edge or 0
/// for its false one to `edge`.
///
/// # Refusals
/// In this order: [`Listing`](Refusal::Listing); [`Buffer`](Refusal::Buffer); [`Minimum`](Refusal::Minimum); [`Paths`](Refusal::Paths);
/// [`Nothing`](Refusal::Nothing).
pub fn cut(
    arities: &[u64],
    words: &[u64],
    result: &mut [u64],
    work: &mut [u64],
    row: &mut u64,
    edge: &mut u64,
    rows: &mut u64,
) -> Result<(), Refusal> {
    // SAFETY: each pointer is to as many words as its count says, and what is written to overlaps nothing.
    accepted(unsafe {
        ffi::yindolve_cut(
            arities.as_ptr(),
            arities.len(),
            words.as_ptr(),
            words.len(),
            result.as_mut_ptr(),
            result.len(),
            work.as_mut_ptr(),
            work.len(),
            row,
            edge,
            rows,
        )
    })
}

/// Reduces by model checking: every edge that no winning path has goes to leaf 0, without changing any value.
///
/// A valuation gives each variable one of as many invented objects as there are variables; a combination is a path for each valuation, such that no
/// atom over these objects is both true and false; its winning path has the highest leaf and, of equal ones, the true edge where they part.
///
/// # Refusals
/// In this order: [`Listing`](Refusal::Listing); [`Buffer`](Refusal::Buffer); [`Unbound`](Refusal::Unbound) (any parameter);
/// [`Paths`](Refusal::Paths); [`Kinds`](Refusal::Kinds); [`Runs`](Refusal::Runs); [`Combinations`](Refusal::Combinations).
pub fn reduce(arities: &[u64], words: &[u64], result: &mut [u64], work: &mut [u64], rows: &mut u64) -> Result<(), Refusal> {
    // SAFETY: each pointer is to as many words as its count says, and what is written to overlaps nothing.
    accepted(unsafe {
        ffi::yindolve_reduce(
            arities.as_ptr(),
            arities.len(),
            words.as_ptr(),
            words.len(),
            result.as_mut_ptr(),
            result.len(),
            work.as_mut_ptr(),
            work.len(),
            rows,
        )
    })
}

/// The value of a listing in a state, to `value`: the highest, over its maximum variables, of the lowest leaf over its minimum variables.
///
/// `constants[c]` is the object of constant c, 0 for a constant that has no word; `facts` are rows of [`FACT_WORDS`] words. More than
/// 1,000,000 valuations, of variables of both kinds, are not gone through: a table for each row of the listing takes their place, 8,192
/// entries in all. With a minimum variable no tables do.
///
/// # Refusals
/// In this order: [`Listing`](Refusal::Listing); [`Range`](Refusal::Range) (no object, or one named that is not there);
/// [`Unbound`](Refusal::Unbound) (any parameter); [`Valuations`](Refusal::Valuations).
pub fn value(arities: &[u64], words: &[u64], objects: u64, constants: &[u64], facts: &[u64], value: &mut u64) -> Result<(), Refusal> {
    // SAFETY: each pointer is to as many words as its count says, and what is written to overlaps nothing.
    accepted(unsafe {
        ffi::yindolve_value(
            arities.as_ptr(),
            arities.len(),
            words.as_ptr(),
            words.len(),
            objects,
            constants.as_ptr(),
            constants.len(),
            facts.as_ptr(),
            facts.len(),
            value,
        )
    })
}
