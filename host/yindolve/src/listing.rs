use crate::calls::{self, FIRST_MINIMUM, FIRST_PARAMETER, FIRST_VARIABLE};
use crate::calls::{ARITIES, CONSTANTS, LEAF, PARAMETERS, PLACES, ROW_WORDS, TERM_BITS, VARIABLES};
use crate::refusal::Refusal;
use std::collections::BTreeSet;

const LAST_CONSTANT: u64 = CONSTANTS as u64 - 1;
const LAST_PARAMETER: u64 = FIRST_PARAMETER + PARAMETERS as u64 - 1;
const LAST_VARIABLE: u64 = FIRST_VARIABLE + VARIABLES as u64 - 1;
const LAST_MINIMUM: u64 = FIRST_MINIMUM + VARIABLES as u64 - 1;

/// How many terms each predicate has.
///
/// ```
/// use yindolve::Arities;
/// // predicate 1 has one term, predicate 2 two; equality, predicate 0, always has two
/// let arities = Arities::new(&[1, 2])?;
/// assert_eq!(arities.words()[..4], [2, 1, 2, 0]);
/// # Ok::<(), yindolve::Refusal>(())
/// ```
#[derive(Clone, Copy, Debug, PartialEq, Eq, Hash)]
pub struct Arities([u64; ARITIES]);

impl Arities {
    /// The arities of predicates 1, 2, ..; predicates behind the last have arity 0.
    ///
    /// # Refusals
    /// [`Listing`](Refusal::Listing): more than 31 predicates, or an arity above 6.
    pub fn new(predicates: &[u64]) -> Result<Arities, Refusal> {
        let mut words = [0; ARITIES];
        words[0] = 2;
        words.get_mut(1..=predicates.len()).ok_or(Refusal::Listing)?.copy_from_slice(predicates);
        let arities = Arities(words);
        calls::check(&arities.0, &Row::Leaf(0).words()).map(|()| arities)
    }

    /// What the library wrote.
    pub(crate) fn written(words: [u64; ARITIES]) -> Arities {
        Arities(words)
    }

    /// The list as it is lent to the library, equality's arity first.
    pub fn words(&self) -> &[u64; ARITIES] {
        &self.0
    }
}

/// What an atom is about. Later versions may add a kind.
#[non_exhaustive]
#[derive(Clone, Copy, Debug, PartialEq, Eq, PartialOrd, Ord, Hash)]
pub enum Term {
    /// A constant, 0 to 15.
    Constant(u8),
    /// A parameter of an action, 0 to 3.
    Parameter(u8),
    /// A maximum variable, 0 to 63: it is chosen so that the leaf is highest.
    Variable(u8),
    /// A minimum variable, 0 to 63: it is chosen behind all maximum variables, so that the leaf is lowest.
    Minimum(u8),
}

impl Term {
    /// The term's number: constants from 0, parameters from 16, maximum variables from 64 and minimum variables from 128 on.
    ///
    /// # Panics
    /// If there is no such constant, parameter or variable.
    pub const fn number(self) -> u64 {
        match self {
            Term::Constant(c) if (c as usize) < CONSTANTS => c as u64,
            Term::Parameter(p) if (p as usize) < PARAMETERS => FIRST_PARAMETER + p as u64,
            Term::Variable(v) if (v as usize) < VARIABLES => FIRST_VARIABLE + v as u64,
            Term::Minimum(v) if (v as usize) < VARIABLES => FIRST_MINIMUM + v as u64,
            _ => panic!("there are 16 constants, 4 parameters and 64 variables of each kind"),
        }
    }

    /// The term of a number, if it is one.
    pub const fn from_number(number: u64) -> Option<Term> {
        match number {
            0..=LAST_CONSTANT => Some(Term::Constant(number as u8)),
            FIRST_PARAMETER..=LAST_PARAMETER => Some(Term::Parameter((number - FIRST_PARAMETER) as u8)),
            FIRST_VARIABLE..=LAST_VARIABLE => Some(Term::Variable((number - FIRST_VARIABLE) as u8)),
            FIRST_MINIMUM..=LAST_MINIMUM => Some(Term::Minimum((number - FIRST_MINIMUM) as u8)),
            _ => None,
        }
    }
}

/// What a branch tests: a predicate and its terms, packed into a number. Labels are ordered as these numbers.
///
/// ```
/// use yindolve::{Label, Term};
/// let stock_of_hub = Label::new(1, &[Term::Constant(0)]);
/// assert_eq!(stock_of_hub.word(), 281_474_976_710_656);
/// assert_eq!(Label::equality(Term::Variable(0), Term::Constant(0)).unwrap().word(), 274_877_906_944);
/// ```
#[derive(Clone, Copy, Debug, PartialEq, Eq, PartialOrd, Ord, Hash)]
pub struct Label(u64);

impl Label {
    /// The label of a predicate, 1 to 31, and its terms. Whether the predicate has so many terms is checked with a listing.
    ///
    /// # Panics
    /// If there is no such predicate (equality has a function of its own), a term is none, or there are more than 6.
    pub const fn new(predicate: u64, terms: &[Term]) -> Label {
        assert!(1 <= predicate && predicate < ARITIES as u64, "predicates are numbered from 1 to 31");
        assert!(terms.len() <= PLACES, "a predicate has at most 6 terms");
        Label::pack(predicate, terms)
    }

    /// The label of `first = second`, or none for `t = t`, which is plain truth.
    ///
    /// # Panics
    /// If a term is none.
    pub const fn equality(first: Term, second: Term) -> Option<Label> {
        let (a, b) = (first.number(), second.number());
        if a == b {
            None
        } else if a < b {
            Some(Label::pack(0, &[first, second]))
        } else {
            Some(Label::pack(0, &[second, first]))
        }
    }

    const fn pack(predicate: u64, terms: &[Term]) -> Label {
        let mut word = predicate << (TERM_BITS * PLACES);
        let mut place = 0;
        while place < terms.len() {
            word += terms[place].number() << Label::bit_of(place);
            place += 1;
        }
        Label(word)
    }

    /// The lowest bit of a place; the first place is the highest.
    const fn bit_of(place: usize) -> usize {
        TERM_BITS * (PLACES - 1 - place)
    }

    /// The label that a word is taken for.
    pub const fn from_word(word: u64) -> Label {
        Label(word)
    }

    /// The label as a number.
    pub const fn word(self) -> u64 {
        self.0
    }

    /// The predicate, 0 for equality.
    pub const fn predicate(self) -> u64 {
        self.0 >> (TERM_BITS * PLACES)
    }

    /// The terms, given the predicate's arity; places that hold no term are left out.
    pub fn terms(self, arities: &Arities) -> impl Iterator<Item = Term> {
        let arity = arities.words().get(self.predicate() as usize).copied().unwrap_or(0);
        (0..arity as usize).filter_map(move |place| Term::from_number(self.0 >> Label::bit_of(place) & ((1 << TERM_BITS) - 1)))
    }
}

/// A row of a listing: there are these two kinds and no other.
#[derive(Clone, Copy, Debug, PartialEq, Eq, Hash)]
pub enum Row {
    /// A leaf and its value, at most 10^18.
    Leaf(u64),
    /// A test with the rows to go on with.
    Branch {
        /// What is tested.
        label: Label,
        /// The row where the test is true.
        yes: usize,
        /// The row where the test is false.
        no: usize,
    },
}

impl Row {
    /// The row as the library has it.
    pub const fn words(self) -> [u64; ROW_WORDS] {
        match self {
            Row::Leaf(value) => [LEAF, value, 0],
            Row::Branch { label, yes, no } => [label.word(), yes as u64, no as u64],
        }
    }

    fn from_words(words: &[u64]) -> Row {
        match *words {
            [LEAF, value, _] => Row::Leaf(value),
            [label, yes, no] => Row::Branch { label: Label(label), yes: yes as usize, no: no as usize },
            _ => unreachable!("a row has three words"),
        }
    }
}

/// A decision diagram as the list of its rows, the root last.
///
/// The words were checked when the listing was made, or the library made them. An operation checks them again by its own arities,
/// and refuses ([`Refusal::Listing`]) a listing that was made for others that do not fit.
///
/// ```
/// use yindolve::{Arities, Label, Listing, Refusal, Row, Term};
/// let arities = Arities::new(&[1])?;
/// let label = Label::new(1, &[Term::Constant(0)]);
/// // 10 if predicate 1 holds of constant 0, else 0
/// let listing = Listing::from_rows(&arities, [Row::Leaf(10), Row::Leaf(0), Row::Branch { label, yes: 0, no: 1 }])?;
/// assert_eq!(listing.len(), 3);
/// assert_eq!(listing.rows().next(), Some(Row::Leaf(10)));
/// // a branch whose two ways are one
/// let refused = Listing::from_rows(&arities, [Row::Leaf(10), Row::Branch { label, yes: 0, no: 0 }]);
/// assert_eq!(refused, Err(Refusal::Listing));
/// # Ok::<(), Refusal>(())
/// ```
#[derive(Clone, Debug, PartialEq, Eq, Hash)]
pub struct Listing(Vec<u64>);

impl Listing {
    /// A listing from its words, three for each row.
    ///
    /// # Refusals
    /// [`Listing`](Refusal::Listing): the words are no listing under these arities.
    pub fn new(arities: &Arities, words: impl Into<Vec<u64>>) -> Result<Listing, Refusal> {
        let words = words.into();
        calls::check(arities.words(), &words).map(|()| Listing(words))
    }

    /// A listing from its rows.
    ///
    /// # Refusals
    /// [`Listing`](Refusal::Listing): the rows are no listing under these arities.
    pub fn from_rows(arities: &Arities, rows: impl IntoIterator<Item = Row>) -> Result<Listing, Refusal> {
        Listing::new(arities, rows.into_iter().flat_map(Row::words).collect::<Vec<u64>>())
    }

    /// What the library wrote.
    pub(crate) fn written(words: &[u64]) -> Listing {
        Listing(words.to_vec())
    }

    /// The words, three for each row.
    pub fn words(&self) -> &[u64] {
        &self.0
    }

    /// Whether no parameter occurs, and of each kind the variables that occur are 0, 1, .. without a gap.
    pub(crate) fn is_closed(&self, arities: &Arities) -> bool {
        let (mut maximum, mut minimum) = (BTreeSet::new(), BTreeSet::new());
        for row in self.rows() {
            let Row::Branch { label, .. } = row else { continue };
            for term in label.terms(arities) {
                match term {
                    Term::Constant(_) => {}
                    Term::Parameter(_) => return false,
                    Term::Variable(variable) => drop(maximum.insert(variable)),
                    Term::Minimum(variable) => drop(minimum.insert(variable)),
                }
            }
        }
        [maximum, minimum].iter().all(|kind| kind.iter().copied().eq(0..kind.len() as u8))
    }

    /// How many rows there are, 1 to 1,024.
    #[allow(clippy::len_without_is_empty)]
    pub fn len(&self) -> usize {
        self.0.len() / ROW_WORDS
    }

    /// The rows in the order of their numbers, the root last.
    pub fn rows(&self) -> impl ExactSizeIterator<Item = Row> + '_ {
        self.0.chunks_exact(ROW_WORDS).map(Row::from_words)
    }
}
