use crate::calls::{self, ARITIES, RESULT_WORDS, ROW_WORDS, SPAN_WORDS, WORK_WORDS};
use crate::listing::{Arities, Listing};
use crate::refusal::Refusal;
use crate::state::State;

/// A sum, product or maximum.
#[non_exhaustive]
#[derive(Clone, Debug, PartialEq, Eq)]
pub struct Combined {
    /// The result.
    pub listing: Listing,
    /// How many pairs of rows the walk over both operands reached, at most 4,096; in a product it does not go on below a leaf 0.
    pub pairs: u64,
}

/// A listing with one edge less.
#[non_exhaustive]
#[derive(Clone, Debug, PartialEq, Eq)]
pub struct Cut {
    /// The row of the listing before whose edge went to leaf 0.
    pub row: usize,
    /// Which edge of that row: the true one or the false one.
    pub edge: bool,
    /// What is left.
    pub listing: Listing,
}

/// The truth diagrams of an action's outcome: for a predicate, what it is afterwards. A predicate without one stays as it is.
///
/// A truth diagram has leaves 0 and 1; its variables 0, 1, .. are the arguments of its predicate; it may name the action's parameters, and no minimum variable.
#[derive(Clone, Debug)]
pub struct Truths {
    words: Vec<u64>,
    spans: [u64; SPAN_WORDS],
}

impl Truths {
    /// No truth diagram: every predicate stays as it is.
    pub fn new() -> Truths {
        Truths { words: Vec::new(), spans: [0; SPAN_WORDS] }
    }

    /// Gives a predicate, 1 to 31, its truth diagram.
    ///
    /// # Panics
    /// If there is no such predicate. Equality has no truth diagram: it stays as it is.
    pub fn set(&mut self, predicate: usize, truth: &Listing) -> &mut Truths {
        assert!((1..ARITIES).contains(&predicate), "predicates are numbered from 1 to 31");
        self.spans[2 * predicate] = self.words.len() as u64;
        self.spans[2 * predicate + 1] = truth.words().len() as u64;
        self.words.extend(truth.words());
        self
    }
}

impl Default for Truths {
    fn default() -> Truths {
        Truths::new()
    }
}

/// The operations on listings over one list of arities, with the memory that they need: 72 KB, made once and used by each call.
///
/// A call that is refused changes nothing. A space may move to another thread; different spaces may work at the same time.
///
/// ```
/// use yindolve::{fact, Arities, Label, Listing, Refusal, Row, Space, State, Term};
/// let arities = Arities::new(&[1])?;
/// let mut space = Space::new(arities);
/// let label = Label::new(1, &[Term::Variable(0)]);
/// let some = Listing::from_rows(&arities, [Row::Leaf(10), Row::Leaf(0), Row::Branch { label, yes: 0, no: 1 }])?;
/// // apart, the two operands choose their objects each on their own
/// let twice = space.sum_apart(&some, &some)?;
/// assert_eq!((twice.listing.len(), twice.pairs), (6, 7));
/// let state = State { objects: 2, facts: vec![fact(1, &[1])], ..State::default() };
/// assert_eq!(space.value(&twice.listing, &state)?, 20);
/// # Ok::<(), Refusal>(())
/// ```
#[derive(Clone)]
pub struct Space {
    arities: Arities,
    result: Box<[u64]>,
    work: Box<[u64]>,
}

impl std::fmt::Debug for Space {
    fn fmt(&self, f: &mut std::fmt::Formatter) -> std::fmt::Result {
        f.debug_struct("Space").field("arities", &self.arities).finish_non_exhaustive()
    }
}

type Combination = fn(&[u64], &[u64], &[u64], &mut [u64], &mut [u64], &mut u64, &mut u64) -> Result<(), Refusal>;

macro_rules! combinations {
    ($($(#[$about:meta])* $name:ident: $refusals:literal;)*) => {$(
        $(#[$about])*
        ///
        /// # Refusals
        #[doc = $refusals]
        pub fn $name(&mut self, first: &Listing, second: &Listing) -> Result<Combined, Refusal> {
            self.combined(calls::$name, first, second)
        }
    )*};
}

impl Space {
    /// A space for listings over these arities.
    pub fn new(arities: Arities) -> Space {
        Space { arities, result: vec![0; RESULT_WORDS].into(), work: vec![0; WORK_WORDS].into() }
    }

    /// The arities that listings are checked by.
    pub fn arities(&self) -> &Arities {
        &self.arities
    }

    fn written(&self, rows: u64) -> Listing {
        Listing::written(&self.result[..rows as usize * ROW_WORDS])
    }

    fn combined(&mut self, call: Combination, first: &Listing, second: &Listing) -> Result<Combined, Refusal> {
        let (mut rows, mut pairs) = (0, 0);
        call(self.arities.words(), first.words(), second.words(), &mut self.result, &mut self.work, &mut rows, &mut pairs)?;
        Ok(Combined { listing: self.written(rows), pairs })
    }

    combinations! {
        /// The sum of two listings, each with variables of its own: the first's of each kind are renamed to 0, 1, .. in their order,
        /// the second's follow, and those of the result are renamed likewise.
        sum_apart: "In this order: `Variables` (more than 64 of a kind, those of both together), `Pairs`, `Value`, `Space`.";
        /// The sum of two listings that share their variables.
        sum_shared: "In this order: `Pairs`, `Value`, `Space`.";
        /// The product of two listings, each with variables of its own.
        product_apart: "In this order: `Variables` (more than 64 of a kind, those of both together), `Pairs`, `Value`, `Space`.";
        /// The product of two listings that share their variables.
        product_shared: "In this order: `Pairs`, `Value`, `Space`.";
        /// The maximum of two listings, each with variables of its own.
        max_apart: "In this order: `Variables` (more than 64 of a kind, those of both together), `Pairs`, `Space`.";
        /// The maximum of two listings that share their variables. With a minimum variable on either side it is [`max_apart`](Space::max_apart)
        /// in every respect: a choice of the lowest leaf that served both sides could be another than each side's own.
        max_shared: "In this order: `Variables` (only where it is done apart), `Pairs`, `Space`.";
    }

    /// A value listing as it reads before an action's outcome: each test is replaced by what makes its atom true afterwards.
    ///
    /// # Refusals
    /// In this order: diagram by diagram `Truth` (a leaf above 1) and `Unbound` (a variable that is no argument of the
    /// predicate); then, step by step, `Pairs` and `Space`.
    ///
    /// ```
    /// use yindolve::{Arities, Label, Listing, Refusal, Row, Space, Term, Truths};
    /// let arities = Arities::new(&[1])?;
    /// let mut space = Space::new(arities);
    /// let test = |term| Label::new(1, &[term]);
    /// let of_hub = Listing::from_rows(
    ///     &arities,
    ///     [Row::Leaf(10), Row::Leaf(0), Row::Branch { label: test(Term::Constant(0)), yes: 0, no: 1 }],
    /// )?;
    /// // an action that turns predicate 1 over everywhere
    /// let turned = Listing::from_rows(
    ///     &arities,
    ///     [Row::Leaf(0), Row::Leaf(1), Row::Branch { label: test(Term::Variable(0)), yes: 0, no: 1 }],
    /// )?;
    /// let before = space.regress(&of_hub, Truths::new().set(1, &turned))?;
    /// let rows: Vec<Row> = before.rows().collect();
    /// assert_eq!(rows, [Row::Leaf(0), Row::Leaf(10), Row::Branch { label: test(Term::Constant(0)), yes: 0, no: 1 }]);
    /// # Ok::<(), Refusal>(())
    /// ```
    pub fn regress(&mut self, value: &Listing, truths: &Truths) -> Result<Listing, Refusal> {
        let mut rows = 0;
        let (words, spans) = (&truths.words, &truths.spans);
        calls::regress(self.arities.words(), value.words(), words, spans, &mut self.result, &mut self.work, &mut rows)?;
        Ok(self.written(rows))
    }

    /// Frees the parameters of an action that has so many of them: they become maximum variables 0, 1, .., and the other maximum
    /// variables move up by that count. Minimum variables stay.
    ///
    /// # Refusals
    /// In this order: `Range` (more than 4 parameters), `Unbound` (a parameter past the count), `Variables` (a maximum
    /// variable would pass the last one).
    pub fn free(&mut self, listing: &Listing, parameters: u64) -> Result<Listing, Refusal> {
        let mut rows = 0;
        calls::free(self.arities.words(), listing.words(), parameters, &mut self.result, &self.work, &mut rows)?;
        Ok(self.written(rows))
    }

    /// Cuts one edge of a listing: it goes to leaf 0, and the value in every state stays.
    ///
    /// # Refusals
    /// In this order: `Minimum` (a minimum variable), `Paths` (more than 256), `Nothing` (no edge may go).
    ///
    /// ```
    /// use yindolve::{Arities, Label, Listing, Refusal, Row, Space, Term};
    /// let arities = Arities::new(&[1])?;
    /// let mut space = Space::new(arities);
    /// let test = |variable| Label::new(1, &[Term::Variable(variable)]);
    /// // 10 if predicate 1 holds of some object, asked for twice
    /// let either = Listing::from_rows(
    ///     &arities,
    ///     [
    ///         Row::Leaf(10),
    ///         Row::Leaf(0),
    ///         Row::Branch { label: test(1), yes: 0, no: 1 },
    ///         Row::Branch { label: test(0), yes: 0, no: 2 },
    ///     ],
    /// )?;
    /// let cut = space.cut(&either)?;
    /// assert_eq!((cut.row, cut.edge, cut.listing.len()), (3, false, 3));
    /// assert_eq!(space.cut(&cut.listing), Err(Refusal::Nothing));
    /// # Ok::<(), Refusal>(())
    /// ```
    pub fn cut(&mut self, listing: &Listing) -> Result<Cut, Refusal> {
        let (mut row, mut edge, mut rows) = (0, 0, 0);
        calls::cut(self.arities.words(), listing.words(), &mut self.result, &mut self.work, &mut row, &mut edge, &mut rows)?;
        Ok(Cut { row: row as usize, edge: edge == 1, listing: self.written(rows) })
    }

    /// Reduces a listing by model checking: every edge that no winning path has goes to leaf 0, and the value in every state stays.
    /// It sees what several paths do together, which no [`cut`](Space::cut) does, and is for small diagrams without equality, constants and
    /// minimum variables.
    ///
    /// # Refusals
    /// In this order: `Unbound` (a parameter), `Paths` (more than 256), `Kinds` (an equality, a constant or a minimum variable), `Runs` (more than 512
    /// valuations times paths), `Combinations` (more than 100,000 combinations of paths).
    ///
    /// ```
    /// use yindolve::{Arities, Label, Listing, Refusal, Row, Space, Term};
    /// // predicate 1, stock, is about one branch; predicate 2, near, about two
    /// let arities = Arities::new(&[1, 2])?;
    /// let mut space = Space::new(arities);
    /// let stock = |branch| Label::new(1, &[Term::Variable(branch)]);
    /// let near = |one, other| Label::new(2, &[Term::Variable(one), Term::Variable(other)]);
    /// // 5 where a branch with stock is near one without, or near one that is
    /// let over_another = Listing::from_rows(
    ///     &arities,
    ///     [
    ///         Row::Leaf(0),
    ///         Row::Leaf(5),
    ///         Row::Branch { label: near(2, 1), yes: 1, no: 0 },
    ///         Row::Branch { label: near(0, 2), yes: 2, no: 0 },
    ///         Row::Branch { label: near(0, 1), yes: 1, no: 3 },
    ///         Row::Branch { label: stock(1), yes: 0, no: 4 },
    ///         Row::Branch { label: stock(0), yes: 5, no: 0 },
    ///     ],
    /// )?;
    /// // the branch in between has stock or has none: a step to it, or one from it, is enough
    /// assert_eq!(space.cut(&over_another), Err(Refusal::Nothing));
    /// assert_eq!(space.reduce(&over_another)?.len(), 5);
    /// # Ok::<(), Refusal>(())
    /// ```
    pub fn reduce(&mut self, listing: &Listing) -> Result<Listing, Refusal> {
        let mut rows = 0;
        calls::reduce(self.arities.words(), listing.words(), &mut self.result, &mut self.work, &mut rows)?;
        Ok(self.written(rows))
    }

    /// The value of a listing in a state: the highest leaf over all ways to choose an object for each of its variables. With minimum
    /// variables it is the highest, over the maximum variables, of the lowest leaf over the minimum ones.
    ///
    /// # Refusals
    /// In this order: `Range` (no object, or one named that is not there), `Unbound` (a parameter), `Valuations` (more than
    /// 1,000,000 ways, and more than 8,192 entries in the tables that take their place, or a minimum variable, with which none do).
    ///
    /// ```
    /// use yindolve::{fact, Arities, Label, Listing, Refusal, Row, Space, State, Term};
    /// let arities = Arities::new(&[2])?;
    /// let mut space = Space::new(arities);
    /// // 5 where one van serves all shelves
    /// let serves = Label::new(1, &[Term::Variable(0), Term::Minimum(0)]);
    /// let all = Listing::from_rows(&arities, [Row::Leaf(5), Row::Leaf(0), Row::Branch { label: serves, yes: 0, no: 1 }])?;
    /// let mut state = State { objects: 2, facts: vec![fact(1, &[0, 0]), fact(1, &[1, 1])], ..State::default() };
    /// assert_eq!(space.value(&all, &state)?, 0);
    /// state.facts.push(fact(1, &[0, 1]));
    /// assert_eq!(space.value(&all, &state)?, 5);
    /// assert_eq!(space.cut(&all), Err(Refusal::Minimum));
    /// # Ok::<(), Refusal>(())
    /// ```
    pub fn value(&self, listing: &Listing, state: &State) -> Result<u64, Refusal> {
        let mut value = 0;
        let facts = state.facts.as_flattened();
        calls::value(self.arities.words(), listing.words(), state.objects, &state.constants, facts, &mut value)?;
        Ok(value)
    }
}
