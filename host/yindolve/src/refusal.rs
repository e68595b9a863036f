use std::fmt;

/// Why a call or a line is refused: a number, a trade word, and what they mean.
///
/// A refused call leaves everything as it was. Which refusals an operation can answer, and in which order it checks for them,
/// stands with the operation; `docs/REFERENCE.md` has each one's usual causes and remedies. Later versions may add numbers.
///
/// ```
/// use yindolve::Refusal;
/// let refusal = Refusal::from_number(13).unwrap();
/// assert_eq!((refusal.number(), refusal.word()), (13, "weights"));
/// assert_eq!(refusal.to_string(), "refused, 13 (weights): an action's weights, summed, are not the total in a case that equality does not rule out");
/// ```
#[non_exhaustive]
#[derive(Clone, Copy, Debug, PartialEq, Eq, PartialOrd, Ord, Hash)]
pub enum Refusal {
    /// A line that is not of the grammar.
    Form = 1,
    /// A name that is not declared, or that is given twice.
    Name = 2,
    /// A count of terms or objects that is not the predicate's, or in `(did ..)` not that of the action's parameters.
    Arity = 3,
    /// A number outside its range; a state without objects or with an object beyond them; more than 4 parameters.
    Range = 4,
    /// A line in the wrong part of the text, a missing part, a second single form, or a constant that is not placed (for `(best)` [`Missing`](Refusal::Missing)).
    Place = 5,
    /// A variable or a parameter that is not allowed here.
    Unbound = 6,
    /// A truth diagram's leaf above 1.
    Truth = 7,
    /// More than 64 variables of a kind, or a maximum variable past the last one.
    Variables = 8,
    /// More rows, facts or declarations than there is room for.
    Space = 9,
    /// More than 4,096 pairs.
    Pairs = 10,
    /// A value above 10^18.
    Value = 11,
    /// A power of the scale above 10^18, or 10^18 steps.
    Scale = 12,
    /// Weights of an action that do not add up to the total, on a path that does not contradict itself by equality.
    Weights = 13,
    /// Words that are no listing, or a wrong arity list.
    Listing = 14,
    /// More than 1,000,000 valuations, and more than 8,192 entries in the tables that take their place, or a minimum variable, with which none do.
    Valuations = 15,
    /// No edge to cut.
    Nothing = 16,
    /// More than 256 paths: of a diagram to cut or to reduce, or at `(start)` of an action's summed weights.
    Paths = 17,
    /// A result buffer or a working space that is too small.
    Buffer = 18,
    /// The value diagram, written as a form by `(text)`, is too long for a `(reward ..)` line: more than 4,095 bytes or 64 open brackets.
    Length = 19,
    /// `(best)` where there is no state, or a constant is not placed.
    Missing = 20,
    /// The variant of a `(did ..)` line has weight 0 in the state.
    Weightless = 21,
    /// The state behind a `(did ..)` line has more than 1,024 facts.
    Crowded = 22,
    /// The count of `(did ..)` lines, or the total of their rewards, would pass 10^18.
    Tally = 23,
    /// More than 16 ground facts of the states that `(count n)` is to count.
    Ground = 24,
    /// A minimum variable in a diagram to cut.
    Minimum = 25,
    /// An equality, a constant or a minimum variable in a diagram to reduce.
    Kinds = 26,
    /// More than 512 valuations times paths of a diagram to reduce.
    Runs = 27,
    /// More than 100,000 combinations of paths in a reduction.
    Combinations = 28,
}

impl Refusal {
    /// All refusals, in the order of their numbers.
    pub const ALL: &'static [Refusal] = &[
        Refusal::Form,
        Refusal::Name,
        Refusal::Arity,
        Refusal::Range,
        Refusal::Place,
        Refusal::Unbound,
        Refusal::Truth,
        Refusal::Variables,
        Refusal::Space,
        Refusal::Pairs,
        Refusal::Value,
        Refusal::Scale,
        Refusal::Weights,
        Refusal::Listing,
        Refusal::Valuations,
        Refusal::Nothing,
        Refusal::Paths,
        Refusal::Buffer,
        Refusal::Length,
        Refusal::Missing,
        Refusal::Weightless,
        Refusal::Crowded,
        Refusal::Tally,
        Refusal::Ground,
        Refusal::Minimum,
        Refusal::Kinds,
        Refusal::Runs,
        Refusal::Combinations,
    ];

    /// The refusal's number.
    pub const fn number(self) -> u64 {
        self as u64
    }

    /// The refusal of a number, if there is one.
    pub fn from_number(number: u64) -> Option<Refusal> {
        Refusal::ALL.iter().copied().find(|refusal| refusal.number() == number)
    }

    /// The trade word.
    pub const fn word(self) -> &'static str {
        match self {
            Refusal::Form => "form",
            Refusal::Name => "name",
            Refusal::Arity => "arity",
            Refusal::Range => "range",
            Refusal::Place => "place",
            Refusal::Unbound => "unbound",
            Refusal::Truth => "truth",
            Refusal::Variables => "variables",
            Refusal::Space => "space",
            Refusal::Pairs => "pairs",
            Refusal::Value => "value",
            Refusal::Scale => "scale",
            Refusal::Weights => "weights",
            Refusal::Listing => "listing",
            Refusal::Valuations => "valuations",
            Refusal::Nothing => "nothing",
            Refusal::Paths => "paths",
            Refusal::Buffer => "buffer",
            Refusal::Length => "length",
            Refusal::Missing => "missing",
            Refusal::Weightless => "weightless",
            Refusal::Crowded => "crowded",
            Refusal::Tally => "tally",
            Refusal::Ground => "ground",
            Refusal::Minimum => "minimum",
            Refusal::Kinds => "kinds",
            Refusal::Runs => "runs",
            Refusal::Combinations => "combinations",
        }
    }

    /// What it means, in one sentence.
    pub const fn meaning(self) -> &'static str {
        match self {
            Refusal::Form => "the line is not of the grammar: brackets, spaces, the count or the kind of its words",
            Refusal::Name => "a name that is not declared on an earlier accepted line, or one that is given twice",
            Refusal::Arity => "not as many terms or objects as the predicate has places, or the action parameters",
            Refusal::Range => "a number outside its range, or an object that is not there",
            Refusal::Place => "the line stands in the wrong part of the text, a part is missing, or a constant is not placed",
            Refusal::Unbound => "a variable or a parameter that is not allowed here",
            Refusal::Truth => "a diagram that says what becomes true has a number above 1",
            Refusal::Variables => "more than 64 variables of a kind",
            Refusal::Space => "more rows, facts or declarations than there is room for",
            Refusal::Pairs => "more than 4,096 pairs of rows in one combination",
            Refusal::Value => "a number above 10^18 was worked out",
            Refusal::Scale => "the scale, the power of total times discount divisor, would pass 10^18",
            Refusal::Weights => "an action's weights, summed, are not the total in a case that equality does not rule out",
            Refusal::Listing => "the words are no listing, or the arity list is wrong",
            Refusal::Valuations => "more than 1,000,000 ways to choose objects for the variables, and no tables in their place: these would have more than 8,192 entries, or there is a minimum variable",
            Refusal::Nothing => "no edge is left to cut",
            Refusal::Paths => "more than 256 paths, in the diagram to cut or to reduce or in an action's summed weights",
            Refusal::Buffer => "a result buffer or a working space that is too small",
            Refusal::Length => "the value diagram, written as a form, is too long for a (reward ..) line: more than 4,095 bytes or 64 open brackets",
            Refusal::Missing => "a move is asked for, and there is no state or a constant is not placed",
            Refusal::Weightless => "a logged line whose outcome has weight 0 in the state",
            Refusal::Crowded => "a logged line that leads to a state of more than 1,024 facts",
            Refusal::Tally => "the count of logged lines or the total of their rewards would pass 10^18",
            Refusal::Ground => "more than 16 ground facts, so that there are too many states to count",
            Refusal::Minimum => "a minimum variable in the diagram to cut",
            Refusal::Kinds => "an equality, a constant or a minimum variable in the diagram to reduce",
            Refusal::Runs => "more than 512 valuations times paths of the diagram to reduce",
            Refusal::Combinations => "more than 100,000 combinations of paths in a reduction",
        }
    }
}

impl fmt::Display for Refusal {
    fn fmt(&self, f: &mut fmt::Formatter) -> fmt::Result {
        write!(f, "refused, {} ({}): {}", self.number(), self.word(), self.meaning())
    }
}

impl std::error::Error for Refusal {}

/// A call's answer: 0, or the number of a refusal.
pub(crate) fn accepted(number: u64) -> Result<(), Refusal> {
    match number {
        0 => Ok(()),
        number => Err(Refusal::from_number(number).expect("the library answers 0 or a refusal")),
    }
}
