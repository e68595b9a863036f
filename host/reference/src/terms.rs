//! Document 01, "Terms, labels, listings": terms and labels, as wide as document 02 makes them (L8), with its minimum variables (L12). Every number of the packing stands here, once.

/// A constant (0 to 15), an action parameter (16 to 19), a maximum variable (64 to 127) or a minimum variable (128 to 191).
pub type Term = u64;

pub const CONSTANTS: u64 = 16;
pub const FIRST_PARAMETER: Term = 16;
pub const PARAMETERS: u64 = 4;
/// The first maximum variable.
pub const FIRST_VARIABLE: Term = 64;
pub const FIRST_MINIMUM: Term = 128;
/// Variables of each kind.
pub const VARIABLES: u64 = 64;
/// The last maximum variable.
pub const LAST_VARIABLE: Term = FIRST_VARIABLE + VARIABLES - 1;
pub const LAST_MINIMUM: Term = FIRST_MINIMUM + VARIABLES - 1;

pub const EQUALITY: u64 = 0;
/// Equality and predicates 1 to 31.
pub const PREDICATES: usize = 32;
/// The terms that a label has room for, and so the highest arity.
pub const PLACES: usize = 6;
pub const LARGEST_ARITY: u64 = PLACES as u64;

/// The bits that a term takes in a label; the predicate stands above them all.
pub const TERM_BITS: usize = 8;
pub const PREDICATE_BIT: usize = TERM_BITS * PLACES;
/// The first word of a leaf's row, which is no label.
pub const LEAF_MARK: u64 = u64::MAX;

/// The arity of each predicate; the first is equality's, 2.
pub type Arities = [u64; PREDICATES];

pub fn is_constant(term: Term) -> bool {
    term < CONSTANTS
}

pub fn is_parameter(term: Term) -> bool {
    (FIRST_PARAMETER..FIRST_PARAMETER + PARAMETERS).contains(&term)
}

/// Of either kind.
pub fn is_variable(term: Term) -> bool {
    VariableKind::of(term).is_some()
}

pub fn is_minimum(term: Term) -> bool {
    VariableKind::of(term) == Some(VariableKind::Minimum)
}

/// What a variable chooses: a maximum variable, ?name, the highest leaf, outside; a minimum variable, %name, the lowest, inside.
#[derive(Clone, Copy, Debug, PartialEq, Eq, PartialOrd, Ord)]
pub enum VariableKind {
    Maximum,
    Minimum,
}

impl VariableKind {
    pub const ALL: [VariableKind; 2] = [VariableKind::Maximum, VariableKind::Minimum];

    /// The kind of a term that is a variable.
    pub fn of(term: Term) -> Option<VariableKind> {
        VariableKind::ALL.into_iter().find(|kind| (kind.first()..=kind.last()).contains(&term))
    }

    pub fn first(self) -> Term {
        match self {
            VariableKind::Maximum => FIRST_VARIABLE,
            VariableKind::Minimum => FIRST_MINIMUM,
        }
    }

    pub fn last(self) -> Term {
        match self {
            VariableKind::Maximum => LAST_VARIABLE,
            VariableKind::Minimum => LAST_MINIMUM,
        }
    }

    /// The sign before its name in a text.
    pub fn sign(self) -> char {
        match self {
            VariableKind::Maximum => '?',
            VariableKind::Minimum => '%',
        }
    }
}

/// A variable as (text) writes it, by its place in its kind: ?v0, ?v1, .. and %v0, %v1, ..
pub fn written_variable(term: Term) -> Option<String> {
    VariableKind::of(term).map(|kind| format!("{}v{}", kind.sign(), term - kind.first()))
}

/// predicate · 2^48 + t1 · 2^40 + t2 · 2^32 + .. + t6: eight bits a term, the first place highest. Unused places are 0, so labels compare as these numbers.
#[derive(Clone, Copy, Debug, PartialEq, Eq, PartialOrd, Ord, Hash)]
pub struct Label(pub u64);

impl Label {
    pub fn pack(predicate: u64, terms: &[Term]) -> Label {
        let places = terms.iter().enumerate().map(|(place, term)| term << Label::bit_of(place));
        Label((predicate << PREDICATE_BIT) + places.sum::<u64>())
    }

    /// The lowest bit of a place.
    fn bit_of(place: usize) -> usize {
        TERM_BITS * (PLACES - 1 - place)
    }

    pub fn predicate(self) -> u64 {
        self.0 >> PREDICATE_BIT
    }

    /// All six places, unused ones included.
    pub fn places(self) -> [Term; PLACES] {
        std::array::from_fn(|place| self.0 >> Label::bit_of(place) & ((1 << TERM_BITS) - 1))
    }

    /// The label with every term replaced, all together. An unused place holds 0, which is a constant, and
    /// constants are replaced by themselves.
    pub fn replaced(self, replacement: &impl Fn(Term) -> Term) -> Test {
        let terms = self.places().map(replacement);
        if self.predicate() == EQUALITY {
            Test::atom(EQUALITY, &terms[..2])
        } else {
            Test::atom(self.predicate(), &terms)
        }
    }
}

/// What an atom tests: a label, or plain truth where the atom is t = t.
#[derive(Clone, Copy, Debug, PartialEq, Eq)]
pub enum Test {
    Always,
    Is(Label),
}

impl Test {
    /// Equality has its smaller term first; t = t is no label.
    pub fn atom(predicate: u64, terms: &[Term]) -> Test {
        if predicate != EQUALITY {
            return Test::Is(Label::pack(predicate, terms));
        }
        let (a, b) = (terms[0], terms[1]);
        if a == b {
            Test::Always
        } else {
            Test::Is(Label::pack(EQUALITY, &[a.min(b), a.max(b)]))
        }
    }
}
