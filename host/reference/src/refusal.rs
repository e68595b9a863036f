//! Document 01, "Refusals by trade word", and the numbers of document 02.

#[derive(Clone, Copy, Debug, PartialEq, Eq, PartialOrd, Ord, Hash)]
pub enum Refusal {
    Form = 1,
    Name,
    Arity,
    Range,
    Place,
    Unbound,
    Truth,
    Variables,
    Space,
    Pairs,
    Value,
    Scale,
    Weights,
    Listing,
    Valuations,
    Nothing,
    Paths,
    Buffer,
    Length,
    Missing,
    Weightless,
    Crowded,
    Tally,
    Ground,
    Minimum,
    Kinds,
    Runs,
    Combinations,
}

impl Refusal {
    /// All of them, by number.
    pub const ALL: [Refusal; 28] = {
        use Refusal::*;
        [
            Form,
            Name,
            Arity,
            Range,
            Place,
            Unbound,
            Truth,
            Variables,
            Space,
            Pairs,
            Value,
            Scale,
            Weights,
            Listing,
            Valuations,
            Nothing,
            Paths,
            Buffer,
            Length,
            Missing,
            Weightless,
            Crowded,
            Tally,
            Ground,
            Minimum,
            Kinds,
            Runs,
            Combinations,
        ]
    };

    pub fn number(self) -> u64 {
        self as u64
    }
}

/// `Ok` where the condition holds, the refusal where it does not.
pub fn require(condition: bool, otherwise: Refusal) -> Result<(), Refusal> {
    if condition {
        Ok(())
    } else {
        Err(otherwise)
    }
}
