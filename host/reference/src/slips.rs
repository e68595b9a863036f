//! Document 01, "Slips to keep out", and those for document 02: deliberately wrong versions, all off unless a test turns one on.

#[derive(Clone, Copy, Debug, Default, PartialEq, Eq)]
pub struct Slips {
    /// Sums over variants and with the reward under shared names.
    pub sums_shared: bool,
    /// Arguments of a truth diagram replaced one after another.
    pub arguments_in_turn: bool,
    /// A cut whose better path may use the cut edge.
    pub cover_through_edge: bool,
    /// A reduction over one invented object fewer than there are variables.
    pub one_object_fewer: bool,
    /// A reward whose variables are all written ?vN numbered by first occurrence all the same.
    pub first_occurrence: bool,
    /// Of moves with equal sums the last one.
    pub later_move: bool,
    /// States counted by the facts of those predicates alone that the value diagram tests.
    pub tested_facts_only: bool,
    /// Each truth diagram of a logged line read in the state that the ones before it have moved already.
    pub truths_in_turn: bool,
    /// The reward before a logged line added each time, not by the first alone.
    pub both_rewards: bool,
    /// The value diagram's number totalled in place of the reward.
    pub values_totalled: bool,
    /// The lowest, over the minimum variables, of the highest leaf over the maximum ones.
    pub lowest_outside: bool,
    /// The second operand's minimum variables not moved aside in a call apart.
    pub minimum_in_place: bool,
    /// A max of shared names done so though a side has a minimum variable.
    pub max_shared: bool,
    /// Freeing that moves minimum variables too.
    pub freeing_moves_all: bool,
}

impl Slips {
    pub const NONE: Slips = Slips {
        sums_shared: false,
        arguments_in_turn: false,
        cover_through_edge: false,
        one_object_fewer: false,
        first_occurrence: false,
        later_move: false,
        tested_facts_only: false,
        truths_in_turn: false,
        both_rewards: false,
        values_totalled: false,
        lowest_outside: false,
        minimum_in_place: false,
        max_shared: false,
        freeing_moves_all: false,
    };
}
