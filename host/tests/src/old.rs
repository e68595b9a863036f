//! Document 02, L8: "Listings of the old kind meet 14." A diagram's words as document 01 alone has them.

use reference::diagram::{Diagram, Row};
use reference::terms::{is_minimum, is_variable, Label, Term, FIRST_VARIABLE};

const OLD_PLACES: usize = 4;
const OLD_TERM_BITS: usize = 6;
const OLD_FIRST_VARIABLE: Term = 32;
const OLD_VARIABLES: usize = 32;
pub const OLD_LEAF_MARK: u64 = 4_294_967_295;

/// Predicate and terms behind one another, the first place highest; none where a term stands behind the fourth place.
fn old_label(label: Label) -> Option<u64> {
    let places = label.places();
    let (places, behind) = places.split_at(OLD_PLACES);
    let term = |term: Term| if is_variable(term) { term - FIRST_VARIABLE + OLD_FIRST_VARIABLE } else { term };
    let packed = places.iter().fold(label.predicate(), |word, place| (word << OLD_TERM_BITS) + term(*place));
    behind.iter().all(|place| *place == 0).then_some(packed)
}

/// The old words of the diagram, closed up; none where it has too many places or variables for them, or a minimum variable.
pub fn old_listing(diagram: &Diagram) -> Option<Vec<u64>> {
    let words = |row: &Row| match *row {
        Row::Leaf(value) => Some([OLD_LEAF_MARK, value, 0]),
        Row::Branch { label, yes, no } => old_label(label).map(|label| [label, yes as u64, no as u64]),
    };
    let rows: Option<Vec<[u64; 3]>> = diagram.closed_up().rows().iter().map(words).collect();
    let variables = diagram.variables();
    rows.filter(|_| variables.len() <= OLD_VARIABLES && !variables.into_iter().any(is_minimum)).map(|rows| rows.concat())
}

#[cfg(test)]
mod examples {
    use super::*;
    use reference::terms::{Test, EQUALITY};

    /// The labels that document 01's run prints.
    #[test]
    fn of_document_01() {
        let words = |predicate, terms: &[Term]| old_listing(&Diagram::test(Test::atom(predicate, terms)));
        let test = |label| Some(vec![OLD_LEAF_MARK, 1, 0, OLD_LEAF_MARK, 0, 0, label, 0, 1]);
        assert_eq!(words(1, &[0]), test(16_777_216));
        assert_eq!(words(EQUALITY, &[FIRST_VARIABLE + 9, 0]), test(131_072));
        assert_eq!(words(1, &[1, 2, 3, 4, 5]), None);
    }
}
