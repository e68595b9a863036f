//! Lent listings as words, and their check, refusal 14 (document 01, "Terms, labels, listings").

use crate::diagram::{Diagram, Row, Space, LARGEST, ROWS};
use crate::refusal::{require, Refusal};
use crate::terms::{is_constant, is_parameter, is_variable, Arities, Label, EQUALITY, LARGEST_ARITY, LEAF_MARK, PREDICATES};

pub const ROW_WORDS: usize = 3;

/// Exactly 32 arities, equality's 2 first, none above the highest.
pub fn read_arities(words: &[u64]) -> Result<Arities, Refusal> {
    let arities: Arities = words.try_into().map_err(|_| Refusal::Listing)?;
    require(arities[EQUALITY as usize] == 2, Refusal::Listing)?;
    require(arities.iter().all(|arity| *arity <= LARGEST_ARITY), Refusal::Listing)?;
    Ok(arities)
}

fn is_label(word: u64, arities: &Arities) -> bool {
    let label = Label(word);
    if label.predicate() >= PREDICATES as u64 {
        return false;
    }
    let places = label.places();
    let arity = arities[label.predicate() as usize] as usize;
    let used = places[..arity].iter().all(|t| is_constant(*t) || is_parameter(*t) || is_variable(*t));
    let unused = places[arity..].iter().all(|t| *t == 0);
    used && unused && (label.predicate() != EQUALITY || places[0] < places[1])
}

/// The row that three words stand for, if they stand for one at this row number.
fn read_row(words: &[u64], number: usize, above: &[Row], arities: &Arities) -> Option<Row> {
    let (first, second, third) = (words[0], words[1], words[2]);
    if first == LEAF_MARK {
        return (second <= LARGEST && third == 0).then_some(Row::Leaf(second));
    }
    // A child is finished before its parent, so its number is lower.
    if !is_label(first, arities) || second >= number as u64 || third >= number as u64 || second == third {
        return None;
    }
    let (label, yes, no) = (Label(first), second as usize, third as usize);
    let lower = |child: usize| match above[child] {
        Row::Leaf(_) => true,
        Row::Branch { label: childs, .. } => label < childs,
    };
    (lower(yes) && lower(no)).then_some(Row::Branch { label, yes, no })
}

/// The diagram that the words list, or 14.
pub fn read_listing(words: &[u64], arities: &Arities) -> Result<Diagram, Refusal> {
    let count = words.len() / ROW_WORDS;
    require(words.len().is_multiple_of(ROW_WORDS) && (1..=ROWS).contains(&count), Refusal::Listing)?;
    let mut rows: Vec<Row> = Vec::new();
    for (number, words) in words.chunks(ROW_WORDS).enumerate() {
        let row = read_row(words, number, &rows, arities).ok_or(Refusal::Listing)?;
        require(!rows.contains(&row), Refusal::Listing)?;
        rows.push(row);
    }
    // The walk from the last row reaches all rows and finishes them in the order lent.
    let mut space = Space::new();
    for row in &rows {
        space.form(*row).expect("at most 1,024 rows");
    }
    let diagram = space.diagram(count - 1);
    require(diagram.rows() == rows, Refusal::Listing)?;
    Ok(diagram)
}

pub fn write_listing(diagram: &Diagram) -> Vec<u64> {
    let words = |row: &Row| match *row {
        Row::Leaf(value) => [LEAF_MARK, value, 0],
        Row::Branch { label, yes, no } => [label.0, yes as u64, no as u64],
    };
    diagram.rows().iter().flat_map(words).collect()
}
