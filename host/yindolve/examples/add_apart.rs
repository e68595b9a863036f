//! A reward for a van at the hub and one for a van at the shop: added apart, two vans may earn one each; with names shared, one
//! van would have to earn both.

use yindolve::{fact, Arities, Label, Listing, Refusal, Row, Space, State, Term};

const HUB: Term = Term::Constant(0);
const SHOP: Term = Term::Constant(1);

fn main() -> Result<(), Refusal> {
    // predicate 1, at: of a van and a place
    let arities = Arities::new(&[2])?;
    let at = |place| Label::new(1, &[Term::Variable(0), place]);
    let reward = |place| Listing::from_rows(&arities, [Row::Leaf(10), Row::Leaf(0), Row::Branch { label: at(place), yes: 0, no: 1 }]);
    let (hub, shop) = (reward(HUB)?, reward(SHOP)?);

    let mut space = Space::new(arities);
    let apart = space.sum_apart(&hub, &shop)?;
    let shared = space.sum_shared(&hub, &shop)?;

    // objects: 0 the hub, 1 the shop, 2 a van at the hub, 3 a van at the shop
    let state = State { objects: 4, constants: vec![0, 1], facts: vec![fact(1, &[2, 0]), fact(1, &[3, 1])] };
    for (names, sum) in [("apart", apart), ("shared", shared)] {
        println!("{names}: {} rows, {} pairs, value {}", sum.listing.len(), sum.pairs, space.value(&sum.listing, &state)?);
    }
    Ok(())
}
