//! Each slip changes the stored answers of one text.

use reference::session::{answers, run};
use reference::slips::Slips;

fn stored(name: &str) -> (Vec<u8>, String) {
    let read = |extension| std::fs::read(format!("{}/../corpus/{name}.{extension}", env!("CARGO_MANIFEST_DIR"))).expect(name);
    (read("txt"), String::from_utf8(read("out")).expect("plain text"))
}

fn caught(name: &str, slips: Slips) -> bool {
    let (text, right) = stored(name);
    assert_eq!(String::from_utf8(run(&text)).expect("plain text"), right);
    let wrong: String = answers(&text, slips).iter().map(|answer| answer.print()).collect();
    wrong != right
}

#[test]
fn sums_under_shared_names() {
    let slips = Slips { sums_shared: true, ..Slips::NONE };
    assert!(caught("meaning-two-vans", slips));
    assert!(caught("meaning-reward-apart", slips));
}

#[test]
fn arguments_in_turn() {
    let slips = Slips { arguments_in_turn: true, ..Slips::NONE };
    assert!(caught("meaning-arguments-together", slips));
    assert!(caught("meaning-arguments-exchanged", slips));
    assert!(caught("meaning-six-arguments", slips));
}

#[test]
fn a_better_path_through_the_cut_edge() {
    assert!(caught("meaning-cut-edge-not-used", Slips { cover_through_edge: true, ..Slips::NONE }));
}

#[test]
fn a_reduction_over_one_object_fewer() {
    assert!(caught("meaning-reduction-over-all-objects", Slips { one_object_fewer: true, ..Slips::NONE }));
}

#[test]
fn a_form_numbered_by_first_occurrence() {
    let slips = Slips { first_occurrence: true, ..Slips::NONE };
    assert!(caught("text-read-back-in-another-order", slips));
    assert!(caught("numbering-ascending", slips));
}

#[test]
fn the_last_of_moves_with_equal_sums() {
    let slips = Slips { later_move: true, ..Slips::NONE };
    assert!(caught("best-lowest-objects-on-a-tie", slips));
    assert!(caught("best-earlier-action-on-a-tie", slips));
    assert!(caught("best-sums-apart", Slips { sums_shared: true, ..Slips::NONE }));
}

#[test]
fn truth_diagrams_of_a_log_line_in_turn() {
    assert!(caught("did-truth-diagrams-together", Slips { truths_in_turn: true, ..Slips::NONE }));
}

#[test]
fn rewards_of_a_log() {
    let slips = Slips { both_rewards: true, ..Slips::NONE };
    assert!(caught("did-first-line-adds-both-rewards", slips));
    assert!(caught("tally-at-the-limit", slips));
    assert!(caught("did-unscaled", Slips { values_totalled: true, ..Slips::NONE }));
}

#[test]
fn states_by_tested_facts_alone() {
    assert!(caught("count-facts-that-nothing-tests", Slips { tested_facts_only: true, ..Slips::NONE }));
}

#[test]
fn minimum_variables() {
    assert!(caught("minimum-inside-the-maximum", Slips { lowest_outside: true, ..Slips::NONE }));
    assert!(caught("minimum-of-a-spread", Slips { lowest_outside: true, ..Slips::NONE }));
    assert!(caught("minimum-sums-apart", Slips { minimum_in_place: true, ..Slips::NONE }));
    assert!(caught("minimum-reward-apart", Slips { minimum_in_place: true, ..Slips::NONE }));
    assert!(caught("minimum-max-done-apart", Slips { max_shared: true, ..Slips::NONE }));
    assert!(caught("minimum-freeing", Slips { freeing_moves_all: true, ..Slips::NONE }));
    assert!(caught("minimum-text-read-back", Slips { first_occurrence: true, ..Slips::NONE }));
}
