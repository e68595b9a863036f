//! The diagram as a form (document 02, L2): what (text) prints, where it is too long, and how a reward is numbered.

use reference::declarations::Variables;
use reference::diagram::{Diagram, Row, Space};
use reference::form::{form, reward_line, variables_in_order, Extent};
use reference::refusal::Refusal;
use reference::session::Session;
use reference::slips::Slips;
use reference::terms::Label;
use reference::text::{read_line, Line};

/// The session of a model with these declarations and this reward.
fn session(declarations: &[String], reward: &str) -> Session {
    let mut session = Session::new(Slips::NONE);
    let behind = [format!("(reward {reward})"), "(action go)".into(), "(variant only 100)".into(), "(start)".into()];
    for line in declarations.iter().cloned().chain(behind) {
        session.take(line.as_bytes()).unwrap_or_else(|refusal| panic!("{line}: {refusal:?}"));
    }
    session
}

fn value(session: &Session) -> &Diagram {
    &session.started().expect("started").value
}

/// A chain of tests, one below the other.
fn chain(tests: usize) -> (Vec<String>, String) {
    let declarations = (0..16).map(|c| format!("(constant c{c})")).chain((0..4).map(|p| format!("(predicate p{p} 1)"))).collect();
    let reward = (0..tests).rev().fold("1".to_string(), |inner, i| format!("(if (p{} c{}) {inner} 0)", i / 16, i % 16));
    (declarations, reward)
}

#[test]
fn a_form_is_printed_as_it_is_read() {
    let (declarations, reward) = chain(62);
    let session = session(&declarations, &reward);
    assert_eq!(form(value(&session), session.declarations()), Ok(reward.clone()));
    let line = reward_line(value(&session), session.declarations());
    assert_eq!(line, Extent { bytes: format!("(reward {reward})").len() as u128, brackets: 64 });
}

/// 62 tests inside one another pass and 63 do not. A line of a text can't have 63, so that the rows are formed here.
#[test]
fn a_test_too_many() {
    let (declarations, _) = chain(0);
    let session = session(&declarations, "0");
    let formed = |tests: u64| {
        let mut space = Space::new();
        let [mut below, none] = [1, 0].map(|leaf| space.form(Row::Leaf(leaf)).expect("room"));
        for i in (0..tests).rev() {
            below = space.form(Row::Branch { label: Label::pack(1 + i / 16, &[i % 16]), yes: below, no: none }).expect("room");
        }
        form(&space.diagram(below), session.declarations())
    };
    assert_eq!(formed(62), Ok(chain(62).1));
    assert_eq!(formed(63), Err(Refusal::Length));
}

/// Rows that are shared are written out each time: 800 rows, and more bytes than are counted.
#[test]
fn very_many_bytes() {
    let mut space = Space::new();
    let [one, two] = [1, 2].map(|leaf| space.form(Row::Leaf(leaf)).expect("room"));
    let (mut even, mut odd) = (one, two);
    for i in (0..400_u64).rev() {
        let label = Label::pack(1 + i / 256, &[i / 16 % 16, i % 16]);
        let other = space.form(Row::Branch { label, yes: odd, no: even }).expect("room");
        even = space.form(Row::Branch { label, yes: even, no: odd }).expect("room");
        odd = other;
    }
    let (declarations, _) = chain(0);
    let declarations: Vec<String> = declarations.into_iter().map(|line| line.replace(" 1)", " 2)")).collect();
    let session = session(&declarations, "0");
    let parity = space.diagram(even);
    assert_eq!(reward_line(&parity, session.declarations()), Extent { bytes: u128::MAX, brackets: 402 });
    assert_eq!(form(&parity, session.declarations()), Err(Refusal::Length));
}

fn of_both_kinds(reward: &str) -> Variables {
    match read_line(format!("(reward {reward})").as_bytes()) {
        Ok(Line::Reward(written)) => variables_in_order(&written, Slips::NONE),
        other => panic!("{other:?}"),
    }
}

fn in_order(reward: &str) -> Vec<String> {
    of_both_kinds(reward).maximum
}

#[test]
fn variables_in_their_order() {
    assert_eq!(in_order("(if (p ?v7 ?v3) 1 0)"), ["v3", "v7"]);
    assert_eq!(in_order("(if (p ?v10 ?v9) (if (q ?v10) 1 0) 0)"), ["v9", "v10"]);
    assert_eq!(in_order("(if (p ?v7 ?v0) 1 0)"), ["v0", "v7"]);
    assert_eq!(in_order("(if (p ?v99999999999999 ?v0) 1 0)"), ["v0", "v99999999999999"]);
    for other in ["v00", "v01", "v", "v1a", "w3", "x", "va1"] {
        assert_eq!(in_order(&format!("(if (p ?v7 ?{other} ?v3) 1 0)")), ["v7", other, "v3"]);
        assert_eq!(in_order(&format!("(if (= ?{other} ?{other}) (if (p ?v7 ?v3) 1 0) 0)")), [other, "v7", "v3"]);
        assert_eq!(in_order(&format!("(if (p ?v7 ?v3) 1 (if (q ?{other}) 2 2))")), ["v7", "v3", other]);
    }
    assert_eq!(in_order("5"), [""; 0]);
}

/// Each kind by itself: how the one is written says nothing about the other.
#[test]
fn minimum_variables_in_their_order() {
    let named = |reward: &str| {
        let Variables { maximum, minimum } = of_both_kinds(reward);
        (maximum.join(" "), minimum.join(" "))
    };
    let is = |maximum: &str, minimum: &str| (maximum.to_string(), minimum.to_string());
    assert_eq!(named("(if (p ?v7 ?v3) (if (p %v9 %v1) 1 0) 0)"), is("v3 v7", "v1 v9"));
    assert_eq!(named("(if (p ?v7 ?v3) (if (p %b %a) 1 0) 0)"), is("v3 v7", "b a"));
    assert_eq!(named("(if (p ?v7 ?x) (if (p %v9 %v1) 1 0) 0)"), is("v7 x", "v1 v9"));
    assert_eq!(named("(if (p ?v7 %v03 ?v3 %v1) 1 0)"), is("v3 v7", "v03 v1"));
    assert_eq!(named("(if (p ?x %x %x ?x) 1 0)"), is("x", "x"));
    assert_eq!(named("(if (= %z %z) (if (p %v9 ?v9 %v1 ?v1) 1 0) 0)"), is("v1 v9", "z v9 v1"));
}
