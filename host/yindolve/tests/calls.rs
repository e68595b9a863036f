//! What the types add to the library's calls: memory, threads, and words that cannot be wrong.

use yindolve::calls::{PLACES, VARIABLES};
use yindolve::{calls, fact, Arities, Label, Listing, Refusal, Row, Space, State, Term, Truths};

fn arities() -> Arities {
    Arities::new(&[2, 1, 2]).unwrap()
}

/// (if p(t, u) 1 0) for each of these labels in turn, leaf 0 where one fails.
fn conjunction(labels: impl DoubleEndedIterator<Item = Label>) -> Listing {
    let mut rows = vec![Row::Leaf(1), Row::Leaf(0)];
    for label in labels.rev() {
        let last = rows.len() - 1;
        rows.push(Row::Branch { label, yes: if last == 1 { 0 } else { last }, no: 1 });
    }
    Listing::from_rows(&arities(), rows).unwrap()
}

/// The labels of predicates 1 and 3 with two variables, in their order, 1,024 of each.
fn pair(number: usize) -> Label {
    let variables = [number % 1_024 / VARIABLES, number % VARIABLES].map(|variable| Term::Variable(variable as u8));
    Label::new(if number < 1_024 { 1 } else { 3 }, &variables)
}

#[test]
fn refusals_by_number() {
    for (number, refusal) in (1..29).zip(Refusal::ALL.iter().copied()) {
        assert_eq!(refusal.number(), number);
        assert_eq!(Refusal::from_number(number), Some(refusal));
    }
    assert_eq!(Refusal::ALL.len(), 28);
    assert_eq!(Refusal::from_number(0), None);
    assert_eq!(Refusal::from_number(99), None);
    let error: Box<dyn std::error::Error> = Refusal::Listing.into();
    assert_eq!(error.to_string(), "refused, 14 (listing): the words are no listing, or the arity list is wrong");
}

#[test]
fn wrong_arities() {
    assert_eq!(Arities::new(&[0; 32]), Err(Refusal::Listing));
    assert_eq!(Arities::new(&[7]), Err(Refusal::Listing));
    assert!(Arities::new(&[6; 31]).is_ok());
}

#[test]
fn a_listing_for_other_arities_is_refused() {
    let test = conjunction([pair(0)].into_iter());
    let mut other = Space::new(Arities::new(&[1]).unwrap());
    assert_eq!(other.cut(&test), Err(Refusal::Listing));
    assert_eq!(Space::new(arities()).cut(&test), Err(Refusal::Nothing));
}

#[test]
fn labels_and_terms() {
    let label = Label::new(1, &[Term::Constant(15), Term::Parameter(3)]);
    assert_eq!(label.terms(&arities()).collect::<Vec<_>>(), [Term::Constant(15), Term::Parameter(3)]);
    assert_eq!(Label::equality(Term::Variable(63), Term::Variable(63)), None);
    assert_eq!((0..256).filter_map(Term::from_number).filter(|term| Term::from_number(term.number()) == Some(*term)).count(), 148);
    let six = [Term::Variable(63), Term::Constant(1), Term::Parameter(0), Term::Variable(0), Term::Minimum(63), Term::Variable(62)];
    let arities = Arities::new(&[PLACES as u64]).unwrap();
    assert_eq!(Label::new(1, &six).terms(&arities).collect::<Vec<_>>(), six);
    assert_eq!(Label::new(1, &six).word(), (1 << 48) + (127 << 40) + (1 << 32) + (16 << 24) + (64 << 16) + (191 << 8) + 126);
}

/// Words with labels of four places, of six bits each, variables from 32 on, and the old mark of leaves.
#[test]
fn listings_of_the_old_kind() {
    for words in [vec![4_294_967_295, 1, 0], vec![4_294_967_295, 1, 0, 4_294_967_295, 0, 0, (2 << 24) + (32 << 18), 0, 1]] {
        assert_eq!(Listing::new(&arities(), words), Err(Refusal::Listing));
    }
    assert_eq!(Listing::new(&arities(), [calls::LEAF, 1, 0, calls::LEAF, 0, 0, (2 << 24) + (32 << 18), 0, 1]), Err(Refusal::Listing));
}

/// A relation of six things, in its first and in its last place.
#[test]
fn six_places() {
    let arities = Arities::new(&[PLACES as u64]).unwrap();
    let mut space = Space::new(arities);
    let of = |variables: [u8; PLACES]| {
        let label = Label::new(1, &variables.map(Term::Variable));
        Listing::from_rows(&arities, [Row::Leaf(1), Row::Leaf(0), Row::Branch { label, yes: 0, no: 1 }]).unwrap()
    };
    let related = of([0, 1, 2, 3, 4, 63]);
    let state =
        |facts: &[[u64; PLACES]]| State { objects: 2, constants: vec![], facts: facts.iter().map(|objects| fact(1, objects)).collect() };
    assert_eq!(space.value(&related, &state(&[])), Ok(0));
    assert_eq!(space.value(&related, &state(&[[1, 0, 1, 0, 1, 1]])), Ok(1));
    assert_eq!(space.value(&related, &state(&[[1, 0, 1, 0, 1, 2]])), Err(Refusal::Range));
    assert_eq!(space.value(&of([0, 0, 0, 0, 0, 1]), &state(&[[0, 0, 0, 0, 1, 1]])), Ok(0));
    assert_eq!(space.free(&related, 1), Err(Refusal::Variables));
    let turned = space.regress(&related, Truths::new().set(1, &of([5, 4, 3, 2, 1, 0]))).unwrap();
    assert_eq!(turned, of([63, 4, 3, 2, 1, 0]));
}

#[test]
fn operations() {
    let mut space = Space::new(arities());
    let test = |predicate, terms: &[Term]| {
        let label = Label::new(predicate, terms);
        Listing::from_rows(&arities(), [Row::Leaf(1), Row::Leaf(0), Row::Branch { label, yes: 0, no: 1 }]).unwrap()
    };
    let (variable, parameter) = (Term::Variable(0), Term::Parameter(0));
    let of_variable = test(2, &[variable]);
    assert_eq!(space.product_shared(&of_variable, &of_variable).unwrap().listing, of_variable);
    assert_eq!(space.max_shared(&of_variable, &of_variable).unwrap().listing, of_variable);
    assert_eq!(space.max_apart(&of_variable, &of_variable).unwrap().pairs, 7);
    assert_eq!(space.product_apart(&of_variable, &of_variable).unwrap().listing.len(), 4);
    let mut truths = Truths::new();
    truths.set(2, &test(2, &[Term::Variable(1)]));
    assert_eq!(space.regress(&of_variable, &truths), Err(Refusal::Unbound));
    truths.set(2, &test(1, &[variable, parameter]));
    let regressed = space.regress(&of_variable, &truths).unwrap();
    assert_eq!(regressed, test(1, &[variable, parameter]));
    assert_eq!(space.value(&regressed, &State { objects: 1, ..State::default() }), Err(Refusal::Unbound));
    let freed = space.free(&regressed, 1).unwrap();
    assert_eq!(freed, test(1, &[Term::Variable(1), variable]));
    let state = State { objects: 2, constants: vec![], facts: vec![fact(1, &[0, 1])] };
    assert_eq!(space.value(&freed, &state), Ok(1));
    assert_eq!(space.value(&freed, &State { objects: 1, ..state }), Err(Refusal::Range));
}

/// p(x), or p(y): what y finds, x could have found. Parameters, equality, constants, minimum variables and too many variables are refused.
#[test]
fn reductions() {
    let mut space = Space::new(arities());
    let test = |label| Listing::from_rows(&arities(), [Row::Leaf(5), Row::Leaf(0), Row::Branch { label, yes: 0, no: 1 }]).unwrap();
    let of = |variable| Label::new(2, &[Term::Variable(variable)]);
    let rows = [Row::Leaf(5), Row::Leaf(0), Row::Branch { label: of(9), yes: 0, no: 1 }, Row::Branch { label: of(4), yes: 0, no: 2 }];
    let either = Listing::from_rows(&arities(), rows).unwrap();
    assert_eq!(space.reduce(&either), Ok(test(of(0))));
    assert_eq!(space.reduce(&test(Label::new(2, &[Term::Parameter(0)]))), Err(Refusal::Unbound));
    assert_eq!(space.reduce(&test(Label::new(2, &[Term::Constant(0)]))), Err(Refusal::Kinds));
    assert_eq!(space.reduce(&test(Label::new(2, &[Term::Minimum(0)]))), Err(Refusal::Kinds));
    assert_eq!(space.reduce(&test(Label::equality(Term::Variable(0), Term::Variable(1)).unwrap())), Err(Refusal::Kinds));
    assert_eq!(space.reduce(&conjunction((0..5).map(|i| Label::new(2, &[Term::Variable(i)])))), Err(Refusal::Runs));
    let related = [(0, 1), (2, 0), (2, 1)].map(|(one, other)| Label::new(1, &[Term::Variable(one), Term::Variable(other)]));
    assert!(space.reduce(&conjunction(related.into_iter())).is_ok());
    let related = [1, 3].into_iter().flat_map(|predicate| {
        [(0, 1), (1, 2), (2, 0)].map(|(one, other)| Label::new(predicate, &[Term::Variable(one), Term::Variable(other)]))
    });
    assert_eq!(space.reduce(&conjunction(related.collect::<Vec<Label>>().into_iter())), Err(Refusal::Combinations));
    let mut rows = 7;
    assert_eq!(calls::reduce(arities().words(), either.words(), &mut [], &mut [], &mut rows), Err(Refusal::Buffer));
    assert_eq!((rows, calls::reduce(&[], either.words(), &mut [], &mut [], &mut rows)), (7, Err(Refusal::Listing)));
}

/// One van for all shelves: apart, freed and valued kind by kind; a max is done apart, and a cut is refused.
#[test]
fn minimum_variables() {
    let mut space = Space::new(arities());
    let test = |one, other| {
        let label = Label::new(1, &[one, other]);
        Listing::from_rows(&arities(), [Row::Leaf(5), Row::Leaf(0), Row::Branch { label, yes: 0, no: 1 }]).unwrap()
    };
    let all = test(Term::Variable(7), Term::Minimum(9));
    let state = |facts: &[[u64; 2]]| State { objects: 2, facts: facts.iter().map(|two| fact(1, two)).collect(), ..State::default() };
    assert_eq!(space.value(&all, &state(&[[0, 0], [1, 1]])), Ok(0));
    assert_eq!(space.value(&all, &state(&[[0, 0], [0, 1]])), Ok(5));
    assert_eq!(space.value(&all, &State { objects: 1_000, ..State::default() }), Ok(0));
    assert_eq!(space.value(&all, &State { objects: 1_001, ..State::default() }), Err(Refusal::Valuations));
    let twice = space.sum_apart(&all, &all).unwrap().listing;
    let tests: Vec<Label> = twice.rows().filter_map(|row| if let Row::Branch { label, .. } = row { Some(label) } else { None }).collect();
    for (v, label) in [(0, tests[tests.len() - 1]), (1, tests[0])] {
        assert_eq!(label, Label::new(1, &[Term::Variable(v), Term::Minimum(v)]));
    }
    assert_eq!(space.value(&twice, &state(&[[0, 0], [0, 1]])), Ok(10));
    assert_eq!(space.max_shared(&all, &all), space.max_apart(&all, &all));
    assert_eq!(space.sum_shared(&all, &Listing::from_rows(&arities(), [Row::Leaf(0)]).unwrap()).unwrap().listing, all);
    assert_eq!(space.free(&test(Term::Parameter(0), Term::Minimum(63)), 4), Ok(test(Term::Variable(0), Term::Minimum(63))));
    assert_eq!(space.free(&all, 4), Ok(test(Term::Variable(11), Term::Minimum(9))));
    assert_eq!(space.cut(&all), Err(Refusal::Minimum));
    let truth = Listing::from_rows(&arities(), [Row::Leaf(1), Row::Leaf(0), Row::Branch { label: tests[0], yes: 0, no: 1 }]).unwrap();
    assert_eq!(space.regress(&all, Truths::new().set(1, &truth)), Err(Refusal::Unbound));
}

#[test]
fn lent_memory_of_any_size() {
    let test = conjunction([pair(0)].into_iter());
    let (mut rows, mut edge, mut row) = (7, 7, 7);
    let cut = calls::cut(arities().words(), test.words(), &mut [], &mut [], &mut row, &mut edge, &mut rows);
    assert_eq!((cut, rows, edge, row), (Err(Refusal::Buffer), 7, 7, 7));
    assert_eq!(calls::check(&[], &[]), Err(Refusal::Listing));
}

/// The deepest walk: the labels of two listings of 1,024 rows in turn. A thread of one megabyte has room for it.
#[test]
fn stack() {
    let deep = || {
        let (even, odd) = ((0..2_044).step_by(2), (1..2_044).step_by(2));
        let (first, second) = (conjunction(even.map(pair)), conjunction(odd.map(pair)));
        assert_eq!((first.len(), second.len()), (1_024, 1_024));
        assert_eq!(Space::new(arities()).product_shared(&first, &second), Err(Refusal::Space));
        assert_eq!(Space::new(arities()).product_apart(&first, &second), Err(Refusal::Variables));
    };
    std::thread::Builder::new().stack_size(1 << 20).spawn(deep).unwrap().join().unwrap();
}

#[test]
fn threads() {
    let work = |count: usize| {
        let mut space = Space::new(arities());
        let (first, second) = (conjunction((0..count).map(pair)), conjunction((0..2 * count).map(pair)));
        (0..50).map(|_| space.product_shared(&first, &second).unwrap()).last().unwrap()
    };
    let alone: Vec<_> = (1..5).map(work).collect();
    let together: Vec<_> = (1..5).map(|count| std::thread::spawn(move || work(count))).collect();
    assert_eq!(together.into_iter().map(|thread| thread.join().unwrap()).collect::<Vec<_>>(), alone);
}
