//! Library calls: each refusal and the order of the checks.

use reference::calls::{combine, cut, free, regress, value, Lent, RESULT_WORDS, SPACE_WORDS};
use reference::combine::{Names, Operator};
use reference::diagram::{Diagram, Row, Space, LARGEST};
use reference::listing::write_listing;
use reference::refusal::Refusal;
use reference::terms::{
    Label, Test, EQUALITY, FIRST_PARAMETER, FIRST_VARIABLE, LAST_VARIABLE, LEAF_MARK, PREDICATES, PREDICATE_BIT, VARIABLES,
};

/// The first parameter, and the first two variables.
const P: u64 = FIRST_PARAMETER;
const X: u64 = FIRST_VARIABLE;
const Y: u64 = X + 1;

/// Predicate 1 has arity 2, predicate 2 arity 1, predicate 3 arity 6, all others 0.
fn arities() -> Vec<u64> {
    let mut arities = vec![0; PREDICATES];
    arities[..4].copy_from_slice(&[2, 2, 1, 6]);
    arities
}

fn test_of(predicate: u64, terms: &[u64]) -> Vec<u64> {
    write_listing(&Diagram::test(Test::Is(Label::pack(predicate, terms))))
}

fn leaf(value: u64) -> Vec<u64> {
    write_listing(&Diagram::leaf(value))
}

fn sum(a: &[u64], b: &[u64]) -> Result<(Vec<u64>, usize), Refusal> {
    combine(Operator::Sum, Names::Shared, a, b, &arities(), Lent::ENOUGH)
}

fn is_listing(words: &[u64]) -> bool {
    sum(words, &leaf(0)).is_ok()
}

#[test]
fn listings() {
    let row = |label: u64, yes: u64, no: u64| [label, yes, no];
    let leaf = |value: u64| [LEAF_MARK, value, 0];
    let p = |a: u64, b: u64| Label::pack(1, &[a, b]).0;
    let q = |a: u64| Label::pack(2, &[a]).0;
    let same = |a: u64, b: u64| Label::pack(EQUALITY, &[a, b]).0;
    let case = |rows: &[[u64; 3]]| is_listing(&rows.concat());
    assert!(case(&[leaf(LARGEST)]));
    assert!(!case(&[leaf(LARGEST + 1)]));
    assert!(!case(&[[LEAF_MARK, 0, 1]]));
    assert!(!case(&[]));
    assert!(!is_listing(&[LEAF_MARK, 0]));
    assert!(case(&[leaf(1), leaf(0), row(p(64, 127), 0, 1)]));
    assert!(!case(&[leaf(1), leaf(0), row(p(64, 63), 0, 1)]), "63 is no term");
    assert!(case(&[leaf(1), leaf(0), row(p(128, 191), 0, 1)]), "minimum variables");
    assert!(!case(&[leaf(1), leaf(0), row(p(192, 64), 0, 1)]), "192 is no term");
    assert!(!case(&[leaf(1), leaf(0), row(p(64, 255), 0, 1)]), "255 is no term");
    assert!(!case(&[leaf(1), leaf(0), row(p(20, 64), 0, 1)]), "20 is no term");
    assert!(case(&[leaf(1), leaf(0), row(p(19, 15), 0, 1)]));
    assert!(case(&[leaf(1), leaf(0), row(Label::pack(3, &[0, 15, 16, 19, 64, 127]).0, 0, 1)]));
    assert!(!case(&[leaf(1), leaf(0), row(Label::pack(3, &[0, 15, 16, 19, 64, 20]).0, 0, 1)]), "20 in the last place");
    assert!(!case(&[leaf(1), leaf(0), row(q(1) + 1, 0, 1)]), "an unused place");
    assert!(!case(&[leaf(1), leaf(0), row((PREDICATES as u64) << PREDICATE_BIT, 0, 1)]), "no such predicate");
    assert!(case(&[leaf(1), leaf(0), row((PREDICATES as u64 - 1) << PREDICATE_BIT, 0, 1)]));
    assert!(case(&[leaf(1), leaf(0), row(same(0, 1), 0, 1)]));
    assert!(!case(&[leaf(1), leaf(0), row(same(1, 0), 0, 1)]), "equality's larger term first");
    assert!(!case(&[leaf(1), leaf(0), row(same(1, 1), 0, 1)]), "t = t");
    assert!(!case(&[leaf(1), row(q(1), 0, 0)]), "equal children");
    assert!(!case(&[leaf(0), leaf(1), row(q(1), 1, 0)]), "false branch numbered first");
    assert!(!case(&[leaf(1), leaf(1), row(q(1), 0, 1)]), "equal rows");
    assert!(!case(&[leaf(1), leaf(0), leaf(2), row(q(1), 0, 1)]), "an unreachable row");
    assert!(!case(&[leaf(1), leaf(0), row(q(1), 0, 2)]), "a row below itself");
    assert!(!case(&[leaf(1), leaf(0), row(q(2), 0, 1), row(q(2), 2, 1)]), "a child's label not greater");
    assert!(case(&[leaf(1), leaf(0), row(q(2), 0, 1), row(q(1), 2, 1)]));
}

/// The numbers as documents 01 and 02 write them: stock(hub), hub = ?v0, a label of six places, and the leaf's mark.
#[test]
fn labels() {
    assert_eq!(Label::pack(1, &[0]).0, 281_474_976_710_656);
    assert_eq!(Test::atom(EQUALITY, &[64, 0]), Test::Is(Label(64 << 32)));
    let six = Label::pack(31, &[0, 15, 16, 19, 64, 127]);
    assert_eq!(six.0, (31 << 48) + (15 << 32) + (16 << 24) + (19 << 16) + (64 << 8) + 127);
    assert_eq!((six.predicate(), six.places()), (31, [0, 15, 16, 19, 64, 127]));
    assert_eq!(leaf(7), [18_446_744_073_709_551_615, 7, 0]);
}

/// "Listings of the old kind meet 14": four places of six bits, variables from 32 on, the leaf's mark 2^32 - 1.
#[test]
fn old_listings() {
    const OLD_LEAF: u64 = 4_294_967_295;
    let old = |predicate: u64, terms: [u64; 4]| terms.iter().fold(predicate, |word, term| (word << 6) + term);
    let refused = |words: &[u64]| {
        let truths: [Option<&[u64]>; PREDICATES] = std::array::from_fn(|predicate| (predicate == 2).then_some(words));
        let answers = [
            sum(words, &leaf(0)).map(|_| ()),
            sum(&leaf(0), words).map(|_| ()),
            regress(words, &[None; PREDICATES], &arities(), Lent::ENOUGH).map(|_| ()),
            regress(&leaf(0), &truths, &arities(), Lent::ENOUGH).map(|_| ()),
            free(words, 0, &arities(), Lent::ENOUGH).map(|_| ()),
            cut(words, &arities(), Lent::ENOUGH).map(|_| ()),
            value(words, &arities(), 1, &[], &[]).map(|_| ()),
        ];
        answers.into_iter().all(|answer| answer == Err(Refusal::Listing))
    };
    assert!(refused(&[OLD_LEAF, 7, 0]));
    let labels = [old(1, [0, 32, 0, 0]), old(2, [63, 0, 0, 0]), old(0, [0, 32, 0, 0]), old(3, [0, 15, 16, 19]), old(31, [0; 4])];
    for label in labels {
        assert!(refused(&[OLD_LEAF, 1, 0, OLD_LEAF, 0, 0, label, 0, 1]), "{label}");
        assert!(refused(&[LEAF_MARK, 1, 0, LEAF_MARK, 0, 0, label, 0, 1]), "{label} over leaves of the new kind");
    }
    assert!(refused(&[OLD_LEAF, 1, 0, OLD_LEAF, 0, 0, Label::pack(1, &[0, X]).0, 0, 1]), "a label of the new kind over old leaves");
    assert!(!refused(&[LEAF_MARK, 1, 0, LEAF_MARK, 0, 0, Label::pack(1, &[0, X]).0, 0, 1]));
}

/// The labels that tests are numbered by.
fn label(n: u64) -> Label {
    Label::pack(1, &[X + n / VARIABLES, X + n % VARIABLES])
}

/// A chain of tests from the label numbered `first` on: leaves `base`, `base` + 1, .. in turn under their true edges, the next one under the last false edge.
fn chain(first: u64, tests: u64, leaves: u64, base: u64) -> Vec<u64> {
    let mut words: Vec<u64> = (0..leaves).flat_map(|v| [LEAF_MARK, base + v, 0]).collect();
    for n in (0..tests).rev() {
        let below = if n + 1 == tests { tests % leaves } else { words.len() as u64 / 3 - 1 };
        words.extend([label(first + n).0, n % leaves, below]);
    }
    words
}

/// Tests from the label numbered `first` on, the given rows under their true edges and under the last false edge.
fn chain_over(space: &mut Space, first: u64, ends: &[usize]) -> usize {
    let (last, others) = ends.split_last().unwrap();
    let tests = others.iter().enumerate().rev();
    tests.fold(*last, |no, (n, &yes)| space.form(Row::Branch { label: label(first + n as u64), yes, no }).unwrap())
}

#[test]
fn a_product_that_met_10_succeeds() {
    let mut space = Space::new();
    let leaves: Vec<usize> = (0..=103).map(|v| space.form(Row::Leaf(v)).unwrap()).collect();
    let either = |space: &mut Space, yes, no| space.form(Row::Branch { label: label(200), yes, no }).unwrap();
    // 44 ends each, below 43 tests: where the test 200 is true those of x are 0, where it is false those of y. The last of y has 150 tests below it.
    let x: Vec<usize> = (1..=44).map(|v| either(&mut space, 0, leaves[v])).collect();
    let x = chain_over(&mut space, 0, &x);
    let deep: Vec<usize> = (0..151).map(|n| leaves[102 + n % 2]).collect();
    let deep = chain_over(&mut space, 300, &deep);
    let y: Vec<usize> = leaves[50..93].iter().chain([&deep]).map(|&end| either(&mut space, end, 0)).collect();
    let y = chain_over(&mut space, 100, &y);
    let [x, y] = [x, y].map(|root| write_listing(&space.diagram(root)));
    // 43 + 44 · 43 + 44 · 44 pairs above and at the test 200, 44 of the 0 and an end of y, 44 of an end of x and the 0. Down to the leaves 151 more, 4,110.
    let product = combine(Operator::Product, Names::Shared, &x, &y, &arities(), Lent::ENOUGH);
    assert_eq!(product, Ok((leaf(0), 3_959)));
    assert_eq!(sum(&x, &y), Err(Refusal::Pairs));
}

#[test]
fn a_product_stops_under_a_zero() {
    let product = |a: &[u64], b: &[u64]| combine(Operator::Product, Names::Shared, a, b, &arities(), Lent::ENOUGH);
    // Ten tests over 0 and 1, and 102 rows over 5 and 6 below them: 10 pairs above, one of the 0, 102 of the 1; down to the leaves they are 214.
    let (x, y) = (chain(0, 10, 2, 0), chain(16, 100, 2, 5));
    assert_eq!(product(&x, &y).map(|(words, pairs)| (words.len() / 3, pairs)), Ok((113, 113)));
    assert_eq!(sum(&x, &y).map(|(_, pairs)| pairs), Ok(214));
    // Four tests over 0 to 4, and 820 rows: 4 + 5 · 820 pairs down to the leaves, 4 + 1 + 4 · 820 in a product, which form too many rows or too high a leaf.
    let x = chain(0, 4, 5, 0);
    let (rows, high) = (chain(16, 818, 2, 1), chain(16, 818, 2, LARGEST - 1));
    assert_eq!(product(&x, &rows), Err(Refusal::Space));
    assert_eq!(product(&x, &high), Err(Refusal::Value));
    assert_eq!(sum(&x, &rows), Err(Refusal::Pairs));
    // Five tests over 0 to 5 have 6 + 5 · 818 pairs, 4,096; one row more is too many.
    assert_eq!(product(&chain(0, 5, 6, 0), &chain(16, 816, 2, 1)), Err(Refusal::Space));
    assert_eq!(product(&chain(0, 5, 6, 0), &chain(16, 817, 2, 1)), Err(Refusal::Pairs));
}

#[test]
fn rows_of_a_listing() {
    // A chain of distinct leaves under ascending labels of arity 2: row count 2 · length + 1.
    let chain = |length: u64| {
        let mut words: Vec<u64> = (0..length).flat_map(|i| [LEAF_MARK, i + 1, 0]).collect();
        words.extend([LEAF_MARK, 0, 0]);
        for i in 0..length {
            let number = length - 1 - i;
            let below = if i == 0 { length } else { length + i };
            words.extend([label(number).0, number, below]);
        }
        words
    };
    // 511 branches and 512 leaves are 1,023 rows; a root above them makes 1,024.
    assert!(is_listing(&chain(511)));
    let root = [Label::pack(EQUALITY, &[0, 1]).0, 1_022, 511];
    assert!(is_listing(&[&chain(511)[..], &root].concat()));
    assert!(!is_listing(&chain(512)), "1,025 rows");
}

#[test]
fn arity_lists() {
    let with = |arities: &[u64]| combine(Operator::Sum, Names::Shared, &leaf(0), &leaf(0), arities, Lent::ENOUGH);
    let mut wrong = arities();
    wrong[0] = 1;
    assert_eq!(with(&wrong), Err(Refusal::Listing));
    wrong = arities();
    wrong[31] = 7;
    assert_eq!(with(&wrong), Err(Refusal::Listing));
    wrong[31] = 6;
    assert_eq!(with(&wrong), Ok((leaf(0), 1)));
    assert_eq!(with(&arities()[..31]), Err(Refusal::Listing));
    assert_eq!(with(&[&arities()[..], &[0]].concat()), Err(Refusal::Listing));
}

#[test]
fn listings_come_before_buffers() {
    let small = Lent { result: RESULT_WORDS - 1, space: SPACE_WORDS };
    let call = |b: &[u64], lent| combine(Operator::Sum, Names::Apart, &leaf(LARGEST), b, &arities(), lent).map(|_| ());
    assert_eq!(call(&[], small), Err(Refusal::Listing));
    assert_eq!(call(&leaf(1), small), Err(Refusal::Buffer));
    assert_eq!(call(&leaf(1), Lent { space: SPACE_WORDS - 1, ..Lent::ENOUGH }), Err(Refusal::Buffer));
    assert_eq!(call(&leaf(1), Lent::ENOUGH), Err(Refusal::Value));
    assert_eq!(call(&leaf(0), Lent::ENOUGH), Ok(()));
}

#[test]
fn pair_count() {
    assert_eq!(sum(&leaf(1), &leaf(2)).map(|r| r.1), Ok(1));
    assert_eq!(sum(&test_of(2, &[0]), &test_of(2, &[0])).map(|r| r.1), Ok(3));
    assert_eq!(sum(&test_of(2, &[0]), &test_of(2, &[1])).map(|r| r.1), Ok(7));
}

#[test]
fn truth_diagrams() {
    let call = |truth: &[u64], lent| {
        let mut truths: [Option<&[u64]>; PREDICATES] = [None; PREDICATES];
        truths[2] = Some(truth);
        regress(&test_of(2, &[X + 8]), &truths, &arities(), lent)
    };
    assert_eq!(call(&test_of(2, &[X]), Lent::ENOUGH), Ok(test_of(2, &[X + 8])));
    assert_eq!(call(&test_of(1, &[X, P + 3]), Lent::ENOUGH), Ok(test_of(1, &[X + 8, P + 3])));
    assert_eq!(call(&test_of(1, &[X, Y]), Lent::ENOUGH), Err(Refusal::Unbound));
    assert_eq!(call(&leaf(2), Lent::ENOUGH), Err(Refusal::Truth));
    assert_eq!(call(&leaf(2), Lent { result: 0, space: 0 }), Err(Refusal::Buffer));
    assert_eq!(call(&[], Lent { result: 0, space: 0 }), Err(Refusal::Listing));
    let both = [LEAF_MARK, 2, 0, LEAF_MARK, 0, 0, Label::pack(2, &[Y]).0, 0, 1];
    assert_eq!(call(&both, Lent::ENOUGH), Err(Refusal::Truth), "7 comes before 6");
}

#[test]
fn equality_of_arguments_becomes_truth() {
    let mut truths: [Option<&[u64]>; PREDICATES] = [None; PREDICATES];
    let truth = test_of(EQUALITY, &[X, Y]);
    truths[1] = Some(&truth);
    assert_eq!(regress(&test_of(1, &[X + 8, X + 8]), &truths, &arities(), Lent::ENOUGH), Ok(leaf(1)));
    assert_eq!(regress(&test_of(1, &[X + 9, X + 8]), &truths, &arities(), Lent::ENOUGH), Ok(test_of(EQUALITY, &[X + 8, X + 9])));
}

/// Six arguments turned round, replaced together.
#[test]
fn six_arguments() {
    let mut truths: [Option<&[u64]>; PREDICATES] = [None; PREDICATES];
    let truth = test_of(3, &[X + 5, X + 4, X + 3, X + 2, Y, X]);
    truths[3] = Some(&truth);
    let value = test_of(3, &[LAST_VARIABLE, 1, P, Y, Y, 15]);
    assert_eq!(regress(&value, &truths, &arities(), Lent::ENOUGH), Ok(test_of(3, &[15, Y, Y, P, 1, LAST_VARIABLE])));
}

#[test]
fn freeing() {
    let call = |words: &[u64], count| free(words, count, &arities(), Lent::ENOUGH);
    assert_eq!(call(&test_of(1, &[P, X]), 1), Ok(test_of(1, &[X, Y])));
    assert_eq!(call(&test_of(1, &[P, X]), 4), Ok(test_of(1, &[X, X + 4])));
    assert_eq!(call(&test_of(1, &[P + 1, LAST_VARIABLE]), 5), Err(Refusal::Range));
    assert_eq!(call(&test_of(1, &[P + 1, LAST_VARIABLE]), 1), Err(Refusal::Unbound));
    assert_eq!(call(&test_of(1, &[P + 1, LAST_VARIABLE]), 2), Err(Refusal::Variables));
    assert_eq!(call(&test_of(1, &[17, 125]), 2), Ok(test_of(1, &[65, 127])));
    assert_eq!(call(&test_of(1, &[17, 126]), 2), Err(Refusal::Variables), "a variable would be 128");
}

#[test]
fn valuing() {
    let call = |words: &[u64], n, constants: &[u64], facts: &[u64]| value(words, &arities(), n, constants, facts);
    assert_eq!(call(&leaf(7), 1, &[], &[]), Ok(7));
    assert_eq!(call(&leaf(7), 0, &[], &[]), Err(Refusal::Range));
    assert_eq!(call(&leaf(7), 2, &[2], &[]), Err(Refusal::Range));
    assert_eq!(call(&leaf(7), 2, &[1], &[1, 0, 2, 0, 0, 0, 0]), Err(Refusal::Range));
    assert_eq!(call(&leaf(7), 2, &[1], &[2, 1, 9, 9, 9, 9, 9]), Ok(7), "unused places are ignored");
    assert_eq!(call(&leaf(7), 2, &[1], &[3, 1, 1, 1, 1, 1, 2]), Err(Refusal::Range), "the sixth place is used");
    assert_eq!(call(&leaf(7), 2, &[1], &[3, 9, 9, 9, 9, 9]), Ok(7), "words behind the last whole row");
    assert_eq!(call(&test_of(2, &[P]), 0, &[], &[]), Err(Refusal::Range), "4 comes before 6");
    assert_eq!(call(&test_of(2, &[P]), 1, &[], &[]), Err(Refusal::Unbound));
    assert_eq!(call(&test_of(2, &[0]), 2, &[1], &[2, 1, 0, 0, 0, 0, 0]), Ok(1));
    assert_eq!(call(&test_of(2, &[0]), 2, &[0], &[2, 1, 0, 0, 0, 0, 0]), Ok(0));
    assert_eq!(call(&test_of(1, &[X, Y]), 1_000, &[], &[1, 5, 999, 0, 0, 0, 0]), Ok(1));
    assert_eq!(call(&test_of(1, &[X, Y]), 1_001, &[], &[]), Err(Refusal::Valuations), "1,002,001 entries");
    assert_eq!(call(&test_of(1, &[P, Y]), 1_001, &[], &[]), Err(Refusal::Unbound), "6 comes before 15");
    let all_six = test_of(3, &[X, Y, X + 2, X + 3, X + 4, X + 5]);
    assert_eq!(call(&all_six, 10, &[], &[3, 1, 2, 3, 4, 5, 9]), Ok(1));
    assert_eq!(call(&all_six, 11, &[], &[]), Err(Refusal::Valuations));
}

#[test]
fn cutting() {
    let call = |words: &[u64]| cut(words, &arities(), Lent::ENOUGH);
    assert_eq!(call(&leaf(1)), Err(Refusal::Nothing));
    assert_eq!(call(&test_of(2, &[X])), Err(Refusal::Nothing));
    // q(?a) or else q(?b): the false edge of q(?a) may go, since the path by q(?a) covers the one by q(?b).
    let label = |v: u64| Label::pack(2, &[v]).0;
    let either = [LEAF_MARK, 1, 0, LEAF_MARK, 0, 0, label(Y), 0, 1, label(X), 0, 2];
    let (left, edge) = call(&either).unwrap();
    assert_eq!(edge, (3, false));
    assert_eq!(left, test_of(2, &[X]));
}
