//! Random texts about one limit each: at it, just below and just past it.

use crate::random::Random;
use reference::diagram::LARGEST;
use reference::terms::{VariableKind, LARGEST_ARITY, PARAMETERS, PLACES, VARIABLES};

/// Of these one or a few together are about 10^18.
pub const LARGE_NUMBERS: [u64; 6] = [0, 1, LARGEST / 2, LARGEST / 2 + 1, LARGEST - 1, LARGEST];

/// The lines of a text about one limit.
pub fn lines(random: &mut Random) -> Vec<String> {
    match random.below(26) {
        0 => declarations(random),
        1 => variables(random),
        2 => brackets(random),
        3 => line_length(random),
        4 => facts(random),
        5 => scale(random),
        6 => largest_value(random),
        7 => valuations(random),
        8 => pairs(random),
        9 => paths_of_weights(random),
        10 => freed(random),
        11 => entries(random),
        12 => related(random),
        13 => runs(random),
        14 => combinations(random),
        15 => {
            let tests = about(random, 62);
            nested_form(random, tests)
        }
        16 => {
            let bytes = about(random, 4_095);
            long_form(random, bytes)
        }
        17 => ground_facts(random),
        18 => growing_states(random),
        19 => growing_bindings(random),
        20 => crowded_log(random),
        21 => high_log(random),
        22 => growing_log(random),
        23 => actions_apart(random),
        24 => minimum_paths(random),
        _ => variants_apart(random),
    }
}

/// A number from one below the limit to one past it.
fn about(random: &mut Random, limit: u64) -> u64 {
    random.between(limit - 1, limit + 1)
}

fn numbered(count: u64, line: impl Fn(u64) -> String) -> impl Iterator<Item = String> {
    (0..count).map(line)
}

/// A conjunction of `count` tests of p, each of a variable of its own, and a form.
fn conjunction(kind: VariableKind, count: u64, form: String) -> String {
    (0..count).rev().fold(form, |inner, v| format!("(if (p {}x{v}) {inner} 0)", kind.sign()))
}

/// One of tests of q, of up to six variables each: more variables than brackets that may be open.
fn wide_conjunction(kind: VariableKind, count: u64, form: String) -> String {
    let variables: Vec<String> = (0..count).map(|v| format!(" {}x{v}", kind.sign())).collect();
    let test = |inner: String, six: &[String]| format!("(if (q{}{}) {inner} 0)", six.concat(), six[0].repeat(PLACES - six.len()));
    variables.chunks(PLACES).rev().fold(form, test)
}

fn model(before: Vec<String>, reward: String) -> Vec<String> {
    let after = ["(action go)", "(variant only 100)", "(start)"].map(str::to_string);
    before.into_iter().chain([format!("(reward {reward})")]).chain(after).collect()
}

fn declarations(random: &mut Random) -> Vec<String> {
    let mut lines: Vec<String> = numbered(about(random, 16), |i| format!("(constant c{i})")).collect();
    lines.push(format!("(predicate wide {})", about(random, LARGEST_ARITY)));
    lines.extend(numbered(about(random, 31), |i| format!("(predicate p{i} {})", i % (LARGEST_ARITY + 1))));
    lines.push("(reward (if (= c15 c16) 1 (if (p30) 2 0)))".to_string());
    lines.push("(reward (if (= c15 c0) 1 (if (p28) (if (wide c0 c1 c2 c3 c4 c5) 2 3) 0)))".to_string());
    lines.push("(reward (if (= c15 c0) 1 (if (p28) 2 0)))".to_string());
    lines.extend(numbered(about(random, 8), |i| format!("(action a{i})")));
    let parameters: String = numbered(about(random, PARAMETERS), |i| format!(" !x{i}")).collect();
    lines.push(format!("(action wide{parameters})"));
    lines.extend(numbered(about(random, 8), |i| format!("(variant v{i} {})", 20 - i)));
    lines.push("(start)".to_string());
    lines
}

/// About 64 variables of one kind or of both.
fn variables(random: &mut Random) -> Vec<String> {
    let mut reward = "1".to_string();
    for kind in VariableKind::ALL {
        let count = if random.once_in(3) { random.below(4) } else { about(random, VARIABLES) };
        reward = wide_conjunction(kind, count, reward);
    }
    let mut lines = model(vec![format!("(predicate q {LARGEST_ARITY})")], reward);
    lines.extend(["(show)", "(cut)", "(objects 1)", "(value)"].map(str::to_string));
    lines
}

fn brackets(random: &mut Random) -> Vec<String> {
    let depth = about(random, 62);
    let reward = (0..depth).fold("0".to_string(), |inner, i| format!("(if (p{}) {inner} {})", i % 2, i % 3));
    let mut lines = model(numbered(2, |i| format!("(predicate p{i} 0)")).collect(), reward);
    lines.push("(show)".to_string());
    lines
}

fn line_length(random: &mut Random) -> Vec<String> {
    let head = "(reward (if (= c c) 7 ";
    let digits = about(random, 4_095) as usize - head.len() - 2;
    vec!["(constant c)".to_string(), format!("{head}{}))", "1".repeat(digits)), "(reward 1)".to_string()]
}

fn facts(random: &mut Random) -> Vec<String> {
    let mut lines = model(vec!["(predicate p 2)".to_string()], "(if (p ?x ?x) 3 1)".to_string());
    lines.push("(objects 40)".to_string());
    lines.extend(numbered(about(random, 1_024), |i| format!("(true p {} {})", i / 40, i % 40)));
    lines.extend(["(true p 0 0)", "(true p 39 39)", "(true p 40 0)", "(value)"].map(str::to_string));
    lines
}

fn scale(random: &mut Random) -> Vec<String> {
    let total = *random.pick(&[1, 2, 4, 10, 100, 1_000, 1_000_000]);
    let divisor = *random.pick(&[1, 2, 10, 1_000, 1_000_000]);
    let mut lines = vec![format!("(total {total})"), format!("(discount {} {divisor})", random.between(0, divisor))];
    lines.extend([
        format!("(reward {})", random.below(2)),
        "(action go)".to_string(),
        format!("(variant only {total})"),
        "(start)".to_string(),
    ]);
    lines.extend(vec!["(backup)".to_string(); 20]);
    lines.extend(["(objects 1)", "(value)", "(best)"].map(str::to_string));
    lines
}

fn largest_value(random: &mut Random) -> Vec<String> {
    let leaf = |random: &mut Random| *random.pick(&LARGE_NUMBERS);
    let reward = format!("(if (p) {} {})", leaf(random), leaf(random));
    let mut lines = vec!["(predicate p 0)".to_string(), "(total 1)".to_string(), format!("(reward {reward})"), "(action go)".to_string()];
    lines.extend(["(variant only 1)".to_string(), format!("(becomes (p) (if (p) {} 1))", random.below(2)), "(start)".to_string()]);
    lines.extend(["(backup)", "(show)", "(backup)", "(show)"].map(str::to_string));
    lines
}

fn valuations(random: &mut Random) -> Vec<String> {
    let (variables, objects) =
        *random.pick(&[(3, 64), (4, 31), (5, 15), (5, 16), (8, 6), (12, 3), (12, 4), (19, 2), (20, 2), (6, 11), (7, 8)]);
    // some of them minimum variables, which tables do not take the place of
    let minimum = if random.once_in(2) { random.between(1, variables) } else { 0 };
    let inside = conjunction(VariableKind::Minimum, minimum, "1".to_string());
    let mut lines = model(vec!["(predicate p 1)".to_string()], conjunction(VariableKind::Maximum, variables - minimum, inside));
    lines.extend([format!("(objects {objects})"), format!("(true p {})", objects - 1), "(value)".to_string()]);
    lines
}

/// Tests of p, each of a variable of its own, one below the other, with leaves that differ now and then and a form at the end. Over n objects a test has 2n + 1
/// entries, and a leaf one.
fn chain(random: &mut Random, variables: std::ops::Range<u64>, end: &str) -> String {
    let leaves = random.between(1, 60);
    variables.rev().fold(end.to_string(), |inner, v| match (random.below(leaves), random.once_in(3)) {
        (leaf, true) => format!("(if (p ?x{v}) {leaf} {inner})"),
        (leaf, false) => format!("(if (p ?x{v}) {inner} {leaf})"),
    })
}

/// A form below tests of propositions, which have two entries each.
fn below_propositions(count: u64, form: String) -> String {
    (0..count).rev().fold(form, |inner, g| format!("(if (g{g}) {inner} {})", g % 2))
}

/// A model with this reward, valued in a state of so many objects, and once more with one object more.
fn valued(random: &mut Random, propositions: u64, reward: &str, objects: u64) -> Vec<String> {
    let predicates = numbered(propositions, |g| format!("(predicate g{g} 0)"));
    let mut lines = model(predicates.chain(["(predicate p 1)", "(predicate r 2)"].map(str::to_string)).collect(), reward.to_string());
    for objects in [objects, (objects + 1).min(64)] {
        lines.extend([format!("(objects {objects})"), "(value)".to_string()]);
        lines.extend(numbered(random.below(propositions + 1), |g| format!("(true g{g})")));
        for _ in 0..random.below(20) {
            let (first, second) = (random.below(objects), random.below(objects));
            lines.push(if random.once_in(2) { format!("(true p {first})") } else { format!("(true r {first} {second})") });
        }
        lines.push("(value)".to_string());
    }
    lines
}

/// About 8,192 entries of tables by tests of one variable each: 64 objects have 8,127 in 63 tests. They stand in two chains, since brackets end at 64.
fn entries(random: &mut Random) -> Vec<String> {
    let (tests, propositions) = (random.between(62, VARIABLES), random.between(1, 8));
    let (first, second) = (chain(random, 1..tests / 2, "70"), chain(random, tests / 2..tests, "71"));
    let reward = below_propositions(propositions, format!("(if (p ?x0) {first} {second})"));
    let objects = random.between(63, 64);
    valued(random, propositions, &reward, objects)
}

/// About 8,192 entries by tests of a relation, a chain of them or some apart, below tests of one variable each.
fn related(random: &mut Random) -> Vec<String> {
    let (relations, tests, propositions) = (random.between(1, 6), random.between(3, 8), random.below(4));
    let apart = random.between(1, 2);
    let relation = |inner: String, i: u64| format!("(if (r ?y{} ?y{}) {inner} {})", apart * i, apart * i + 1, i % 3);
    let end = (0..relations).rev().fold("70".to_string(), relation);
    let reward = below_propositions(propositions, chain(random, 0..tests, &end));
    let most = (1..=64).rev().find(|n| relations * (2 * n * n + n) + tests * (2 * n + 1) <= 8_192).unwrap_or(1);
    let objects = random.between(most - 1, most);
    valued(random, propositions, &reward, objects)
}

/// A reward of so many variables of one kind, and a few of the other.
fn of_both_kinds(random: &mut Random, kind: VariableKind, variables: u64) -> String {
    let other = if kind == VariableKind::Maximum { VariableKind::Minimum } else { VariableKind::Maximum };
    let few = random.below(3) * random.below(3);
    conjunction(other, few, conjunction(kind, variables, "1".to_string()))
}

/// A backup whose minimum variables, set apart by the max over actions and by the sum with the reward, are about 64.
fn actions_apart(random: &mut Random) -> Vec<String> {
    let (variables, actions) = *random.pick(&[(21, 2), (22, 2), (32, 1), (33, 1), (16, 3), (17, 3), (8, 7), (9, 7)]);
    let reward = of_both_kinds(random, VariableKind::Minimum, variables);
    let mut lines = vec!["(predicate p 1)".to_string(), "(total 1)".to_string(), format!("(reward {reward})")];
    lines.extend((0..actions).flat_map(|i| [format!("(action go{i})"), "(variant only 1)".to_string()]));
    lines.extend(["(start)", "(objects 1)", "(best)", "(backup)", "(cut)", "(value)", "(best)", "(backup)"].map(str::to_string));
    lines
}

/// About 256 paths, of which one may test a minimum variable: 25 comes before 17, and 17 before 26.
fn minimum_paths(random: &mut Random) -> Vec<String> {
    let leaves: Vec<u64> = (1..about(random, 256)).collect();
    let end = *random.pick(&["(if (q %x) 9 8)", "(if (q %x) 9 8)", "(if (q ?x) 9 8)", "(if (= %x ?x) 9 8)"]);
    let predicates = numbered(9, |i| format!("(predicate p{i} 0)")).chain(["(predicate q 1)".to_string()]);
    let mut lines = model(predicates.collect(), tree(0, &leaves).replacen("1 ", &format!("{end} "), 1));
    lines.extend(["(cut)", "(reduce)"].map(str::to_string));
    lines
}

/// A backup whose variables of one kind, set apart, are about 64.
fn variants_apart(random: &mut Random) -> Vec<String> {
    let kind = *random.pick(&VariableKind::ALL);
    let (variables, variants) = *random.pick(&[(16, 3), (22, 2), (21, 2), (32, 1), (33, 1), (8, 7), (9, 6), (8, 8)]);
    let parameters: String = numbered(random.below(5), |i| format!(" !a{i}")).collect();
    let mut lines = vec!["(predicate p 1)".to_string(), format!("(total {variants})")];
    lines.push(format!("(reward {})", of_both_kinds(random, kind, variables)));
    lines.push(format!("(action go{parameters})"));
    lines.extend(numbered(variants, |i| format!("(variant v{i} 1)")));
    lines.extend(["(start)", "(objects 1)", "(best)", "(backup)", "(cut)", "(best)", "(backup)"].map(str::to_string));
    lines
}

/// Two backups. In the second, the first action's sum has 63 variables, which its parameters move up: one, and the last of them is the last there is.
fn freed(random: &mut Random) -> Vec<String> {
    const SIDES: [&str; 7] = [
        "(if (a) (if (b) (if (c) 1 0) 0) 0)",
        "(if (a) (if (b) (if (c) 0 1) 0) 0)",
        "(if (a) (if (b) 0 (if (c) 1 0)) 0)",
        "(if (a) (if (b) 0 (if (c) 0 1)) 0)",
        "(if (a) 0 (if (b) (if (c) 1 0) 0))",
        "(if (a) 0 (if (b) (if (c) 0 1) 0))",
        "(if (a) 0 (if (b) 0 1))",
    ];
    const QUARTERS: [&str; 4] =
        ["(if (a) (if (b) 1 0) 0)", "(if (a) (if (b) 0 1) 0)", "(if (a) 0 (if (b) 1 0))", "(if (a) 0 (if (b) 0 1))"];
    let predicates = [("a", 0), ("b", 0), ("c", 0), ("d", 0), ("e", 0), ("f", 0), ("p", 1), ("q", 2)];
    let mut lines: Vec<String> = predicates.iter().map(|(name, arity)| format!("(predicate {name} {arity})")).collect();
    lines.extend(["(total 1)", "(discount 1 1)", "(reward (if (p ?x) 1 0))"].map(str::to_string));
    let parameters: String = numbered(random.below(PARAMETERS), |i| format!(" !x{i}")).collect();
    lines.push(format!("(action wide{parameters})"));
    for (i, weight) in SIDES.iter().enumerate() {
        lines.push(format!("(variant v{i} {weight})"));
        lines.extend([("a", "d"), ("b", "e"), ("c", "f")].map(|(now, next)| format!("(becomes ({now}) (if ({next}) 1 0))")));
    }
    lines.push("(action seen !x0 !x1 !x2 !x3)".to_string());
    for (i, weight) in QUARTERS.iter().enumerate() {
        lines.extend([format!("(variant v{i} {weight})"), format!("(becomes (p ?x) (if (q !x{i} ?x) 1 0))")]);
        lines.extend(["(becomes (q ?x ?y) 0)", "(becomes (a) 1)", "(becomes (b) 1)", "(becomes (c) 1)"].map(str::to_string));
    }
    lines.extend(["(start)", "(backup)", "(objects 1)", "(best)", "(backup)", "(value)"].map(str::to_string));
    lines
}

/// A tree of tests of p{first}, p{first + 1}, .. over these leaves.
fn tree(first: u64, leaves: &[u64]) -> String {
    tree_of("p", "", first, leaves)
}

/// The same of predicates of another name, each with these terms.
fn tree_of(name: &str, terms: &str, first: u64, leaves: &[u64]) -> String {
    if let [leaf] = leaves {
        return leaf.to_string();
    }
    let (yes, no) = leaves.split_at(leaves.len() / 2);
    format!("(if ({name}{first}{terms}) {} {})", tree_of(name, terms, first + 1, yes), tree_of(name, terms, first + 1, no))
}

/// About 512 valuations times paths: propositions with one test of all variables, or one of each, at their end. Four variables have 512 with one test, which then meets 28.
fn runs(random: &mut Random) -> Vec<String> {
    let (end, paths) = *random.pick(&[
        ("(if (q ?x) 9 8)", 256),
        ("(if (r ?x ?y) 9 8)", 128),
        ("(if (q ?x) (if (q ?y) 9 8) 7)", 128),
        ("(if (q ?x) (if (q ?y) (if (q ?z) 9 8) 7) 6)", 18),
        ("(if (r ?x ?y) (if (r ?y ?z) 9 8) 7)", 18),
        ("(if (s ?x ?y ?z ?w) 9 8)", 2),
        ("(if (t ?x ?y ?z ?w ?v) 9 8)", 2),
    ]);
    let below = 1 + end.matches("(if").count() as u64;
    let above: Vec<u64> = (1..=(about(random, paths) + 1).saturating_sub(below).max(1)).collect();
    let predicates = [("q", 1), ("r", 2), ("s", 4), ("t", 5)].map(|(name, arity)| format!("(predicate {name} {arity})"));
    let reward = tree(0, &above).replacen("1 ", &format!("{end} "), 1);
    let reward = if above.len() == 1 { end.to_string() } else { reward };
    let mut lines = model(numbered(9, |i| format!("(predicate p{i} 0)")).chain(predicates).collect(), reward);
    lines.extend(["(cut)", "(reduce)", "(show)", "(reduce)"][random.below(2) as usize..].iter().map(|line| line.to_string()));
    lines
}

/// About 100,000 combinations, at the ends of a few propositions: n paths by tests of both variables form n + n^2 + n^3 + n^4, by tests of one variable 2 * (n + n^2), and 17 and 10
/// of the first kind 99,850.
fn combinations(random: &mut Random) -> Vec<String> {
    let leaves = |count: u64| (1..=count).collect::<Vec<u64>>();
    let both = |count: u64| tree_of("r", " ?x ?y", 0, &leaves(count));
    let mut end = |large: bool| match random.below(if large { 2 } else { 6 }) {
        0 => both(3),
        1 => both(2),
        2 => tree_of("q", " ?x", 0, &leaves(random.between(2, 4))),
        3 => "(if (q0 ?x) (if (q0 ?y) 9 8) 7)".to_string(),
        4 => "5".to_string(),
        _ => "(if (q1 ?x) (if (r0 ?x ?y) 9 8) 7)".to_string(),
    };
    let small = format!("(if (p1) {} (if (p2) {} {}))", end(true), end(true), end(false));
    let reward = format!("(if (p0) (if (p1) {} {}) {small})", both(17), both(10));
    let predicates = [("p", 0), ("q", 1), ("r", 2)].map(|(name, arity)| numbered(5, move |i| format!("(predicate {name}{i} {arity})")));
    let mut lines = model(predicates.into_iter().flatten().collect(), reward);
    lines.extend(["(reduce)", "(show)"].map(str::to_string));
    lines
}

/// A model of one certain outcome, with (text) before and after a backup. A reward in hand is doubled by it.
fn printed_as_form(declarations: Vec<String>, reward: String, becomes: &str) -> Vec<String> {
    let before = ["(total 1)".to_string(), "(discount 1 1)".to_string(), format!("(reward {reward})")];
    let behind = ["(action go)", "(variant only 1)", becomes, "(start)", "(text)", "(backup)", "(text)", "(show)"].map(str::to_string);
    declarations.into_iter().chain(before).chain(behind).collect()
}

/// So many tests inside one another, about 62, the last of them (more), which the backup brings.
pub fn nested_form(random: &mut Random, tests: u64) -> Vec<String> {
    let above = tests - 2;
    let mut declarations: Vec<String> = numbered(16, |c| format!("(constant c{c})")).collect();
    declarations.extend(numbered(4, |p| format!("(predicate p{p} 1)")));
    declarations.extend(["(predicate last 0)", "(predicate more 0)"].map(str::to_string));
    let leaf = random.between(1, 9);
    let chain = (0..above).rev().fold(format!("(if (last) {leaf} 0)"), |inner, i| match random.once_in(8) {
        true => format!("(if (p{} c{}) 0 {inner})", i / 16, i % 16),
        false => format!("(if (p{} c{}) {inner} 0)", i / 16, i % 16),
    });
    printed_as_form(declarations, chain, "(becomes (last) (if (more) 1 0))")
}

/// A reward line of so many bytes, about 4,095, the last of them by the backup, since one leaf has a digit more then: 38 tests of six long names and one of a name that fits.
pub fn long_form(random: &mut Random, bytes: u64) -> Vec<String> {
    let rest = bytes as usize - "(reward )".len() - 38 * 107 - "(if (r ) 10 0)".len();
    let long = |c: u64| format!("wholesalebranc{}", char::from(b'a' + c as u8));
    let mut declarations: Vec<String> = numbered(14, |c| format!("(constant {})", long(c))).collect();
    declarations.extend([format!("(constant {})", "z".repeat(rest)), "(predicate q 6)".to_string(), "(predicate r 1)".to_string()]);
    let leaf = random.between(5, 9);
    let test = |inner: String, i: u64| {
        let (first, next, last) = (format!(" {}", long(0)).repeat(4), long(i / 14), long(i % 14));
        format!("(if (q{first} {next} {last}) {inner} 0)")
    };
    let reward = (0..38).rev().fold(format!("(if (r {}) {leaf} 0)", "z".repeat(rest)), test);
    printed_as_form(declarations, reward, "(becomes (q ?a ?b ?c ?d ?e ?f) (if (q ?a ?b ?c ?d ?e ?f) 1 0))")
}

/// About 16 ground facts, of predicates that the reward tests and of one that it does not.
fn ground_facts(random: &mut Random) -> Vec<String> {
    let (arities, objects) =
        *random.pick(&[(&[0; 13][..], 3), (&[1], 13), (&[1, 1], 6), (&[2], 3), (&[2, 1, 1], 2), (&[3, 2, 0], 2), (&[0; 13], 64)]);
    let facts: u64 = arities.iter().map(|arity| u64::pow(objects, *arity)).sum();
    let mut lines: Vec<String> = arities.iter().enumerate().map(|(p, arity)| format!("(predicate p{p} {arity})")).collect();
    lines.extend(numbered((about(random, 16)).saturating_sub(facts), |g| format!("(predicate g{g} 0)")));
    let atom = |p: usize| format!("(p{p}{})", " ?x".repeat(arities[p] as usize));
    let last = arities.len() - 1;
    let reward = format!("(if {} (if {} 3 {}) {})", atom(0), atom(last), random.below(5), random.below(5));
    let mut lines = model(lines, reward);
    lines.extend([format!("(count {objects})"), format!("(objects {objects})"), "(best)".to_string(), format!("(count {})", objects + 1)]);
    lines
}

/// A test of p that four variables stay named below, since equalities above test them, and some tests of variables of their own: over five objects each fact of p brings 624
/// entries more, and with four or five of them 15 is met.
fn growing(name: &str, below: u64) -> String {
    let test = |v: u64, inner: String, leaf: u64| format!("(if ({name} ?v{v}) {inner} {leaf})");
    let end = (5..5 + below).rev().fold("9".to_string(), |inner, v| test(v, inner, 0));
    let chain = (1..5).rev().fold(end, |inner, v| test(v, inner, v));
    format!("(if (= ?v1 ?v2) (if (= ?v3 ?v4) {} 0) 0)", test(0, chain, 6))
}

/// States of five objects of which some meet 15, and of four, of which none does.
fn growing_states(random: &mut Random) -> Vec<String> {
    let below = random.between(2, 45);
    let mut lines = model(vec!["(predicate p 1)".to_string()], growing("p", below));
    lines.extend(["(count 5)", "(count 4)", "(objects 5)", "(count 5)"].map(str::to_string));
    for object in 0..5 {
        lines.extend([format!("(true p {object})"), "(value)".to_string(), "(best)".to_string()]);
    }
    lines
}

/// Moves of which some meet 15: an action makes p of all that r relates to its object. The actions behind it may meet 11, or need more variables than there are.
fn growing_bindings(random: &mut Random) -> Vec<String> {
    let below = random.between(2, 45);
    let mut lines: Vec<String> = ["(predicate big 0)", "(predicate p 1)", "(predicate r 2)", "(total 2)"].map(str::to_string).to_vec();
    lines.push(format!("(reward (if (big) 1000000000000000000 {}))", growing("p", below)));
    lines.extend(["(action relate !a)", "(variant only 2)", "(becomes (big) 0)"].map(str::to_string));
    lines.push("(becomes (p ?x) (if (r !a ?x) 1 0))".to_string());
    let others = [["(action keep)", "(variant only 2)"], ["(action rest)", "(variant some 1)"]];
    let other = random.below(3) as usize;
    lines.extend(others[..other.min(1)].iter().flatten().map(|line| line.to_string()));
    if other == 2 {
        lines.extend(others[1].map(str::to_string));
        lines.push("(variant others 1)".to_string());
    }
    lines.extend(["(start)", "(objects 5)"].map(str::to_string));
    for _ in 0..random.between(4, 12) {
        let (from, to) = (random.below(5), random.below(5));
        lines.push(format!("(true r {from} {to})"));
    }
    lines.push("(best)".to_string());
    let full = random.below(5);
    lines.extend(numbered(5, |to| format!("(true r {full} {to})")));
    lines.extend(["(best)", "(value)"].map(str::to_string));
    lines
}

/// Logs in which a line leaves about 1,024 facts: p of all pairs of the 31 objects that r marks, these, and some of q, which stay.
fn crowded_log(random: &mut Random) -> Vec<String> {
    let staying = about(random, 1_024) - 31 * 31 - 31;
    let mut lines: Vec<String> =
        ["(predicate p 2)", "(predicate r 1)", "(predicate q 2)", "(total 1)", "(reward (if (p ?x ?x) 3 1))"].map(str::to_string).to_vec();
    lines.extend(
        ["(action fill)", "(variant all 1)", "(becomes (p ?a ?b) (if (r ?a) (if (r ?b) 1 0) (if (p ?a ?b) 1 0)))"].map(str::to_string),
    );
    lines.extend(["(action clear !a)", "(variant all 1)", "(becomes (p ?a ?b) (if (= ?a !a) 0 (if (p ?a ?b) 1 0)))"].map(str::to_string));
    lines.extend(["(start)", "(objects 40)", "(true p 39 39)"].map(str::to_string));
    let first = random.below(9);
    lines.extend(numbered(31, |object| format!("(true r {})", first + object)));
    lines.extend(numbered(staying, |number| format!("(true q {} {})", number % 40, number / 40)));
    let clear = format!("(did clear all {})", random.pick(&[39, 39, 20]));
    lines.extend(
        ["(did fill all)", &clear, "(did fill all)", "(value)", "(did clear all 20)", "(true q 39 39)", "(did fill all)", "(value)"]
            .map(str::to_string),
    );
    lines
}

/// Logs whose total is about 10^18: by the first line, which adds the reward before it too, or by later ones.
fn high_log(random: &mut Random) -> Vec<String> {
    let mut leaf = || random.pick(&LARGE_NUMBERS).to_string();
    let reward = format!("(if (p) (if (q) {} {}) (if (q) {} {}))", leaf(), leaf(), leaf(), leaf());
    let mut lines: Vec<String> = ["(predicate p 0)", "(predicate q 0)", "(total 1)"].map(str::to_string).to_vec();
    lines.push(format!("(reward {reward})"));
    for (name, truth) in [("p", 1), ("q", 1), ("p", 0), ("q", 0)] {
        // what is so already cannot become so, and stays
        let (done, none) = if truth == 1 { ("0 1", "1 0") } else { ("1 0", "0 1") };
        lines.push(format!("(action {name}{truth})"));
        lines.extend([format!("(variant done (if ({name}) {done}))"), format!("(becomes ({name}) {truth})")]);
        lines.push(format!("(variant none (if ({name}) {none}))"));
    }
    lines.extend(["(start)", "(objects 1)"].map(str::to_string));
    for _ in 0..random.between(6, 14) {
        let way = *random.pick(&["done", "done", "none"]);
        lines.push(match random.below(9) {
            0 => "(true p)".to_string(),
            1 => "(true q)".to_string(),
            _ => format!("(did {} {way})", random.pick(&["p0", "p1", "q0", "q1"])),
        });
    }
    lines
}

/// Logs in which the reward before the first line, or behind a line, may meet 15: each fact of p brings entries, and the moves make p true of all that r relates to an object, or false.
fn growing_log(random: &mut Random) -> Vec<String> {
    let below = random.between(2, 45);
    let mut lines: Vec<String> = ["(predicate p 1)", "(predicate r 2)", "(total 1)"].map(str::to_string).to_vec();
    lines.push(format!("(reward {})", growing("p", below)));
    lines.extend(["(action relate !a)", "(variant all 1)", "(becomes (p ?x) (if (r !a ?x) 1 (if (p ?x) 1 0)))"].map(str::to_string));
    lines.extend(["(action drop !a)", "(variant one 1)", "(becomes (p ?x) (if (= ?x !a) 0 (if (p ?x) 1 0)))"].map(str::to_string));
    lines.extend(["(start)", "(objects 5)"].map(str::to_string));
    lines.extend(numbered(random.below(6), |object| format!("(true p {object})")));
    for _ in 0..random.between(3, 9) {
        lines.push(format!("(true r {} {})", random.below(5), random.below(5)));
    }
    for _ in 0..random.between(4, 9) {
        let object = random.below(5);
        lines.push(match random.below(8) {
            0 => format!("(true p {object})"),
            1 => "(value)".to_string(),
            2..5 => format!("(did drop one {object})"),
            _ => format!("(did relate all {object})"),
        });
    }
    lines
}

/// Two weights, one above the other, of about 4,096 pairs: 8 leaves over 511 rows are 4,095.
fn pairs(random: &mut Random) -> Vec<String> {
    let above: Vec<u64> = (0..about(random, 8)).map(|i| 256 * i).collect();
    let below: Vec<u64> = (0..random.between(252, 256)).collect();
    let mut lines: Vec<String> = numbered(13, |i| format!("(predicate p{i} 0)")).collect();
    lines.extend(["(reward 0)", "(action go)"].map(str::to_string));
    lines.push(format!("(variant above {})", tree(0, &above)));
    lines.push(format!("(variant below {})", tree(5, &below)));
    lines.push("(start)".to_string());
    lines
}

/// Weights of about 256 paths, wrong where no state goes or where one does: 253 ends of a tree and three ways past it.
fn paths_of_weights(random: &mut Random) -> Vec<String> {
    let ends: Vec<u64> = (0..about(random, 253)).map(|i| if i % 2 == 0 { i } else { 500 }).collect();
    let last = *random.pick(&["c2", "c2", "c3"]);
    let mut lines: Vec<String> = numbered(4, |i| format!("(constant c{i})")).collect();
    lines.extend(numbered(8, |i| format!("(predicate p{i} 0)")));
    lines.extend(["(total 500)", "(reward 1)", "(action go)"].map(str::to_string));
    lines.push(format!("(variant only (if (= c0 c1) (if (= c1 c2) (if (= c0 {last}) 500 {}) 500) 500))", tree(0, &ends)));
    lines.extend(["(start)", "(backup)"].map(str::to_string));
    lines
}
