//! The reason that is told for a line is one of the very refusal that the line is answered, and a line that is taken has none.

use reference::explain::{explain, Fault};
use reference::session::Session;
use reference::slips::Slips;
use reference::text::lines;

/// Every refused line of a text with its reason.
fn faults(text: &[u8]) -> Vec<(usize, Fault)> {
    let mut session = Session::new(Slips::NONE);
    let mut found = Vec::new();
    for (number, (line, ended)) in lines(text).into_iter().enumerate() {
        let fault = explain(&session, line, ended);
        let refused = if ended { session.take(line).err() } else { Some(reference::refusal::Refusal::Form) };
        assert_eq!(fault.as_ref().map(|fault| fault.refusal), refused, "line {}: {}", number + 1, line.escape_ascii());
        if let Some(fault) = fault {
            assert!(fault.span.0 <= fault.span.1 && fault.span.1 <= line.len(), "{fault:?}");
            found.push((number + 1, fault));
        }
    }
    found
}

fn texts() -> Vec<(String, Vec<u8>)> {
    let folder = |name: &str| format!("{}/../{name}", env!("CARGO_MANIFEST_DIR"));
    let files = ["corpus", "../examples"].map(|name| std::fs::read_dir(folder(name)).expect("a folder"));
    let paths = files.into_iter().flatten().map(|file| file.expect("a file").path());
    let texts = paths.filter(|path| path.extension().is_some_and(|extension| extension == "txt"));
    texts.map(|path| (path.display().to_string(), std::fs::read(&path).expect("a text"))).collect()
}

#[test]
fn stored_texts() {
    for (name, text) in texts() {
        println!("{name}");
        faults(&text);
    }
}

/// Texts with a few bytes changed; only short ones, which are soon run.
#[test]
fn damaged_texts() {
    let mut random = 1_u64;
    let mut below = |bound: usize| {
        random = random.wrapping_mul(6_364_136_223_846_793_005).wrapping_add(1_442_695_040_888_963_407);
        (random >> 33) as usize % bound
    };
    let long = ["/combinations-", "/crowded-", "/ground-", "/count-", "/valuations-of-"];
    let short = |(name, text): &(String, Vec<u8>)| text.len() < 1_500 && !long.iter().any(|long| name.contains(long));
    for (name, text) in texts().into_iter().filter(short) {
        println!("{name}");
        for _ in 0..20 {
            let mut damaged: Vec<u8> =
                text.split_inclusive(|byte| *byte == b'\n').filter(|line| *line != b"(backup)\n").collect::<Vec<_>>().concat();
            for _ in 0..1 + below(3) {
                let at = below(damaged.len() + 1);
                match below(3) {
                    0 => damaged.insert(at, b"()  ?%!=az09A\t\r\n"[below(16)]),
                    1 if at < damaged.len() => damaged[at] = b"()  ?%!=az09A\t\r\n"[below(16)],
                    _ if at < damaged.len() => drop(damaged.remove(at)),
                    _ => damaged.push(b'\r'),
                }
            }
            faults(&damaged);
        }
    }
}

fn only_fault(text: &str) -> (usize, usize, String, String) {
    let mut found = faults(text.as_bytes());
    assert_eq!(found.len(), 1, "{found:?}");
    let (line, fault) = found.remove(0);
    (line, fault.span.0 + 1, fault.what, fault.advice)
}

#[test]
fn weights_that_do_not_add_up() {
    let text =
        "(predicate heavy 1)\n(total 4)\n(reward 1)\n(action lift !p)\n(variant done (if (heavy !p) 2 3))\n(variant fails 1)\n(start)\n";
    let (line, column, what, _) = only_fault(text);
    assert_eq!((line, column), (7, 1));
    assert_eq!(what, "the weights of action \"lift\" do not add up to 4 in every case: where heavy(!p) the sum is 3");
}

/// The wrong case that is told is one that a state goes to: the path through a = b, a = c and b differs from c has the same sum and is passed over.
#[test]
fn weights_where_no_state_goes() {
    let constants = "(constant a)\n(constant b)\n(constant c)\n(total 4)\n(reward 1)\n(action lift)\n";
    let impossible = "(if (= a c) (if (= b c) 4 3) 4)";
    assert!(faults(format!("{constants}(variant done (if (= a b) {impossible} 4))\n(start)\n").as_bytes()).is_empty());
    let weight = format!("(if (= a b) {impossible} (if (= a c) 4 (if (= b c) 3 4)))");
    let (line, _, what, _) = only_fault(&format!("{constants}(variant done {weight})\n(start)\n"));
    assert_eq!(line, 8);
    assert_eq!(what, "the weights of action \"lift\" do not add up to 4 in every case: where a is not b, a is not c, b = c the sum is 3");
}

#[test]
fn weights_of_many_paths() {
    let predicates: String = (0..9).map(|i| format!("(predicate p{i} 0)\n")).collect();
    let variants: String = (0..7).map(|i| format!("(variant v{i} (if (p{i}) 1 0))\n")).collect();
    let text = format!("{predicates}(reward 1)\n(action lift)\n{variants}(variant v7 (if (p7) (if (p8) 1 2) 0))\n(start)\n");
    let (line, column, what, _) = only_fault(&text);
    assert_eq!((line, column), (20, 1));
    assert_eq!(what, "the weights of action \"lift\", added up, have 384 paths; at most 256");
}

/// What a reduction meets, against its limits; the label and the constant at fault by name.
#[test]
fn reductions_refused() {
    let told = |declared: &str, reward: &str| {
        let (line, column, what, _) =
            only_fault(&format!("{declared}(reward {reward})\n(action wait)\n(variant only 100)\n(start)\n(reduce)\n"));
        assert_eq!((line, column), (declared.lines().count() + 5, 1));
        what
    };
    let (hub, t) = ("(constant hub)\n(predicate near 2)\n", "(predicate t 6)\n");
    let kinds = "a reduction is for diagrams without equality, constants and minimum variables";
    assert_eq!(told(hub, "(if (near ?x hub) 5 0)"), format!("after step 0: the value diagram of 3 rows tests near(?v0, hub); {kinds}"));
    assert_eq!(told("", "(if (= ?x ?y) 5 0)"), format!("after step 0: the value diagram of 3 rows tests ?v0 = ?v1; {kinds}"));
    assert_eq!(told(hub, "(if (near ?x %x) 5 0)"), format!("after step 0: the value diagram of 3 rows tests near(?v0, %v0); {kinds}"));
    assert_eq!(
        told(t, "(if (t ?a ?b ?c ?d ?e ?f) 5 0)"),
        "after step 0: the value diagram of 3 rows has 6 variables and 2 paths: 6^6 valuations over as many objects, times the paths, are 93,312; at most 512"
    );
    assert_eq!(
        told(t, "(if (t ?a ?b ?c ?a ?a ?a) 5 0)"),
        "after step 0: the value diagram of 3 rows has 3 variables and 2 paths, which combine in more than 100,000 ways"
    );
}

/// A form that is too long, by its bytes and by its brackets.
#[test]
fn a_form_that_is_too_long() {
    let name = |c: u64| format!("wholesalebranch{c}")[4..].to_string();
    let constants: String = (0..10).map(|c| format!("(constant {})\n", name(c))).collect();
    let tests = (0..62).rev().fold("5".to_string(), |inner, i| format!("(if (near {} {}) {inner} 0)", name(i / 10), name(i % 10)));
    let text = format!("{constants}(predicate near 2)\n(predicate last 0)\n(total 1)\n(reward {tests})\n(action wait)\n(variant only 1)\n");
    let (line, column, what, _) =
        only_fault(&format!("{text}(becomes (near ?a ?b) (if (last) 1 (if (near ?a ?b) 1 0)))\n(start)\n(text)\n(backup)\n(text)\n"));
    assert_eq!((line, column), (21, 1));
    assert_eq!(
        what,
        "after step 1: the value diagram of 66 rows, written out as a form, makes a reward line of 3,422 bytes with 65 brackets open together; at most 4,095 and 64"
    );
}

/// What (best) and (count n) miss or meet: the state, a constant, the call or the move, the ground facts, a state.
#[test]
fn moves_and_spreads_refused() {
    let model = "(constant hub)\n(predicate near 2)\n(total 2)\n(discount 1 1)\n(reward (if (near hub ?x) 500000000000000001 0))\n(action go !a)\n(variant only 2)\n(start)\n";
    let told = |lines: &str| {
        let (line, column, what, advice) = only_fault(&format!("{model}{lines}"));
        assert_eq!(line, 8 + lines.lines().count());
        (column, what, advice)
    };
    assert_eq!(told("(best)\n"), (1, "no (objects n) was accepted before it".into(), "begin the state with (objects n)".into()));
    assert_eq!(told("(objects 2)\n(best)\n").1, "not placed in this state: hub");
    assert_eq!(told("(count 2)\n").1, "not placed in this state: hub");
    let placed = "(objects 5)\n(is hub 3)\n";
    assert_eq!(
        told(&format!("{placed}(best)\n")).1,
        "the move of step 1: action go, variant only, the regressed value times the weight (3 rows and 1 row): a leaf of 1,000,000,000,000,000,002; at most 1,000,000,000,000,000,000"
    );
    assert_eq!(told(&format!("{placed}(count 3)\n")).0, 8);
    assert_eq!(told(&format!("{placed}(count 3)\n")).1, "\"hub\" is placed on object 3, and states of 3 objects have none");
    assert_eq!(told(&format!("{placed}(count 65)\n")).1, "the count of objects is 65; it is from 1 to 64");
    assert_eq!(told(&format!("{placed}(count 5)\n")).1, "states of 5 objects have 25 ground facts (near 25); at most 16");
    let stored = |name: &str| std::fs::read(format!("{}/../corpus/{name}.txt", env!("CARGO_MANIFEST_DIR"))).expect(name);
    let tables = "5^9 = 1,953,125 valuations, 5 objects and 9 variables, are more than 1,000,000, and the tables in their place have more than 8,192 entries";
    assert_eq!(faults(&stored("valuations-of-one-move"))[0].1.what, format!("the move of step 1: (relate 2): {tables}"));
    assert_eq!(faults(&stored("valuations-of-the-last-state"))[0].1.what, format!("in some of the states {tables}"));
}

/// %name where it is no word of the form, where it is not allowed, and what a diagram with one does not do.
#[test]
fn minimum_variables() {
    let refused = |line: &str| only_fault(&format!("(predicate near 2)\n{line}\n")).2;
    assert_eq!(refused("(action go %a)"), "here should stand a parameter, !name, and there is the minimum variable \"%a\"");
    assert_eq!(refused("(reward %a)"), "here should stand a diagram, and there is the minimum variable \"%a\"");
    assert_eq!(refused("(reward (if (near %A ?b) 1 0))"), "\"%A\" holds upper-case letters");
    let action = "(action go !a)\n(variant only 100)\n";
    assert_eq!(
        refused(&format!("{action}(becomes (near ?a %b) 1)")),
        "the arguments of a (becomes) are variables, ?name, and there is the minimum variable \"%b\""
    );
    assert_eq!(refused("(action go !a)\n(variant only (if (near !a %b) 1 0))"), "a weight names a minimum variable, \"%b\"");
    let (line, column, what, advice) = only_fault(&format!("(predicate near 2)\n{action}(becomes (near ?a ?b) (if (near ?b %a) 1 0))\n"));
    assert_eq!((line, column, what.as_str()), (4, 36, "a (becomes) names a minimum variable, \"%a\""));
    assert!(advice.starts_with("minimum variables are for rewards"), "{advice}");
    let model = format!("(predicate near 2)\n(reward (if (near ?a %b) (if (near ?b %c) 5 1) 0))\n{action}(start)\n");
    assert_eq!(
        only_fault(&format!("{model}(cut)\n")).2,
        "after step 0: the value diagram of 5 rows tests near(?v1, %v1); a cut is for diagrams without minimum variables"
    );
    let (_, _, what, advice) = only_fault(&format!("{model}(objects 33)\n(value)\n"));
    assert_eq!(
        what,
        "33^4 = 1,185,921 valuations, 33 objects and 4 variables, are more than 1,000,000, and no tables take their place where there is a minimum variable"
    );
    assert_eq!(
        advice,
        "put fewer objects into the state (those that matter), or take a step less or a reward of fewer variables, so that the diagram has fewer"
    );
    let wide = |count: u64, inner: &str| {
        let names: Vec<String> = (0..count).map(|i| format!(" %x{i}")).collect();
        names.chunks(6).fold(inner.to_string(), |inner, six| format!("(if (t{}{}) {inner} 0)", six.concat(), six[0].repeat(6 - six.len())))
    };
    let (_, _, what, _) = only_fault(&format!("(predicate t 6)\n(reward {})\n", wide(65, "1")));
    assert_eq!(what, "the line names 65 minimum variables; at most 64");
    let text = format!("(predicate t 6)\n(total 1)\n(reward {})\n(action go)\n(variant only 1)\n(start)\n(backup)\n", wide(33, "1"));
    let (_, _, what, advice) = only_fault(&text);
    assert_eq!(what, "step 1: the best action plus the reward (8 rows and 8 rows): 66 minimum variables together, 33 and 33; at most 64");
    assert!(advice.starts_with("take fewer variants"), "{advice}");
}

#[test]
fn a_misspelt_name() {
    let (line, column, what, advice) = only_fault("(predicate shelf 1)\n(reward (if (shelv ?p) 1 0))\n");
    assert_eq!((line, column, what.as_str()), (2, 14, "no predicate \"shelv\" is declared"));
    assert!(advice.starts_with("did you mean \"shelf\"?"), "{advice}");
}

#[test]
fn line_ends() {
    assert_eq!(only_fault("(constant hub)\r\n").2, "the line ends with CR LF, a carriage return before the line feed");
    assert_eq!(only_fault("(constant hub)").2, "the last line has no line feed at its end");
}

#[test]
fn blank_lines() {
    assert!(faults(b"\n\n(constant hub)\n\n").is_empty());
    assert_eq!(only_fault("\n\r\n").2, "the line is empty but for a carriage return (CR LF)");
    let (line, column, what, advice) = only_fault("\n\n \n");
    assert_eq!((line, column, what.as_str()), (3, 1, "the line begins with a space or a tab"));
    assert_eq!(advice, "a line is one form in brackets, such as (start), or blank, without even a space; there are no comments");
    assert_eq!(only_fault("\n\nx").2, "the last line has no line feed at its end");
}

#[test]
fn a_backup_refused_for_its_scale() {
    let text = "(total 1000000)\n(discount 1 1000000)\n(reward 1)\n(action wait)\n(variant only 1000000)\n(start)\n(backup)\n(backup)\n";
    let (line, _, what, _) = only_fault(text);
    assert_eq!(line, 8);
    assert_eq!(what, "step 2: the scale 1,000,000,000,000^2 = 1,000,000,000,000,000,000,000,000; at most 1,000,000,000,000,000,000");
}

/// What a line of a log meets: a word, the weight on the state's way through it, the facts, the reward before and after, the sums.
#[test]
fn log_lines_refused() {
    let model = "(constant hub)\n(predicate stock 1)\n(predicate near 2)\n(total 4)\n(reward (if (stock hub) 600000000000000000 0))\n\
        (action fill !d !e)\n(variant done (if (near !d !e) (if (stock !e) 3 0) 4))\n(becomes (stock ?s) (if (= !d ?s) 1 (if (stock ?s) 1 0)))\n\
        (variant none (if (near !d !e) (if (stock !e) 1 4) 0))\n(action join)\n(variant all 4)\n(becomes (near ?a ?b) 1)\n(start)\n";
    let told = |lines: &str| {
        let (line, column, what, advice) = only_fault(&format!("{model}{lines}"));
        assert_eq!(line, 13 + lines.lines().count());
        (column, what, advice)
    };
    assert_eq!(told("(did fill done 0 0)\n").1, "no (objects n) was accepted before it");
    assert_eq!(told("(objects 2)\n(did fill done 0 0)\n").1, "not placed in this state: hub");
    let placed = |lines: &str| told(&format!("(objects 34)\n(is hub 1)\n{lines}\n"));
    assert_eq!(
        placed("(did fll done 0 0)"),
        (6, "the model has no action \"fll\"".into(), "did you mean \"fill\"? Otherwise its actions are fill, join".into())
    );
    assert_eq!(
        placed("(did fill done 0)"),
        (
            6,
            "\"fill\" has 2 parameters, and here it has 1 object".into(),
            "(action fill !d !e) says how many; write an object for each".into()
        )
    );
    assert_eq!(
        placed("(did fill all 0 0)"),
        (11, "the action \"fill\" has no variant \"all\"; there is one in \"join\"".into(), "its variants are done, none".into())
    );
    assert_eq!(placed("(did fill done 0 34)").0, 18);
    assert_eq!(placed("(did fill done)").1, "\"fill\" has 2 parameters, and here it has 0 objects");
    let (column, what, advice) = placed("(true near 0 1)\n(did fill done 0 1)");
    assert_eq!(
        (column, what.as_str()),
        (1, "variant \"done\" of action \"fill\" has weight 0 in this state, where not stock(!e), near(!d, !e)")
    );
    assert!(advice.starts_with("by the model it does not come out so here"), "{advice}");
    assert_eq!(placed("(did join all)").1, "the state after it has more than 1,024 facts");
    assert_eq!(
        placed("(did fill done 1 0)\n(did fill done 0 1)").1,
        "the total would be 1,200,000,000,000,000,000; at most 1,000,000,000,000,000,000"
    );
    assert_eq!(
        placed("(true stock 1)\n(did fill done 0 1)").1,
        "the total would be 1,200,000,000,000,000,000; at most 1,000,000,000,000,000,000"
    );
}

/// 15 in the reward before the first line, and after a line.
#[test]
fn log_rewards_refused() {
    let model = "(predicate r 2)\n(total 1)\n(reward (if (r ?a ?b) (if (r ?c ?d) 5 1) 0))\n(action wait)\n(variant only 1)\n(start)\n";
    let (_, _, what, _) = only_fault(&format!("{model}(objects 45)\n(did wait only)\n"));
    assert_eq!(
        what,
        "the reward before the first line: 45^4 = 4,100,625 valuations, 45 objects and 4 variables, are more than 1,000,000, and the tables in their place have more than 8,192 entries"
    );
    let growing = stored("valuations-behind-a-line");
    let after = faults(&growing).into_iter().map(|(_, fault)| fault.what).find(|what| what.starts_with("the reward after the line: "));
    assert!(after.is_some());
}

fn stored(name: &str) -> Vec<u8> {
    std::fs::read(format!("{}/../corpus/{name}.txt", env!("CARGO_MANIFEST_DIR"))).expect(name)
}
