//! next: a quarter's value diagram is the next one's reward.

use crate::common::{desk, example, file, folder, model_of};

fn read(path: &std::path::Path) -> String {
    std::fs::read_to_string(path).expect("a text")
}

/// The example of the guide: a text that is run to its end, and a model with another reward. What is written is the stored text.
#[test]
fn the_summer_of_the_sample() {
    let here = folder("next_summer");
    let summer = std::fs::read_to_string(example("summer.txt")).expect("an example");
    let reward = summer.lines().find(|line| line.starts_with("(reward ")).expect("a reward");
    let other = file(&here, "other.txt", summer.replace(reward, "(reward (if (stock ?x) 3 0))"));
    let none = file(&here, "none.txt", summer.replace(&format!("{reward}\n"), ""));
    let next = here.join("next.txt");
    let ended = desk(&["next", &example("sample.txt"), &other, "-o", &next.display().to_string()]);
    assert_eq!((ended.status, ended.out.as_str()), (0, ""), "{}", ended.err);
    let told = "the reward is the value diagram of ";
    assert!(
        ended.err.contains(told) && ended.err.contains("sample.txt, 1 step ahead, 5 rows; its numbers are 8 times the values\n"),
        "{}",
        ended.err
    );
    assert_eq!(ended.err.lines().count(), 1, "{}", ended.err);
    assert_eq!(read(&next), summer);
    // without a reward of its own the new one stands before (start)
    let ended = desk(&["next", &example("sample.txt"), &none]);
    assert_eq!(ended.out, summer.replace(&format!("{reward}\n"), "").replace("(start)\n", &format!("{reward}\n(start)\n")));
    assert_eq!(ended.status, 0, "{}", ended.err);
}

/// A saved plan is handed on to its own model, and that one's value diagram without a step is the same: the same text again.
#[test]
fn a_plan_goes_round() {
    let here = folder("next_plan");
    let [plan, next, again, third] = ["plan", "next.txt", "again", "third.txt"].map(|name| here.join(name));
    let [plan_name, next_name, again_name, third_name] = [&plan, &next, &again, &third].map(|path| path.display().to_string());
    assert_eq!(desk(&["plan", &example("liftparts.txt"), "--steps", "1", "-o", &plan_name]).status, 0);
    assert_eq!(desk(&["next", &plan_name, "-o", &next_name]).status, 0);
    assert_eq!(desk(&["plan", &next_name, "--steps", "0", "-o", &again_name]).status, 0);
    let rows = |path: &std::path::Path| read(path).lines().filter(|line| line.starts_with("(row ")).map(str::to_string).collect::<Vec<_>>();
    assert_eq!(rows(&plan), rows(&again));
    assert_eq!(rows(&plan).len(), 19);
    let ended = desk(&["next", &again_name, "-o", &third_name]);
    assert!(ended.err.contains(", 0 steps ahead, 19 rows; its numbers are 1 times the values\n"), "{}", ended.err);
    assert_eq!(read(&next), read(&third));
}

#[test]
fn what_is_not_handed_on() {
    let here = folder("next_refused");
    let next = here.join("next.txt").display().to_string();
    let refused = |arguments: &[&str], status: i32, what: &str| {
        let ended = desk(&[arguments, &["-o", &next]].concat());
        assert_eq!((ended.status, ended.out.as_str()), (status, ""), "{}", ended.err);
        assert!(ended.err.contains(what), "{what}\n{}", ended.err);
        assert!(!std::path::Path::new(&next).exists());
    };
    let long = file(&here, "long.txt", model_of("liftparts.txt") + "(backup)\n" + &"(cut)\n".repeat(13) + "(backup)\n");
    refused(&["next", &long], 1, "nothing is written, since a line is refused: length (19): after step 2: the value diagram of ");
    // the third backup of liftparts is refused
    refused(&["next", &example("liftparts.txt")], 1, "nothing is written, since a line is refused: space (9): step 3: ");
    let faulty = file(&here, "faulty.txt", model_of("liftparts.txt").replace("(predicate shelf 1)", "(predicate shelf 2)"));
    refused(&["next", &example("sample.txt"), &faulty], 1, ": name (2): no constant \"hub\" is declared");
    refused(&["next", &faulty], 1, "the model is not taken, since ");
    refused(&["next", &example("sample.txt"), &faulty, &long], 2, "more than one model is named");
    let plan = here.join("plan").display().to_string();
    assert_eq!(desk(&["plan", &example("sample.txt"), "--steps", "1", "-o", &plan]).status, 0);
    refused(&["next", &example("sample.txt"), &plan], 2, "is what plan saved, and here the text of a model should stand");
    let ended = desk(&["next", &plan, &long, "-o", &long]);
    assert!(ended.status == 2 && ended.err.contains("writing to it would lose it"), "{}", ended.err);
    let ended = desk(&["next"]);
    assert!(ended.status == 2 && ended.err.contains("no text or saved plan is named"), "{}", ended.err);
}

/// Other declarations: the reward means the same and has other rows.
#[test]
fn another_order_of_the_predicates() {
    let here = folder("next_order");
    let model = model_of("liftparts.txt");
    let (wanted, shelf) = ("(predicate wanted 1)\n", "(predicate shelf 1)\n");
    let turned = file(&here, "turned.txt", model.replace(&format!("{wanted}{shelf}"), &format!("{shelf}{wanted}")));
    let text = file(&here, "text.txt", model + "(backup)\n");
    let ended = desk(&["next", &text, &turned]);
    assert_eq!(ended.status, 0, "{}", ended.err);
    assert!(
        ended.err.contains(
            "turned.txt declares other constants and predicates, or others first, so that the reward's rows differ; it means the same"
        ),
        "{}",
        ended.err
    );
}
