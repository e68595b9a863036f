//! Loads a model once, looks a step ahead, and then values one state after another.

use yindolve::Session;

const MODEL: &str = "(constant hub)
(predicate stock 1)
(total 4)
(discount 1 2)
(reward (if (stock hub) 10 0))
(action fill !d)
(variant done 3)
(becomes (stock ?s) (if (= !d ?s) 1 (if (stock ?s) 1 0)))
(variant none 1)
(start)
";

fn main() -> Result<(), Box<dyn std::error::Error>> {
    let mut session = Session::load(MODEL)?;
    let backup = session.backup()?;
    let cut = session.cut_all()?;
    println!("{} step: {} rows, {} after {} cut", backup.steps, backup.rows, cut.rows, cut.cuts);
    for stocked in [&[][..], &[1], &[0]] {
        let mut state = session.state(2).is("hub", 0)?;
        for object in stocked {
            state = state.fact("stock", &[*object])?;
        }
        let value = session.value(&state.finish()?)?;
        println!("stock at {stocked:?}: {value} = {}", value.fraction().decimal(2));
    }
    Ok(())
}
