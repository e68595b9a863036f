//! A planner's and a desk's part: one looks ahead and saves the session to a file, the other reads the file and values a state.

use yindolve::Session;

const MODEL: &str = include_str!("../../../examples/liftparts.txt");

fn main() -> Result<(), Box<dyn std::error::Error>> {
    let file = std::env::temp_dir().join(format!("yindolve-save-{}", std::process::id()));

    // the planner, once a quarter
    let mut session = Session::load(MODEL)?;
    for _ in 0..2 {
        session.backup()?;
        // where there are too many paths to cut, the diagram stays as it is
        let _ = session.cut_all();
    }
    std::fs::write(&file, session.save())?;

    // the desk, at any time
    let desk = Session::restore(&std::fs::read(&file)?)?;
    let state = desk.state(3).fact("wanted", &[0])?.fact("aboard", &[0, 2])?.finish()?;
    let value = desk.value(&state)?;
    println!("{} steps: {value} = {}", value.steps, value.fraction().decimal(2));

    // a file that was damaged is refused
    let mut bytes = std::fs::read(&file)?;
    bytes[100] ^= 1;
    println!("{}", Session::restore(&bytes).unwrap_err());
    std::fs::remove_file(&file)?;
    Ok(())
}
