//! Steps a live instance, hands out its journal line by line, and goes on where that ends.
use lus::{Program, Value};
use std::error::Error;

const TEXT: &str = "node door(passed: bool) returns (count: int); let count = (0 -> pre count) + (if passed then 1 else 0); tel";

fn main() -> Result<(), Box<dyn Error>> {
    let program = Program::new(TEXT)?;
    let node = program.node("door")?;
    let mut door = program.open_live(node)?;
    let mut journal = Vec::new();
    for passed in [true, false, true] {
        door.step(&[Some(Value::Bool(passed))])?;
        journal.push(door.line("panel")?);
    }
    print!("instance front door\n{}", journal.concat());
    let mut again = program.open_live(node)?;
    for line in &journal {
        again.replay(line)?;
    }
    println!("entries {}", again.count()?);
    println!("{:?}", again.step(&[Some(Value::Bool(true))])?);
    println!("{:?}", again.entry()?);
    for line in [journal[0].as_str(), "5 panel step(true) -> (9)\n", "5 panel reset -> done\n"] {
        match again.replay(line) {
            Ok(()) => println!("{} entries", again.count()?),
            Err(error) => println!("{error}"),
        }
    }
    Ok(())
}
