//! Steps a thermostat, first from one thread and then from two.
use lus::{Program, Reply, Seat, Value, close};
use std::{error::Error, thread};

const TEXT: &str = "
node thermostat(temperature: int; low: int; high: int) returns (heat: bool; minutes: int);
let
  heat = if temperature < low then true else if temperature > high then false else (false -> pre heat);
  minutes = if heat then (0 -> pre minutes) + 1 else 0;
tel";

fn step(seat: &mut Seat, temperature: i64) -> Result<Reply, lus::Error> {
    seat.step(&[temperature, 19, 22].map(|number| Some(Value::Int(number))))
}

fn main() -> Result<(), Box<dyn Error>> {
    if let Err(lus::Error::Refused(refusal)) = Program::new("node n(x: int) returns (y: int); let y = z; tel") {
        print!("{}", refusal.explanation);
    }
    let program = Program::new(TEXT)?;
    let mut seats = program.open(program.node("thermostat")?, 2)?;
    for temperature in [18, 20, 23] {
        println!("{temperature} {:?}", step(&mut seats[0], temperature)?);
    }
    thread::scope(|scope| {
        for seat in &mut seats {
            scope.spawn(move || (0..1000).for_each(|_| drop(step(seat, 20).unwrap())));
        }
    });
    let mut journal = close(seats).map_err(|(_, error)| error)?;
    println!("{} entries, the third: {:?}", journal.count()?, journal.entry(2)?);
    let text = journal.text("kitchen", &["panel", "clock"])?;
    print!("{}", text.lines().take(4).map(|line| format!("{line}\n")).collect::<String>());
    Ok(())
}
