//! Wrong uses, each of which gives an error and changes nothing; seats that hold and meet; structures.
use lus::{Error, Kind, Node, Program, Reply, Request, Seat, Value, Why, close};

const TEXT: &str = "type pair = struct { a: int; b: bool }; type light = enum { Red, Green };
node counter(passed: bool) returns (count: int); let count = (0 -> pre count) + (if passed then 1 else 0); tel
node swap(p: pair; l: light) returns (q: pair; m: light);
let q = pair { a = p.a + 1; b = not p.b }; m = if l = Red then Green else Red; tel";

struct Uses(u32);

impl Uses {
    fn gives<T>(&mut self, found: Result<T, Error>, wanted: Error) {
        self.0 += 1;
        assert_eq!(found.err(), Some(wanted));
    }

    fn refused(&mut self, found: Result<Reply, Error>, why: Why) {
        self.0 += 1;
        assert_eq!(found, Ok(Reply::Refused(why)));
    }
}

fn passed(truth: bool) -> Vec<Option<Value>> {
    vec![Some(truth.into())]
}

fn seats_of_one(program: &Program, uses: &mut Uses, one: &mut Seat) -> Result<(), Error> {
    let mut two = program.open(Node(0), 2)?;
    uses.gives(two[0].meet(one), Error::Seats);
    let second = two.pop().expect("two seats");
    let first = two.pop().expect("two seats");
    let Err((mut alone, error)) = close(vec![first]) else { panic!("closed by one of two") };
    uses.gives::<()>(Err(error), Error::Seats);
    let Ok(held) = second.hold() else { panic!("it is free") };
    uses.gives(alone[0].try_call(&Request::Reset), Error::Busy(0));
    let mut first = alone.pop().expect("a seat");
    let Err((back, error)) = first.hold() else { panic!("it is taken") };
    uses.gives::<()>(Err(error), Error::Busy(0));
    first = back;
    let mut second = held.release();
    first.step(&passed(true))?;
    first.meet(&mut second)?;
    assert_eq!(second.count()?, 1);
    assert_eq!(second.number()?, 1);
    drop(second.hold());
    first.step(&passed(true))?;
    uses.gives(close(vec![first]).map_err(|(_, error)| error), Error::Seats);
    Ok(())
}

/// Names with which no journal is read back.
fn names(program: &Program, uses: &mut Uses) -> Result<(), Error> {
    let Ok(mut journal) = close(program.open(Node(0), 1)?) else { panic!("not all seats") };
    for callers in [["panel", "the clock"], ["panel", "clock\n"], ["panel", "clo\0ck"]] {
        uses.gives(journal.text("door", &callers), Error::Value);
    }
    uses.gives(journal.text("front door", &["panel"]), Error::Value);
    let mut live = program.open_live(Node(0))?;
    live.step(&passed(true))?;
    uses.gives(live.line("panel step(true) -> (1)\n2 clock"), Error::Value);
    uses.gives(live.line("the panel"), Error::Value);
    assert_eq!(live.line("#7")?, "1 #7 step(true) -> (1)\n");
    Ok(())
}

fn main() -> Result<(), Error> {
    let mut uses = Uses(0);
    let Err(Error::Refused(refusal)) = Program::new("node n(x: int) returns (y: int); var a: int; let y = a; a = y; tel")
    else {
        panic!("accepted")
    };
    println!("{refusal}");
    let program = Program::new(TEXT)?;
    uses.gives(program.node("nothing"), Error::NoSuch);
    uses.gives(program.name(Node(7)), Error::NoSuch);
    uses.gives(program.inputs(Node(7)), Error::NoSuch);
    uses.gives(program.cost(Node(7)), Error::NoSuch);
    uses.gives(program.constructor(0, 0), Error::NoSuch);
    uses.gives(program.row(Node(0), &[("gone", true.into())]), Error::NoSuch);
    uses.gives(program.open(Node(7), 1), Error::NoSuch);
    uses.gives(program.open(Node(0), 0), Error::Handle);
    uses.gives(close(Vec::new()).map_err(|(_, error)| error), Error::Handle);
    let mut one = program.open(Node(0), 1)?.remove(0);
    let mut deep = Value::Struct(vec![]);
    for _ in 0..64 {
        deep = Value::Struct(vec![deep]);
    }
    uses.gives(one.step(&[Some(deep)]), Error::Value);
    uses.gives(one.burst(vec![passed(true), vec![]]), Error::Value);
    uses.refused(one.step(&[]), Why::Shape);
    uses.refused(one.burst(vec![passed(true), vec![None]]), Why::Presence);
    uses.refused(one.step(&[Some(Value::Int(1))]), Why::Shape);
    uses.refused(one.step(&[None]), Why::Presence);
    uses.refused(one.call(&Request::Save(8)), Why::Shape);
    uses.refused(one.call(&Request::Restore(3)), Why::NoSave);
    seats_of_one(&program, &mut uses, &mut one)?;
    names(&program, &mut uses)?;
    println!("{} wrong uses", uses.0);
    let swap = program.node("swap")?;
    let cost = program.cost(swap)?;
    assert!(cost.orders > 0 && cost.row >= 4 && cost.instance_bytes % 40 == 0 && cost.saved_bytes <= cost.instance_bytes);
    let Kind::Enum(light) = program.inputs(swap)?[1].kind else { panic!("no enumeration") };
    let pair = Value::Struct(vec![Value::Int(41), Value::Bool(false)]);
    println!("{:?}", program.open(swap, 1)?[0].step(&[Some(pair), Some(Value::Enum(light, 0))])?);
    println!("{}", program.constructor(light, 1)?);
    assert_eq!(program.value(light, "Green")?, Value::Enum(light, 1));
    assert_eq!(program.row(Node(0), &[("passed", true.into())])?, passed(true));
    let told = program.open(Node(0), 1)?[0].step(&passed(true))?.outputs().expect("a step");
    assert_eq!(program.named(Node(0), told)?, [("count".to_string(), Some(Value::Int(1)))]);
    println!("{:?}", program.open(Node(0), 1)?[0].burst(vec![passed(true), passed(false), passed(true)])?);
    Ok(())
}
