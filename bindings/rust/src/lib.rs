//! Lustre programs, instances of their nodes, and seats at them for threads.
//!
//! ```no_run
//! let program = lus::Program::new("node n(x: int) returns (y: int); let y = x -> pre y + x; tel")?;
//! let mut seats = program.open(program.node("n")?, 2)?;
//! let reply = seats[0].step(&[Some(lus::Value::Int(4))])?;
//! # Ok::<(), lus::Error>(())
//! ```
//!
//! Each thread has a seat of its own, and seats of one instance are called at the same time. What a seat is replied is one legal
//! history's: `close` gives that history, as a journal.
mod error;
mod journal;
mod live;
mod program;
mod raw;
mod seat;
mod value;

pub use error::{Error, Refusal};
pub use journal::{Entry, Journal};
pub use live::Live;
pub use program::{Cost, Formal, Kind, Node, Program};
pub use seat::{HeldSeat, Seat, close};
pub use value::{Reply, Request, Row, Value, Why};
