//! Why a call gave nothing.
use std::fmt;

/// Why a text is refused: the number of the rule (E1 to E11), the place, for a cycle its variables, and the explanation, which
/// `lus_explain` prints: several lines, each with its line feed.
#[derive(Clone, Debug, PartialEq, Eq)]
pub struct Refusal {
    pub number: u32,
    pub line: u32,
    pub column: u32,
    pub cycle: Vec<String>,
    pub explanation: String,
}

impl fmt::Display for Refusal {
    fn fmt(&self, f: &mut fmt::Formatter<'_>) -> fmt::Result {
        write!(f, "E{} line {} column {}", self.number, self.line, self.column)?;
        if !self.cycle.is_empty() {
            write!(f, ", a cycle of {}", self.cycle.join(", "))?;
        }
        Ok(())
    }
}

/// Why a call gave nothing. No entry was made.
#[derive(Clone, Debug, PartialEq, Eq)]
#[non_exhaustive]
pub enum Error {
    /// Another seat has the machine, which has so many entries.
    Busy(u64),
    Memory,
    /// The history has 4,294,967,295 entries.
    Full,
    /// The text is refused.
    Refused(Refusal),
    /// There is none of this name or number.
    NoSuch,
    /// The inputs are no row of values, a line is none of the next entry, or journals aren't read back with such a name.
    Value,
    /// An instance with no seats, which there is not.
    Handle,
    /// These are not all seats of one instance.
    Seats,
    /// The line tells another reply than the instance gives.
    Wrong,
}

impl fmt::Display for Error {
    fn fmt(&self, f: &mut fmt::Formatter<'_>) -> fmt::Result {
        match self {
            Error::Busy(entries) => write!(f, "another seat has the machine, with {entries} entries"),
            Error::Memory => f.write_str("out of memory"),
            Error::Full => f.write_str("the history is full"),
            Error::Refused(refusal) => write!(f, "refused {refusal}"),
            Error::NoSuch => f.write_str("there is none of this name or number"),
            Error::Value => f.write_str("these are no values, no line of the next entry, or no names that journals are read back with"),
            Error::Handle => f.write_str("wrong use of a handle"),
            Error::Seats => f.write_str("these are not all seats of one instance"),
            Error::Wrong => f.write_str("the line tells another reply than the instance gives"),
        }
    }
}

impl std::error::Error for Error {}

pub(crate) const OK: u32 = 0;
pub(crate) const REFUSED: u32 = 4;
pub(crate) const SHORT: u32 = 7;

/// What a status says, with the count that came with it.
pub(crate) fn check(status: u32, count: u64) -> Result<(), Error> {
    match status {
        OK => Ok(()),
        1 => Err(Error::Busy(count)),
        2 => Err(Error::Memory),
        3 => Err(Error::Full),
        5 => Err(Error::NoSuch),
        6 => Err(Error::Value),
        9 => Err(Error::Seats),
        11 => Err(Error::Wrong),
        _ => Err(Error::Handle),
    }
}
