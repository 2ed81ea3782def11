//! Values, rows of them, requests and replies.
use crate::raw::Leaf;
use std::slice::Iter;

/// A value of a stream. A constructor has the number of its type among the program's types, and its own.
#[derive(Clone, Debug, PartialEq, Eq)]
pub enum Value {
    Bool(bool),
    Int(i64),
    Enum(u32, u32),
    /// The fields in declared order.
    Struct(Vec<Value>),
}

impl From<bool> for Value {
    fn from(truth: bool) -> Value {
        Value::Bool(truth)
    }
}

impl From<i64> for Value {
    fn from(number: i64) -> Value {
        Value::Int(number)
    }
}

/// The values of a node's inputs, or outputs, in declared order: `None` where a clock is absent.
pub type Row = Vec<Option<Value>>;

/// What a caller asks of an instance.
#[derive(Clone, Debug, PartialEq, Eq)]
pub enum Request {
    Step(Row),
    Reset,
    /// Into a slot, 0 to 7.
    Save(u64),
    Restore(u64),
    /// Several instants, one behind another: all of them or none. The rows are of one length.
    Burst(Vec<Row>),
}

/// Why a request was refused.
#[derive(Clone, Copy, Debug, PartialEq, Eq)]
pub enum Why {
    /// The inputs aren't as many as the node's, or one is no value of its type; or there is no slot of this number, or a burst has
    /// more than 1,000 rows.
    Shape,
    /// An input isn't present exactly where its clock is.
    Presence,
    /// The instant has no value.
    Fault,
    /// Nothing was saved in the slot.
    NoSave,
}

/// What an instance replies. Each reply is an entry, a refusal too.
#[derive(Clone, Debug, PartialEq, Eq)]
pub enum Reply {
    Outputs(Row),
    /// Those at each instant of a burst.
    Rows(Vec<Row>),
    Done,
    Refused(Why),
}

impl Reply {
    /// The outputs, where a step was made.
    pub fn outputs(self) -> Option<Row> {
        match self {
            Reply::Outputs(row) => Some(row),
            _ => None,
        }
    }
}

fn write(leaves: &mut Vec<Leaf>, value: &Value) {
    let (kind, of, number) = match value {
        Value::Bool(truth) => (1, 0, i64::from(*truth)),
        Value::Int(number) => (2, 0, *number),
        Value::Enum(of, constructor) => (3, *of, i64::from(*constructor)),
        Value::Struct(fields) => (4, 0, fields.len() as i64),
    };
    leaves.push(Leaf { kind, of, number });
    if let Value::Struct(fields) = value {
        for field in fields {
            write(leaves, field);
        }
    }
}

pub(crate) fn leaves_of(row: &[Option<Value>]) -> Vec<Leaf> {
    let mut leaves = Vec::with_capacity(row.len());
    for entry in row {
        match entry {
            Some(value) => write(&mut leaves, value),
            None => leaves.push(Leaf::default()),
        }
    }
    leaves
}

fn read(leaf: &Leaf, later: &mut Iter<'_, Leaf>) -> Option<Value> {
    match leaf.kind {
        1 => Some(Value::Bool(leaf.number != 0)),
        2 => Some(Value::Int(leaf.number)),
        3 => Some(Value::Enum(leaf.of, leaf.number as u32)),
        4 => {
            let mut fields = Vec::new();
            for _ in 0..leaf.number {
                fields.extend(later.next().and_then(|leaf| read(leaf, later)));
            }
            Some(Value::Struct(fields))
        }
        _ => None,
    }
}

pub(crate) fn row_of(leaves: &[Leaf]) -> Row {
    let mut row = Vec::new();
    let mut later = leaves.iter();
    while let Some(leaf) = later.next() {
        row.push(read(leaf, &mut later));
    }
    row
}

/// So many rows of one length, one behind another.
pub(crate) fn rows_of(leaves: &[Leaf], count: u64) -> Vec<Row> {
    let mut entries = row_of(leaves);
    let width = entries.len().checked_div(count as usize).unwrap_or(0);
    (0..count).map(|_| entries.drain(..width).collect()).collect()
}

pub(crate) fn why_of(number: u32) -> Why {
    match number {
        1 => Why::Shape,
        2 => Why::Presence,
        3 => Why::Fault,
        _ => Why::NoSave,
    }
}

/// The numbers of a request: its kind, its slot or how many rows it has, and its leaves. Rows of several lengths are none: as a burst
/// of more rows than there are entries, which the library refuses.
pub(crate) fn numbers_of(request: &Request) -> (u32, u64, Vec<Leaf>) {
    match request {
        Request::Step(row) => (1, 0, leaves_of(row)),
        Request::Reset => (2, 0, Vec::new()),
        Request::Save(slot) => (3, *slot, Vec::new()),
        Request::Restore(slot) => (4, *slot, Vec::new()),
        Request::Burst(rows) if rows.windows(2).any(|two| two[0].len() != two[1].len()) => (5, u64::MAX, Vec::new()),
        Request::Burst(rows) => (5, rows.len() as u64, rows.iter().flat_map(|row| leaves_of(row)).collect()),
    }
}

pub(crate) fn request_of(kind: u32, slot: u64, leaves: &[Leaf]) -> Request {
    match kind {
        1 => Request::Step(row_of(leaves)),
        2 => Request::Reset,
        3 => Request::Save(slot),
        5 => Request::Burst(rows_of(leaves, slot)),
        _ => Request::Restore(slot),
    }
}

/// The reply of these numbers; `rows` is how many rows a burst has.
pub(crate) fn reply_of(kind: u32, why: u32, leaves: &[Leaf], rows: u64) -> Reply {
    match kind {
        1 => Reply::Outputs(row_of(leaves)),
        2 => Reply::Done,
        4 => Reply::Rows(rows_of(leaves, rows)),
        _ => Reply::Refused(why_of(why)),
    }
}
