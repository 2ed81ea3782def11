//! Programs, and what they say of their nodes.
use crate::error::{Error, REFUSED, Refusal, SHORT, check};
use crate::live::Live;
use crate::raw::{self, Handle, Refused};
use crate::seat::Seat;
use crate::value::{Row, Value};
use std::sync::{Mutex, MutexGuard, PoisonError};

/// The kind of an input's, an output's or a field's values; a type has a number among the program's types.
#[derive(Clone, Copy, Debug, PartialEq, Eq)]
pub enum Kind {
    Bool,
    Int,
    Enum(u32),
    Struct(u32),
}

/// An input, an output or a field.
#[derive(Clone, Debug, PartialEq, Eq)]
pub struct Formal {
    pub name: String,
    pub kind: Kind,
    /// Whether it is on a clock, and so may be absent.
    pub is_clocked: bool,
}

/// A node of a program, by its number.
#[derive(Clone, Copy, Debug, PartialEq, Eq)]
pub struct Node(pub u32);

/// What a node costs, before anything runs. Each number is exact, or `u64::MAX` where it is that or more.
#[derive(Clone, Copy, Debug, PartialEq, Eq)]
#[non_exhaustive]
pub struct Cost {
    /// The orders that a step obeys at most, with those of all calls in it.
    pub orders: u64,
    /// The places of the row on which steps are made.
    pub row: u64,
    pub instance_bytes: u64,
    pub saved_bytes: u64,
}

/// An accepted program. Threads may share it.
pub struct Program {
    handle: Mutex<Handle>,
}

/// A text of the library's, for which a call says how long it is.
pub(crate) fn text_of(mut call: impl FnMut(&mut u64, &mut [u8]) -> u32) -> Result<String, Error> {
    let mut text = vec![0; 64];
    loop {
        let mut bytes = 0;
        let status = call(&mut bytes, &mut text);
        if status != SHORT {
            check(status, 0)?;
        }
        if bytes <= text.len() as u64 {
            text.truncate(bytes as usize);
            return Ok(String::from_utf8_lossy(&text).into_owned());
        }
        text.resize(bytes as usize, 0);
    }
}

/// What is said of a text that is refused.
fn explanation_of(name: &str, text: &str) -> Result<String, Error> {
    text_of(|bytes, room| unsafe {
        let (name, m) = (name.as_ptr(), name.len());
        raw::lus_explain(text.as_ptr(), text.len(), name, m, room.as_mut_ptr(), room.len(), bytes)
    })
}

fn kind_of(formal: &raw::Formal) -> Kind {
    match formal.kind {
        1 => Kind::Bool,
        2 => Kind::Int,
        3 => Kind::Enum(formal.of),
        _ => Kind::Struct(formal.of),
    }
}

fn formal_of(mut call: impl FnMut(&mut raw::Formal, &mut [u8]) -> u32) -> Result<Formal, Error> {
    let mut formal = raw::Formal::default();
    let name = text_of(|bytes, room| {
        let status = call(&mut formal, room);
        *bytes = formal.bytes;
        status
    })?;
    Ok(Formal { name, kind: kind_of(&formal), is_clocked: formal.clocked != 0 })
}

/// Formals from 0 on, until there is none.
fn formals_of(mut call: impl FnMut(u32, &mut raw::Formal, &mut [u8]) -> u32) -> Result<Vec<Formal>, Error> {
    let mut formals = Vec::new();
    for place in 0.. {
        match formal_of(|formal, room| call(place, formal, room)) {
            Ok(formal) => formals.push(formal),
            Err(Error::NoSuch) => break,
            Err(error) => return Err(error),
        }
    }
    Ok(formals)
}

impl Program {
    /// The program of a text.
    pub fn new(text: &str) -> Result<Program, Error> {
        Program::with_name("text", text)
    }

    /// The program of a text; where it is refused, the explanation says this name before the place.
    pub fn with_name(name: &str, text: &str) -> Result<Program, Error> {
        assert_eq!(unsafe { raw::lus_version() }, raw::VERSION, "liblus.a has another version");
        let (mut handle, mut why) = (Handle::NONE, Refused::default());
        let mut names = vec![0; 1024];
        loop {
            let status =
                unsafe { raw::lus_compile(text.as_ptr(), text.len(), &mut handle, &mut why, names.as_mut_ptr(), names.len()) };
            if status == REFUSED && why.bytes > names.len() as u64 {
                names.resize(why.bytes as usize, 0);
                continue;
            }
            if status == REFUSED {
                let cycle = names[..why.bytes as usize].split(|byte| *byte == 0);
                let cycle = cycle.take(why.cycle as usize).map(|name| String::from_utf8_lossy(name).into_owned());
                let Refused { number, line, column, .. } = why;
                let (cycle, explanation) = (cycle.collect(), explanation_of(name, text)?);
                return Err(Error::Refused(Refusal { number, line, column, cycle, explanation }));
            }
            check(status, 0)?;
            return Ok(Program { handle: Mutex::new(handle) });
        }
    }

    fn handle(&self) -> MutexGuard<'_, Handle> {
        self.handle.lock().unwrap_or_else(PoisonError::into_inner)
    }

    /// How many nodes there are; they have the numbers from 0 on.
    pub fn nodes(&self) -> Result<u32, Error> {
        let mut count = 0;
        check(unsafe { raw::lus_nodes(&mut self.handle(), &mut count) }, 0)?;
        Ok(count)
    }

    /// The node of this name.
    pub fn node(&self, name: &str) -> Result<Node, Error> {
        for number in 0..self.nodes()? {
            if self.name(Node(number))? == name {
                return Ok(Node(number));
            }
        }
        Err(Error::NoSuch)
    }

    /// The name of a node.
    pub fn name(&self, node: Node) -> Result<String, Error> {
        let mut handle = self.handle();
        text_of(|bytes, room| unsafe { raw::lus_node_name(&mut handle, node.0, bytes, room.as_mut_ptr(), room.len()) })
    }

    /// What a step of a node takes at most, and what its instances keep.
    pub fn cost(&self, node: Node) -> Result<Cost, Error> {
        let mut bounds = raw::Bounds::default();
        check(unsafe { raw::lus_cost(&mut self.handle(), node.0, &mut bounds) }, 0)?;
        let raw::Bounds { orders, row, instance_bytes, saved_bytes } = bounds;
        Ok(Cost { orders, row, instance_bytes, saved_bytes })
    }

    /// The inputs of a node, in declared order.
    pub fn inputs(&self, node: Node) -> Result<Vec<Formal>, Error> {
        self.check_node(node)?;
        let mut handle = self.handle();
        formals_of(|place, formal, room| unsafe {
            raw::lus_input(&mut handle, node.0, place, formal, room.as_mut_ptr(), room.len())
        })
    }

    /// The outputs of a node, in declared order.
    pub fn outputs(&self, node: Node) -> Result<Vec<Formal>, Error> {
        self.check_node(node)?;
        let mut handle = self.handle();
        formals_of(|place, formal, room| unsafe {
            raw::lus_output(&mut handle, node.0, place, formal, room.as_mut_ptr(), room.len())
        })
    }

    fn check_node(&self, node: Node) -> Result<(), Error> {
        let (mut inputs, mut outputs) = (0, 0);
        check(unsafe { raw::lus_formals(&mut self.handle(), node.0, &mut inputs, &mut outputs) }, 0)
    }

    /// The fields of the structure of this number, in declared order: what is no structure has none.
    pub fn fields(&self, structure: u32) -> Result<Vec<Formal>, Error> {
        let mut handle = self.handle();
        formals_of(|place, formal, room| unsafe {
            raw::lus_field(&mut handle, structure, place, formal, room.as_mut_ptr(), room.len())
        })
    }

    /// The name of a constructor of the enumeration of this number.
    pub fn constructor(&self, enumeration: u32, constructor: u32) -> Result<String, Error> {
        let mut handle = self.handle();
        text_of(|bytes, room| unsafe {
            raw::lus_constructor(&mut handle, enumeration, constructor, bytes, room.as_mut_ptr(), room.len())
        })
    }

    /// The constructor of this name, as a value of the enumeration of this number.
    pub fn value(&self, enumeration: u32, name: &str) -> Result<Value, Error> {
        let mut number = 0;
        while self.constructor(enumeration, number)? != name {
            number += 1;
        }
        Ok(Value::Enum(enumeration, number))
    }

    /// The row of a node's inputs, given by their names: one that isn't given is absent.
    pub fn row(&self, node: Node, given: &[(&str, Value)]) -> Result<Row, Error> {
        let inputs = self.inputs(node)?;
        if given.iter().any(|(name, _)| inputs.iter().all(|input| input.name != *name)) {
            return Err(Error::NoSuch);
        }
        let value = |input: &Formal| given.iter().find(|(name, _)| input.name == *name).map(|(_, value)| value.clone());
        Ok(inputs.iter().map(value).collect())
    }

    /// A row of a node's outputs with their names.
    pub fn named(&self, node: Node, outputs: Row) -> Result<Vec<(String, Option<Value>)>, Error> {
        let names = self.outputs(node)?.into_iter().map(|output| output.name);
        Ok(names.zip(outputs).collect())
    }

    /// An instance of a node, with a seat for each of so many callers, which have the numbers from 0 on.
    pub fn open(&self, node: Node, seats: u32) -> Result<Vec<Seat>, Error> {
        let mut handles: Vec<Handle> = (0..seats).map(|_| Handle::NONE).collect();
        check(unsafe { raw::lus_open(&mut self.handle(), node.0, handles.as_mut_ptr().cast(), seats) }, 0)?;
        Ok(handles.into_iter().map(Seat::new).collect())
    }

    /// A live instance of a node, which keeps no history.
    pub fn open_live(&self, node: Node) -> Result<Live, Error> {
        let mut handle = Handle::NONE;
        check(unsafe { raw::lus_live_open(&mut self.handle(), node.0, &mut handle) }, 0)?;
        Ok(Live::new(handle))
    }
}
