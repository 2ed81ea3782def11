//! Seats at an instance.
use crate::error::{Error, SHORT, check};
use crate::journal::Journal;
use crate::raw::{self, Answer, Handle, Leaf};
use crate::value::{Reply, Request, Row, Value, numbers_of, reply_of};
use std::thread;

/// A caller's place at an instance of a node. It may go to another thread, since it is moved and a call has it by `&mut`: so one call
/// at a time has it, which is all that the library asks. Each thread has a seat of its own.
pub struct Seat {
    handle: Handle,
    outputs: Vec<Leaf>,
}

/// A seat that has the machine to itself: every other seat's calls are busy until it is released or let go.
pub struct HeldSeat {
    seat: Seat,
}

// This is compiled only where they may go to another thread.
const _: () = {
    const fn goes<T: Send>() {}
    goes::<Seat>();
    goes::<HeldSeat>();
    goes::<Journal>();
};

impl Seat {
    pub(crate) fn new(handle: Handle) -> Seat {
        Seat { handle, outputs: vec![Leaf::default(); 8] }
    }

    /// One call, where the machine is free.
    pub fn try_call(&mut self, request: &Request) -> Result<Reply, Error> {
        let (kind, slot, leaves) = numbers_of(request);
        self.try_numbers(kind, slot, &leaves)
    }

    fn try_numbers(&mut self, kind: u32, slot: u64, leaves: &[Leaf]) -> Result<Reply, Error> {
        let mut answer = Answer::default();
        let outputs = &mut self.outputs;
        let mut status = unsafe {
            let (inputs, n) = (leaves.as_ptr(), leaves.len());
            raw::lus_try_call(&mut self.handle, kind, slot, inputs, n, &mut answer, outputs.as_mut_ptr(), outputs.len())
        };
        while status == SHORT {
            outputs.resize(answer.count as usize, Leaf::default());
            status = unsafe { raw::lus_outputs(&mut self.handle, &mut answer, outputs.as_mut_ptr(), outputs.len()) };
        }
        check(status, answer.count)?;
        Ok(reply_of(answer.kind, answer.why, &self.outputs[..answer.count as usize], slot))
    }

    /// One call, again while the machine is taken.
    pub fn call(&mut self, request: &Request) -> Result<Reply, Error> {
        let (kind, slot, leaves) = numbers_of(request);
        loop {
            match self.try_numbers(kind, slot, &leaves) {
                Err(Error::Busy(_)) => thread::yield_now(),
                reply => return reply,
            }
        }
    }

    /// The next instant, again while the machine is taken.
    pub fn step(&mut self, inputs: &[Option<Value>]) -> Result<Reply, Error> {
        let leaves = crate::value::leaves_of(inputs);
        loop {
            match self.try_numbers(1, 0, &leaves) {
                Err(Error::Busy(_)) => thread::yield_now(),
                reply => return reply,
            }
        }
    }

    /// Several instants, all of them or none, again while the machine is taken.
    pub fn burst(&mut self, rows: Vec<Row>) -> Result<Reply, Error> {
        self.call(&Request::Burst(rows))
    }

    /// How many entries there are: never fewer than the seat has seen.
    pub fn count(&mut self) -> Result<u64, Error> {
        let mut count = 0;
        check(unsafe { raw::lus_count(&mut self.handle, &mut count) }, 0)?;
        Ok(count)
    }

    /// The number of the caller.
    pub fn number(&mut self) -> Result<u32, Error> {
        let mut number = 0;
        check(unsafe { raw::lus_number(&mut self.handle, &mut number) }, 0)?;
        Ok(number)
    }

    /// Both seats, of one instance, have then seen the same entries.
    pub fn meet(&mut self, other: &mut Seat) -> Result<(), Error> {
        check(unsafe { raw::lus_meet(&mut self.handle, &mut other.handle) }, 0)
    }

    /// Takes the machine, where it is free, for this seat alone.
    pub fn hold(mut self) -> Result<HeldSeat, (Seat, Error)> {
        let mut count = 0;
        let status = unsafe { raw::lus_hold(&mut self.handle, &mut count) };
        match check(status, count) {
            Ok(()) => Ok(HeldSeat { seat: self }),
            Err(error) => Err((self, error)),
        }
    }
}

impl HeldSeat {
    /// Gives the machine back.
    pub fn release(mut self) -> Seat {
        unsafe { raw::lus_release(&mut self.seat.handle) };
        self.seat
    }
}

/// The journal of an instance, given all of its seats in any order; otherwise the seats come back as they were.
pub fn close(seats: Vec<Seat>) -> Result<Journal, (Vec<Seat>, Error)> {
    let (mut handles, rooms): (Vec<Handle>, Vec<Vec<Leaf>>) = seats.into_iter().map(|seat| (seat.handle, seat.outputs)).unzip();
    let mut journal = Handle::NONE;
    let status = unsafe { raw::lus_close(handles.as_mut_ptr().cast(), handles.len() as u32, &mut journal) };
    match check(status, 0) {
        Ok(()) => Ok(Journal::new(journal)),
        Err(error) => {
            let seats = handles.into_iter().zip(rooms).map(|(handle, outputs)| Seat { handle, outputs });
            Err((seats.collect(), error))
        }
    }
}
