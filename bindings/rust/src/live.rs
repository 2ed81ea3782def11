//! Instances whose entries are handed out, and not kept.
use crate::error::{Error, SHORT, check};
use crate::journal::Entry;
use crate::program::text_of;
use crate::raw::{self, Answer, Entered, Handle, Leaf};
use crate::value::{Reply, Request, Row, Value, leaves_of, numbers_of, reply_of, request_of};

/// An instance that keeps its last entry and no other: what it takes doesn't grow with its calls. A call has it by `&mut`, so one
/// thread at a time does.
pub struct Live {
    handle: Handle,
}

// This is compiled only where it may go to another thread.
const _: () = {
    const fn goes<T: Send>() {}
    goes::<Live>();
};

impl Live {
    pub(crate) fn new(handle: Handle) -> Live {
        Live { handle }
    }

    /// One call.
    pub fn call(&mut self, request: &Request) -> Result<Reply, Error> {
        let (kind, slot, leaves) = numbers_of(request);
        self.call_numbers(kind, slot, &leaves)
    }

    fn call_numbers(&mut self, kind: u32, slot: u64, leaves: &[Leaf]) -> Result<Reply, Error> {
        let (mut answer, mut outputs) = (Answer::default(), [Leaf::default(); 8]);
        let status = unsafe {
            let (inputs, n) = (leaves.as_ptr(), leaves.len());
            raw::lus_live_call(&mut self.handle, kind, slot, inputs, n, &mut answer, outputs.as_mut_ptr(), outputs.len())
        };
        if status == SHORT {
            return Ok(self.entry()?.reply);
        }
        check(status, answer.count)?;
        Ok(reply_of(answer.kind, answer.why, &outputs[..answer.count as usize], slot))
    }

    /// The next instant.
    pub fn step(&mut self, inputs: &[Option<Value>]) -> Result<Reply, Error> {
        self.call_numbers(1, 0, &leaves_of(inputs))
    }

    /// Several instants, all of them or none.
    pub fn burst(&mut self, rows: Vec<Row>) -> Result<Reply, Error> {
        self.call(&Request::Burst(rows))
    }

    /// The last call's entry, until the next call; `Error::NoSuch` before the first, and behind a line that was replayed.
    pub fn entry(&mut self) -> Result<Entry, Error> {
        let (mut entry, mut inputs, mut outputs) = (Entered::default(), vec![Leaf::default(); 8], vec![Leaf::default(); 8]);
        loop {
            let (given, told) = (inputs.as_mut_ptr(), outputs.as_mut_ptr());
            let status =
                unsafe { raw::lus_live_entry(&mut self.handle, &mut entry, given, inputs.len(), told, outputs.len()) };
            if status != SHORT {
                check(status, 0)?;
                break;
            }
            inputs.resize(entry.inputs as usize, Leaf::default());
            outputs.resize(entry.outputs as usize, Leaf::default());
        }
        Ok(Entry {
            caller: entry.caller,
            request: request_of(entry.request, entry.slot, &inputs[..entry.inputs as usize]),
            reply: reply_of(entry.reply, entry.why, &outputs[..entry.outputs as usize], entry.slot),
        })
    }

    /// The same entry as its line in a journal, with its line feed; `Error::Value` where the caller's name has a blank or a line feed.
    pub fn line(&mut self, caller: &str) -> Result<String, Error> {
        text_of(|bytes, room| unsafe {
            raw::lus_live_line(&mut self.handle, caller.as_ptr(), caller.len(), room.as_mut_ptr(), room.len(), bytes)
        })
    }

    /// Makes the entry of a line of a journal, with its line feed, where it is the right next one. Otherwise it is `Error::Wrong`, where
    /// the line tells another reply, or `Error::Value`, where it is no line of the next entry.
    pub fn replay(&mut self, line: &str) -> Result<(), Error> {
        check(unsafe { raw::lus_live_replay(&mut self.handle, line.as_ptr(), line.len()) }, 0)
    }

    /// How many entries were made.
    pub fn count(&mut self) -> Result<u64, Error> {
        let mut count = 0;
        check(unsafe { raw::lus_live_count(&mut self.handle, &mut count) }, 0)?;
        Ok(count)
    }
}
