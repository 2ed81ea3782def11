//! The entries of instances that were closed.
use crate::error::{Error, SHORT, check};
use crate::raw::{self, Entered, Handle, Leaf};
use crate::value::{Reply, Request, reply_of, request_of};

/// One entry: the number of the caller, its request, and the reply.
#[derive(Clone, Debug, PartialEq, Eq)]
pub struct Entry {
    pub caller: u32,
    pub request: Request,
    pub reply: Reply,
}

/// The entries of an instance that was closed.
pub struct Journal {
    handle: Handle,
}

impl Journal {
    pub(crate) fn new(handle: Handle) -> Journal {
        Journal { handle }
    }

    /// How many entries there are.
    pub fn count(&mut self) -> Result<u64, Error> {
        let mut count = 0;
        check(unsafe { raw::lus_entries(&mut self.handle, &mut count) }, 0)?;
        Ok(count)
    }

    /// The entry at a place from 0.
    pub fn entry(&mut self, place: u64) -> Result<Entry, Error> {
        let (mut entry, mut inputs, mut outputs) = (Entered::default(), vec![Leaf::default(); 8], vec![Leaf::default(); 8]);
        loop {
            let (given, told) = (inputs.as_mut_ptr(), outputs.as_mut_ptr());
            let (n, room) = (inputs.len(), outputs.len());
            let status = unsafe { raw::lus_entry_at(&mut self.handle, place, &mut entry, given, n, told, room) };
            if status != SHORT {
                check(status, 0)?;
                break;
            }
            inputs.resize(entry.inputs as usize, Leaf::default());
            outputs.resize(entry.outputs as usize, Leaf::default());
        }
        Ok(Entry {
            caller: entry.caller,
            request: request_of(entry.request, entry.slot, &inputs[..entry.inputs as usize]),
            reply: reply_of(entry.reply, entry.why, &outputs[..entry.outputs as usize], entry.slot),
        })
    }

    /// The entries in their order.
    pub fn entries(&mut self) -> Result<impl Iterator<Item = Result<Entry, Error>>, Error> {
        let count = self.count()?;
        Ok((0..count).map(|place| self.entry(place)))
    }

    /// The text of the journal, as `lus` prints it and `lus_draw` reads it; `Error::Value` where a name has a blank, a line feed or, of a
    /// caller, a 0.
    pub fn text(&mut self, instance: &str, callers: &[&str]) -> Result<String, Error> {
        if callers.iter().any(|name| name.contains('\0')) {
            return Err(Error::Value);
        }
        let names: String = callers.iter().flat_map(|name| [*name, "\0"]).collect();
        let mut text = Vec::new();
        loop {
            let mut bytes = 0;
            let status = unsafe {
                let (instance, m) = (instance.as_ptr(), instance.len());
                let (callers, n) = (names.as_ptr(), names.len());
                raw::lus_journal_text(&mut self.handle, instance, m, callers, n, text.as_mut_ptr(), text.len(), &mut bytes)
            };
            if status == SHORT {
                text.resize(bytes as usize, 0);
                continue;
            }
            check(status, 0)?;
            return Ok(String::from_utf8_lossy(&text).into_owned());
        }
    }
}
