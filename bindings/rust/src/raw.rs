//! The calls of `lus.h`, and handles that are let go with their owners.
pub(crate) use lus_sys::*;
use std::ops::{Deref, DerefMut};

/// A handle of the library. It is moved, never copied, and let go with its owner.
#[repr(transparent)]
pub(crate) struct Handle(lus_sys::Handle);

// SAFETY: the library asks that a handle is in one place and given to one call at a time, and that it goes to another thread behind
// a start or join of a thread, a lock or a channel. A `Handle` is moved and never copied, a call has it by `&mut`, and safe Rust hands
// values to threads in no other way. It isn't `Sync`: two threads that have it by `&` have no call that takes it so.
unsafe impl Send for Handle {}

impl Handle {
    pub(crate) const NONE: Handle = Handle(lus_sys::Handle::NONE);
}

impl Deref for Handle {
    type Target = lus_sys::Handle;

    fn deref(&self) -> &lus_sys::Handle {
        &self.0
    }
}

impl DerefMut for Handle {
    fn deref_mut(&mut self) -> &mut lus_sys::Handle {
        &mut self.0
    }
}

impl Drop for Handle {
    fn drop(&mut self) {
        if self.live != 0 {
            unsafe { lus_free(self) };
        }
    }
}
