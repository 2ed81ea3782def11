//! The calls of `lus.h`, as they are: that page says what each asks of its callers. The crate `lus` is for hosts.
#![no_std]
#![allow(clippy::missing_safety_doc)]
use core::ptr;

/// `LUS_VERSION`: a library with another `lus_version` has other calls.
pub const VERSION: u32 = 1;

/// A handle of any kind, which only the calls read and write.
#[repr(C)]
pub struct Handle {
    pub live: u64,
    pub kept: *mut u8,
}

impl Handle {
    pub const NONE: Handle = Handle { live: 0, kept: ptr::null_mut() };
}

#[repr(C)]
#[derive(Clone, Copy, Default)]
pub struct Leaf {
    pub kind: u32,
    pub of: u32,
    pub number: i64,
}

#[repr(C)]
#[derive(Default)]
pub struct Answer {
    pub kind: u32,
    pub why: u32,
    pub count: u64,
}

#[repr(C)]
#[derive(Default)]
pub struct Refused {
    pub number: u32,
    pub line: u32,
    pub column: u32,
    pub cycle: u32,
    pub bytes: u64,
}

#[repr(C)]
#[derive(Default)]
pub struct Formal {
    pub kind: u32,
    pub of: u32,
    pub clocked: u32,
    pub unused: u32,
    pub bytes: u64,
}

#[repr(C)]
#[derive(Default)]
pub struct Bounds {
    pub orders: u64,
    pub row: u64,
    pub instance_bytes: u64,
    pub saved_bytes: u64,
}

#[repr(C)]
#[derive(Default)]
pub struct Entered {
    pub caller: u32,
    pub request: u32,
    pub slot: u64,
    pub reply: u32,
    pub why: u32,
    pub inputs: u64,
    pub outputs: u64,
}

unsafe extern "C" {
    pub fn lus_version() -> u32;
    pub fn lus_compile(text: *const u8, n: usize, out: &mut Handle, why: &mut Refused, names: *mut u8, room: usize) -> u32;
    pub fn lus_explain(
        text: *const u8,
        n: usize,
        name: *const u8,
        length: usize,
        explanation: *mut u8,
        room: usize,
        bytes: &mut u64,
    ) -> u32;
    pub fn lus_nodes(program: &mut Handle, count: &mut u32) -> u32;
    pub fn lus_node_name(program: &mut Handle, node: u32, bytes: &mut u64, name: *mut u8, room: usize) -> u32;
    pub fn lus_formals(program: &mut Handle, node: u32, inputs: &mut u32, outputs: &mut u32) -> u32;
    pub fn lus_cost(program: &mut Handle, node: u32, out: &mut Bounds) -> u32;
    pub fn lus_input(program: &mut Handle, node: u32, place: u32, out: &mut Formal, name: *mut u8, room: usize) -> u32;
    pub fn lus_output(program: &mut Handle, node: u32, place: u32, out: &mut Formal, name: *mut u8, room: usize) -> u32;
    pub fn lus_field(program: &mut Handle, of: u32, place: u32, out: &mut Formal, name: *mut u8, room: usize) -> u32;
    pub fn lus_constructor(program: &mut Handle, of: u32, number: u32, bytes: &mut u64, name: *mut u8, room: usize) -> u32;
    pub fn lus_open(program: &mut Handle, node: u32, seats: *mut Handle, count: u32) -> u32;
    pub fn lus_try_call(
        seat: &mut Handle,
        request: u32,
        slot: u64,
        inputs: *const Leaf,
        n: usize,
        answer: &mut Answer,
        outputs: *mut Leaf,
        room: usize,
    ) -> u32;
    pub fn lus_outputs(seat: &mut Handle, answer: &mut Answer, outputs: *mut Leaf, room: usize) -> u32;
    pub fn lus_count(seat: &mut Handle, count: &mut u64) -> u32;
    pub fn lus_number(seat: &mut Handle, number: &mut u32) -> u32;
    pub fn lus_meet(first: &mut Handle, second: &mut Handle) -> u32;
    pub fn lus_hold(seat: &mut Handle, count: &mut u64) -> u32;
    pub fn lus_release(seat: &mut Handle) -> u32;
    pub fn lus_close(seats: *mut Handle, count: u32, journal: &mut Handle) -> u32;
    pub fn lus_entries(journal: &mut Handle, count: &mut u64) -> u32;
    pub fn lus_entry_at(
        journal: &mut Handle,
        place: u64,
        entry: &mut Entered,
        inputs: *mut Leaf,
        n: usize,
        outputs: *mut Leaf,
        room: usize,
    ) -> u32;
    pub fn lus_journal_text(
        journal: &mut Handle,
        instance: *const u8,
        instance_bytes: usize,
        callers: *const u8,
        length: usize,
        text: *mut u8,
        room: usize,
        bytes: &mut u64,
    ) -> u32;
    pub fn lus_live_open(program: &mut Handle, node: u32, live: &mut Handle) -> u32;
    pub fn lus_live_call(
        live: &mut Handle,
        request: u32,
        slot: u64,
        inputs: *const Leaf,
        n: usize,
        answer: &mut Answer,
        outputs: *mut Leaf,
        room: usize,
    ) -> u32;
    pub fn lus_live_replay(live: &mut Handle, line: *const u8, bytes: usize) -> u32;
    pub fn lus_live_entry(
        live: &mut Handle,
        entry: &mut Entered,
        inputs: *mut Leaf,
        n: usize,
        outputs: *mut Leaf,
        room: usize,
    ) -> u32;
    pub fn lus_live_line(
        live: &mut Handle,
        caller: *const u8,
        length: usize,
        text: *mut u8,
        room: usize,
        bytes: &mut u64,
    ) -> u32;
    pub fn lus_live_count(live: &mut Handle, count: &mut u64) -> u32;
    pub fn lus_free(handle: &mut Handle) -> u32;
}
