//! The exports of librelc, as `bindings/c/relc.h` declares them: its codes, frames and functions.

use std::ffi::c_void;
use std::mem::{offset_of, size_of};

/// The most values of a call.
pub const VALUES: usize = 64;
/// The most values of a row.
pub const CELLS: usize = 32;
/// The most values of several rows at once.
pub const PAGE: usize = 1024;
/// The most calls of a group.
pub const GROUP: usize = 16;
/// The longest name of an operation.
pub const NAME: usize = 16;
/// The longest refusal.
pub const REFUSAL: usize = 64;
/// The most bytes of a text at once.
pub const TEXT: usize = 4096;

// What a function answers.
pub const DONE: u32 = 0;
pub const MEMORY: u32 = 1;
pub const BUSY: u32 = 2;
pub const SPENT: u32 = 3;
pub const OPERATION: u32 = 4;
pub const PREPARED: u32 = 6;
pub const OPTIONS: u32 = 9;
pub const TOO_LONG: u32 = 10;
pub const LINE: u32 = 11;
pub const RULE: u32 = 12;
pub const NONE_LEFT: u32 = 13;
pub const UNSEEN: u32 = 14;
pub const COUNT: u32 = 15;
pub const NOT_OPEN: u32 = 16;
pub const UNCOVERED: u32 = 17;
pub const NO_CALL: u32 = 18;
pub const PLAN_LINE: u32 = 19;
pub const PLAN: u32 = 20;
pub const SHAPE_LINE: u32 = 21;
pub const SESSIONS: u32 = 22;
pub const LIMIT: u32 = 23;
pub const OTHER: u32 = 24;
pub const OUTSIDE: u32 = 25;
pub const SHARED: u32 = 26;

// Kinds of a reply.
pub const ROWS: u32 = 0;
pub const MANY: u32 = 1;
pub const INSERTED: u32 = 2;
pub const PRESENT: u32 = 3;
pub const CONFLICT: u32 = 4;
pub const REMOVED: u32 = 5;
pub const ABSENT: u32 = 6;
pub const UPDATED: u32 = 7;

// What a busy stripe had.
pub const WRITER: u32 = 0;
pub const READERS: u32 = 1;
pub const LATCH: u32 = 2;

// Kinds of an operation.
pub const QUERY: u32 = 0;
pub const INSERT: u32 = 1;
pub const REMOVE: u32 = 2;
pub const UPDATE: u32 = 3;

#[repr(C)]
pub struct OpenFrame {
    pub passes: u32,
    pub length: u32,
    pub limit: u64,
    pub rows: u64,
    pub seed: [u64; 2],
    pub refusal: [u8; REFUSAL],
}

#[repr(C)]
pub struct OperationFrame {
    pub length: u32,
    pub op: u32,
    pub kind: u32,
    pub count: u32,
    pub width: u64,
    pub name: [u8; NAME],
    pub columns: [u8; VALUES],
    pub pattern_count: u64,
    pub pattern: [u8; CELLS],
}

#[repr(C)]
pub struct Frame {
    pub op: u32,
    pub count: u32,
    pub values: [u64; VALUES],
    pub kind: u32,
    pub found: u32,
    pub stripe: u32,
    pub who: u32,
    pub number: u64,
    pub place: u64,
    pub nth: u64,
    pub seen: u64,
    pub row: u64,
    pub width: u64,
    pub cells: [u64; CELLS],
}

#[repr(C)]
pub struct Page {
    pub row: u64,
    pub rows: u64,
    pub cells: [u64; PAGE],
}

#[repr(C)]
pub struct TextPage {
    pub at: u64,
    pub length: u64,
    pub count: u64,
    pub bytes: [u8; TEXT],
}

/// Compares the size of a struct, and the place of each of its fields, with the given numbers.
macro_rules! lies {
    ($kind:ty, $size:literal, $($field:ident $at:literal),+) => {
        const _: () = assert!(size_of::<$kind>() == $size $(&& offset_of!($kind, $field) == $at)+);
    };
}

// The structs of rc_embed. The numbers are copied from them by hand, and are those of test.c; that
// what a field is told comes at that place is what the tests see.
lies!(OpenFrame, 104, passes 0, length 4, limit 8, rows 16, seed 24, refusal 40);
lies!(OperationFrame, 144, length 0, op 4, kind 8, count 12, width 16, name 24, columns 40);
lies!(OperationFrame, 144, pattern_count 104, pattern 112);
lies!(Frame, 840, op 0, count 4, values 8, kind 520, found 524, stripe 528, who 532);
lies!(Frame, 840, number 536, place 544, nth 552, seen 560, row 568, width 576, cells 584);
lies!(Page, 8208, row 0, rows 8, cells 16);
lies!(TextPage, 4120, at 0, length 8, count 16, bytes 24);

impl Frame {
    /// Asks for a call.
    pub fn ask(&mut self, op: u32, values: &[u64]) {
        self.op = op;
        self.count = values.len() as u32;
        self.values[..values.len()].copy_from_slice(values);
    }

    /// A frame of zeros: every byte that is lent is initialised.
    pub fn new() -> Frame {
        Frame {
            op: 0,
            count: 0,
            values: [0; VALUES],
            kind: 0,
            found: 0,
            stripe: 0,
            who: 0,
            number: 0,
            place: 0,
            nth: 0,
            seen: 0,
            row: 0,
            width: 0,
            cells: [0; CELLS],
        }
    }
}

impl OperationFrame {
    /// A frame of zeros.
    pub fn new() -> OperationFrame {
        OperationFrame {
            length: 0,
            op: 0,
            kind: 0,
            count: 0,
            width: 0,
            name: [0; NAME],
            columns: [0; VALUES],
            pattern_count: 0,
            pattern: [0; CELLS],
        }
    }
}

impl Page {
    /// A page of zeros.
    pub fn new() -> Page {
        Page {
            row: 0,
            rows: 0,
            cells: [0; PAGE],
        }
    }
}

unsafe extern "C" {
    pub fn relc_open_with(
        text: *const u8,
        length: usize,
        shapes: *const u8,
        shapes_length: usize,
        plans: *const u8,
        plans_length: usize,
        frame: *mut OpenFrame,
        store: *mut *mut c_void,
    ) -> u32;
    pub fn relc_plans(store: *mut c_void, page: *mut TextPage) -> u32;
    pub fn relc_operation(store: *mut c_void, frame: *mut OperationFrame) -> u32;
    pub fn relc_shape(
        store: *mut c_void,
        line: *const u8,
        length: usize,
        frame: *mut OperationFrame,
    ) -> u32;
    pub fn relc_open_session(store: *mut c_void, session: *mut *mut c_void) -> u32;
    pub fn relc_try_call(session: *mut c_void, frame: *mut Frame) -> u32;
    pub fn relc_begin(session: *mut c_void, frame: *mut Frame) -> u32;
    pub fn relc_try_group(session: *mut c_void, frames: *mut Frame, count: usize) -> u32;
    pub fn relc_begin_group(session: *mut c_void, frames: *mut Frame, count: usize) -> u32;
    pub fn relc_open_group(session: *mut c_void, frames: *mut Frame, count: usize) -> u32;
    pub fn relc_call_open(session: *mut c_void, frame: *mut Frame) -> u32;
    pub fn relc_commit(session: *mut c_void, frame: *mut Frame) -> u32;
    pub fn relc_cancel(session: *mut c_void, frame: *mut Frame) -> u32;
    pub fn relc_pick(session: *mut c_void, frame: *mut Frame) -> u32;
    pub fn relc_row(session: *mut c_void, frame: *mut Frame) -> u32;
    pub fn relc_rows(session: *mut c_void, page: *mut Page) -> u32;
    pub fn relc_learn(session: *mut c_void, frame: *mut Frame) -> u32;
    pub fn relc_tell(from: *mut c_void, to: *mut c_void) -> u32;
    pub fn relc_close_store(store: *mut c_void);
    pub fn relc_close_session(session: *mut c_void);
    pub fn relc_give_back(store: *mut c_void, session: *mut c_void) -> u32;
    pub fn relc_close(store: *mut c_void, closed: *mut *mut c_void) -> u32;
    pub fn relc_resume(
        closed: *mut c_void,
        text: *const u8,
        length: usize,
        shapes: *const u8,
        shapes_length: usize,
        plans: *const u8,
        plans_length: usize,
        frame: *mut OpenFrame,
        store: *mut *mut c_void,
    ) -> u32;
    pub fn relc_drop_closed(closed: *mut c_void);
}
