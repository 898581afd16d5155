//! The functions of the library for C, and the structs that they take: all that is `unsafe` here.
//!
//! [`Handle`] makes the calls safe. What `yektrod.h` has callers promise is kept so: a handle starts as zero bytes and is
//! closed once, when it is dropped; each call has it by `&mut`; pointers and lengths are those of slices, and what is written
//! to is initialised memory of its own.
#![allow(unsafe_code)]

use std::ffi::c_void;
use std::ptr;

/// What a call returned: one of the numbers below.
pub type Status = i32;

pub const DONE: Status = 0;
pub const NO_MEMORY: Status = 1;
pub const NOT_FOUND: Status = 3;
pub const INVALID: Status = 4;
pub const NO_LIST: Status = 5;
pub const BUFFER_TOO_SMALL: Status = 6;

/// The version whose header this file follows. Versions with the same numbers but for the last one have the same calls.
pub const VERSION: u32 = 0x00_24_00;

pub const SET: i32 = 1;
pub const UNSET: i32 = 2;
pub const HAS_VALUE: i32 = 3;

pub const IS_MACRO: u32 = 1;
pub const HAS_SOURCE: u32 = 2;
pub const HAS_CAUSE: u32 = 4;

/// A number that is missing.
pub const NONE: usize = usize::MAX;

/// An answer: `yektrod_row`.
#[repr(C)]
#[derive(Clone, Copy, Debug, Default)]
pub struct Row {
    pub state: i32,
    pub flags: u32,
    pub line: usize,
    pub list: usize,
    pub name: usize,
    pub cause: usize,
    pub at: usize,
    pub name_length: usize,
    pub value_length: usize,
    pub source_length: usize,
    pub pattern_length: usize,
    pub cause_length: usize,
}

/// How many rows and bytes of text the answers take: `yektrod_needed`.
#[repr(C)]
#[derive(Clone, Copy, Debug, Default)]
pub struct Needed {
    pub rows: usize,
    pub text: usize,
}

/// A line that was dropped: `yektrod_dropped_line`.
#[repr(C)]
#[derive(Clone, Copy, Debug, Default)]
pub struct DroppedLine {
    pub line: usize,
    pub reason: i32,
}

/// `yektrod`.
#[repr(C)]
struct Raw {
    engine: *mut c_void,
    live: bool,
}

/// `yektrod_bytes`.
#[repr(C)]
struct Bytes {
    at: *const u8,
    length: usize,
}

/// `yektrod_place`.
#[repr(C)]
struct Place {
    directory: Bytes,
    source: Bytes,
}

/// `yektrod_question`.
#[repr(C)]
struct Question {
    path: Bytes,
    fold: bool,
    is_dir: i32,
}

extern "C" {
    fn yektrod_version() -> u32;
    fn yektrod_open(y: *mut Raw) -> Status;
    fn yektrod_close(y: *mut Raw);
    fn yektrod_add_in(
        y: *mut Raw,
        bytes: *const u8,
        length: usize,
        place: *const Place,
        allow_macros: bool,
        list: *mut usize,
        dropped: *mut usize,
    ) -> Status;
    fn yektrod_dropped(y: *mut Raw, i: usize, line: *mut DroppedLine) -> Status;
    fn yektrod_pop(y: *mut Raw) -> Status;
    fn yektrod_select(y: *mut Raw, names: *const Bytes, count: usize) -> Status;
    fn yektrod_ask_into(
        y: *mut Raw,
        question: *const Question,
        rows: *mut Row,
        rows_room: usize,
        text: *mut u8,
        text_room: usize,
        needed: *mut Needed,
    ) -> Status;
    fn yektrod_found(y: *mut Raw, number: usize, row: *mut Row, text: *mut u8, text_room: usize, needed: *mut usize) -> Status;
    fn yektrod_names(y: *mut Raw, count: *mut usize) -> Status;
    fn yektrod_name(y: *mut Raw, number: usize, to: *mut u8, room: usize, needed: *mut usize) -> Status;
}

impl Bytes {
    /// Those of a slice, to be read while the slice is borrowed.
    fn of(slice: &[u8]) -> Bytes {
        Bytes { at: slice.as_ptr(), length: slice.len() }
    }
}

/// The version of the library that is linked.
pub fn version() -> u32 {
    // SAFETY: the function takes nothing and reads nothing.
    unsafe { yektrod_version() }
}

/// An open engine of the library.
pub struct Handle(Raw);

// SAFETY: promise 5 of `yektrod.h`: "An engine is used by one call at a time. It may be used from any thread, if a lock or a
// join orders its calls." Each call takes `&mut Handle`, which one thread has at a time, and whatever passes it on to another
// orders their calls.
unsafe impl Send for Handle {}

// What makes each call safe: the handle is open and borrowed for the call alone; pointers and lengths are those of slices and
// structs that outlive the call; what is written is initialised, and borrowed for the call alone.
impl Handle {
    pub fn open() -> Result<Handle, Status> {
        let mut handle = Handle(Raw { engine: ptr::null_mut(), live: false });
        // SAFETY: the struct is zero, and is only written by the library from now on.
        done(unsafe { yektrod_open(&mut handle.0) })?;
        Ok(handle)
    }

    /// Returns the index of the list, and how many lines were dropped.
    pub fn add(
        &mut self,
        contents: &[u8],
        directory: &[u8],
        source: &[u8],
        allow_macros: bool,
    ) -> Result<(usize, usize), Status> {
        let place = Place { directory: Bytes::of(directory), source: Bytes::of(source) };
        let (mut list, mut dropped) = (0, 0);
        // SAFETY: as said at `impl Handle`.
        done(unsafe {
            yektrod_add_in(&mut self.0, contents.as_ptr(), contents.len(), &place, allow_macros, &mut list, &mut dropped)
        })?;
        Ok((list, dropped))
    }

    pub fn dropped(&mut self, i: usize) -> Result<DroppedLine, Status> {
        let mut line = DroppedLine::default();
        // SAFETY: as said at `impl Handle`.
        done(unsafe { yektrod_dropped(&mut self.0, i, &mut line) })?;
        Ok(line)
    }

    pub fn pop(&mut self) -> Result<(), Status> {
        // SAFETY: as said at `impl Handle`.
        done(unsafe { yektrod_pop(&mut self.0) })
    }

    pub fn select(&mut self, names: &[&[u8]]) -> Result<(), Status> {
        let names: Vec<Bytes> = names.iter().map(|name| Bytes::of(name)).collect();
        // SAFETY: as said at `impl Handle`.
        done(unsafe { yektrod_select(&mut self.0, names.as_ptr(), names.len()) })
    }

    /// What the answers take is in the first of the pair, also with `BUFFER_TOO_SMALL`.
    pub fn ask(
        &mut self,
        path: &[u8],
        fold: bool,
        is_dir: i32,
        rows: &mut [Row],
        text: &mut [u8],
    ) -> (Needed, Result<(), Status>) {
        let question = Question { path: Bytes::of(path), fold, is_dir };
        let mut needed = Needed::default();
        // SAFETY: as said at `impl Handle`.
        let status = unsafe {
            let (rows, rows_room) = (rows.as_mut_ptr(), rows.len());
            yektrod_ask_into(&mut self.0, &question, rows, rows_room, text.as_mut_ptr(), text.len(), &mut needed)
        };
        (needed, done(status))
    }

    /// What the texts take is in the first of the pair, also with `BUFFER_TOO_SMALL`.
    pub fn found(&mut self, number: usize, row: &mut Row, text: &mut [u8]) -> (usize, Result<(), Status>) {
        let mut needed = 0;
        // SAFETY: as said at `impl Handle`.
        let status = unsafe { yektrod_found(&mut self.0, number, row, text.as_mut_ptr(), text.len(), &mut needed) };
        (needed, done(status))
    }

    pub fn names(&mut self) -> Result<usize, Status> {
        let mut count = 0;
        // SAFETY: as said at `impl Handle`.
        done(unsafe { yektrod_names(&mut self.0, &mut count) })?;
        Ok(count)
    }

    /// What the name takes is in the first of the pair, also with `BUFFER_TOO_SMALL`.
    pub fn name(&mut self, number: usize, to: &mut [u8]) -> (usize, Result<(), Status>) {
        let mut needed = 0;
        // SAFETY: as said at `impl Handle`.
        let status = unsafe { yektrod_name(&mut self.0, number, to.as_mut_ptr(), to.len(), &mut needed) };
        (needed, done(status))
    }
}

impl Drop for Handle {
    fn drop(&mut self) {
        // SAFETY: as said at `impl Handle`. The struct is not used again.
        unsafe { yektrod_close(&mut self.0) }
    }
}

fn done(status: Status) -> Result<(), Status> {
    if status == DONE {
        Ok(())
    } else {
        Err(status)
    }
}
