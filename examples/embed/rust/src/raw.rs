//! `include/redplay.h`, call by call. Nothing compares the two but the sizes and places below.

use core::ffi::c_void;
use core::mem::{offset_of, size_of};

#[repr(C)]
pub struct Handle {
    pub at: *mut c_void,
}

#[repr(C)]
pub struct Source {
    pub name: *const u8,
    pub name_length: usize,
    pub content: *const u8,
    pub content_length: usize,
}

/// How many steps were taken, how many may be for what was posted so far, and how many faults were met.
#[repr(C)]
#[derive(Clone, Copy, Debug, Default, PartialEq, Eq)]
pub struct Totals {
    pub taken: u64,
    pub budget: u64,
    pub faults: u64,
}

/// To how many steps the start and one input of each kind lead at most.
#[repr(C)]
#[derive(Clone, Copy, Debug, Default, PartialEq, Eq)]
pub struct Limits {
    pub start: u64,
    pub key: u64,
    pub tick: u64,
    pub stream: u64,
    pub engine: u64,
    pub arrive: u64,
}

/// A cell: a code point of Unicode, its colour, and the colour behind it (24 bits, red in the highest eight).
#[repr(C)]
#[derive(Clone, Copy, Debug, Default, PartialEq, Eq)]
pub struct Cell {
    pub scalar: u32,
    pub fore: u32,
    pub back: u32,
}

const _: () = assert!(size_of::<Handle>() == 8 && size_of::<Source>() == 32);
const _: () = assert!(size_of::<Totals>() == 24 && size_of::<Cell>() == 12);
const _: () = assert!(size_of::<Limits>() == 48 && offset_of!(Limits, arrive) == 40);
const _: () = assert!(offset_of!(Source, content) == 16 && offset_of!(Cell, back) == 8);

extern "C" {
    pub fn redplay_version() -> u32;
    pub fn redplay_engine_version() -> u32;
    pub fn redplay_why(number: u32, text: *mut u8, text_length: usize, length: *mut usize) -> u32;
    pub fn redplay_check(
        files: *const Source,
        files_length: usize,
        start: *const u8,
        start_length: usize,
        late: *const u8,
        late_length: usize,
        text: *mut u8,
        text_length: usize,
        length: *mut usize,
    ) -> u32;
    pub fn redplay_start(
        handle: *mut Handle,
        files: *const Source,
        files_length: usize,
        start: *const u8,
        start_length: usize,
        late: *const u8,
        late_length: usize,
        day: u32,
        lenient: bool,
    ) -> u32;
    pub fn redplay_start_sealed(
        handle: *mut Handle,
        seal: *const u8,
        seal_length: usize,
        files: *const Source,
        files_length: usize,
        day: u32,
    ) -> u32;
    pub fn redplay_free(handle: *mut Handle) -> u32;
    pub fn redplay_key(handle: *mut Handle, key: u32) -> u32;
    pub fn redplay_tick(handle: *mut Handle, milliseconds: u32) -> u32;
    pub fn redplay_stream(handle: *mut Handle, tag: i32) -> u32;
    pub fn redplay_event(handle: *mut Handle, number: i32) -> u32;
    pub fn redplay_file(
        handle: *mut Handle,
        name: *const u8,
        name_length: usize,
        content: *const u8,
        content_length: usize,
    ) -> u32;
    pub fn redplay_scene(
        handle: *mut Handle,
        name: *const u8,
        name_length: usize,
        content: *const u8,
        content_length: usize,
    ) -> u32;
    pub fn redplay_bounds(handle: *const Handle, limits: *mut Limits) -> u32;
    pub fn redplay_fault(
        handle: *const Handle,
        at: usize,
        text: *mut u8,
        text_length: usize,
        length: *mut usize,
    ) -> u32;
    pub fn redplay_awaited(
        handle: *const Handle,
        text: *mut u8,
        text_length: usize,
        length: *mut usize,
    ) -> u32;
    pub fn redplay_advance(handle: *mut Handle, most: u32) -> u32;
    pub fn redplay_rest(handle: *const Handle) -> u32;
    pub fn redplay_counts(handle: *const Handle, totals: *mut Totals) -> u32;
    pub fn redplay_changed(handle: *mut Handle, rows: *mut u64) -> u32;
    pub fn redplay_cells(
        handle: *const Handle,
        row: usize,
        cells: *mut Cell,
        cells_length: usize,
    ) -> u32;
}
