//! The declarations of zemuschida.h.
use std::ffi::c_void;
use std::ptr::null_mut;

pub const OK: u32 = 0;
pub const FULL: u32 = 1;
pub const EMPTY: u32 = 2;
pub const UNFINISHED: u32 = 3;
pub const MOVED: u32 = 4;
pub const OVERRUN: u32 = 5;
pub const UNOPENED: u32 = 6;
pub const SPENT: u32 = 18;
pub const MEMORY: u32 = 19;
pub const BAD_BLOCKS: u32 = 20;
pub const BAD_SIZE: u32 = 21;
pub const BAD_WIDTH: u32 = 22;
pub const BAD_SEATS: u32 = 23;
pub const ROOM: u32 = 24;
pub const BAD_BLOCK: u32 = 25;
pub const NOT_ALL_SEATS: u32 = 26;
/// One more than a queue may have.
pub const TOO_MANY_SEATS: usize = 1025;

/// `zem_seat` and the other handles.
#[repr(C)]
pub struct Seat {
    full: bool,
    at: *mut c_void,
}

impl Seat {
    pub const NONE: Seat = Seat {
        full: false,
        at: null_mut(),
    };
}

#[repr(C)]
#[derive(Clone, Copy, Default)]
pub struct Cursor {
    pub block: u64,
    pub offset: u64,
}

#[repr(C)]
#[derive(Clone, Copy, Default)]
pub struct Answer {
    pub place: u64,
    pub block: u64,
    pub first: Cursor,
    pub second: Cursor,
}

#[repr(C)]
#[derive(Clone, Copy, Default)]
pub struct Item {
    pub place: u64,
    pub words: [u64; 8],
}

#[repr(C)]
#[derive(Clone, Copy, Default)]
pub struct Gap {
    pub block: u64,
    pub committed: Cursor,
    pub allocated: Cursor,
}

#[repr(C)]
#[derive(Clone, Copy, Default)]
pub struct View {
    pub items: u64,
    pub gaps: u64,
}

#[repr(C)]
#[derive(Clone, Copy, Default)]
pub struct Look {
    pub count: u64,
    pub committed: Cursor,
    pub allocated: Cursor,
}

#[repr(C)]
#[derive(Clone, Copy, Default)]
pub struct Counts {
    pub accepted: u64,
    pub left: u64,
}

pub type Close = unsafe extern "C" fn(*mut Seat, usize, *mut Seat) -> u32;
pub type Make = unsafe extern "C" fn(u64, u64, u64, *mut Seat, usize) -> u32;
pub type Put = unsafe extern "C" fn(*mut Seat, *const u64, usize, *mut Answer) -> u32;
pub type Take = unsafe extern "C" fn(*mut Seat, *mut u64, usize, *mut Answer) -> u32;

extern "C" {
    pub fn zem_make(blocks: u64, size: u64, width: u64, seats: *mut Seat, n: usize) -> u32;
    pub fn zem_put(seat: *mut Seat, entry: *const u64, width: usize, answer: *mut Answer) -> u32;
    pub fn zem_take(seat: *mut Seat, out: *mut u64, width: usize, answer: *mut Answer) -> u32;
    pub fn zem_free(seat: *mut Seat);
    pub fn zem_close(seats: *mut Seat, n: usize, closed: *mut Seat) -> u32;
    pub fn zem_ring_close(seats: *mut Seat, n: usize, closed: *mut Seat) -> u32;
    pub fn zem_counts(closed: *mut Seat, counts: *mut Counts) -> u32;
    pub fn zem_left(
        closed: *mut Seat,
        number: usize,
        out: *mut u64,
        width: usize,
        place: *mut u64,
    ) -> u32;
    pub fn zem_done(closed: *mut Seat);
    pub fn zem_ring_make(blocks: u64, size: u64, width: u64, seats: *mut Seat, n: usize) -> u32;
    pub fn zem_ring_put(
        seat: *mut Seat,
        entry: *const u64,
        width: usize,
        answer: *mut Answer,
    ) -> u32;
    pub fn zem_ring_take(seat: *mut Seat, out: *mut u64, width: usize, answer: *mut Answer) -> u32;
    pub fn zem_ring_view(
        seat: *mut Seat,
        items: *mut Item,
        items_room: usize,
        gaps: *mut Gap,
        gaps_room: usize,
        view: *mut View,
    ) -> u32;
    pub fn zem_ring_look_head(seat: *mut Seat, newest: *mut Cursor) -> u32;
    pub fn zem_ring_look_block(seat: *mut Seat, block: u64, look: *mut Look) -> u32;
    pub fn zem_ring_look_entry(
        seat: *mut Seat,
        block: u64,
        offset: u64,
        out: *mut u64,
        width: usize,
        look: *mut Look,
    ) -> u32;
    pub fn zem_ring_free(seat: *mut Seat);
    pub fn zem_log_make(
        blocks: u64,
        size: u64,
        width: u64,
        consumer: *mut Seat,
        seats: *mut Seat,
        n: usize,
    ) -> u32;
    pub fn zem_log_put(
        seat: *mut Seat,
        entry: *const u64,
        width: usize,
        answer: *mut Answer,
    ) -> u32;
    pub fn zem_log_take(
        consumer: *mut Seat,
        out: *mut u64,
        width: usize,
        answer: *mut Answer,
    ) -> u32;
    pub fn zem_log_free(seat: *mut Seat);
    pub fn zem_log_consumer_free(consumer: *mut Seat);
}
