//! include/oblakosh.h once more, with the same layout below: `compare/link/run` holds the two to each other and to the libraries.
use crate::{Orders, Ring, Sheet};
#[cfg(feature = "controller")]
use crate::{Record, CARTS};
use std::mem::{offset_of, size_of};

#[repr(C)]
#[derive(Clone, Copy)]
pub struct Outcome {
    pub number: u32,
    pub cart: u8,
    pub step: u8,
    pub place: usize,
}

#[repr(C)]
pub struct SheetRead {
    pub outcome: Outcome,
    pub sheet: Sheet,
}

#[repr(C)]
pub struct PlanRead {
    pub outcome: Outcome,
    pub sheet: Sheet,
    pub orders: Orders,
}

#[repr(C)]
pub struct Judged {
    pub outcome: Outcome,
    pub finish: u32,
    pub moves: u32,
    pub ring: Ring,
}

#[cfg(feature = "controller")]
#[repr(C)]
pub struct PlanWritten {
    pub outcome: Outcome,
    pub length: usize,
}

#[cfg(feature = "controller")]
#[repr(C)]
pub struct Planned {
    pub outcome: Outcome,
    pub length: usize,
    pub finish: u32,
}

#[cfg(feature = "controller")]
#[repr(C)]
pub struct ListFound {
    pub outcome: Outcome,
    pub start: usize,
    pub length: usize,
}

#[cfg(feature = "controller")]
#[repr(C)]
pub struct Asked {
    pub outcome: Outcome,
    pub position: u8,
    pub made: u32,
    pub ahead: u32,
}

#[cfg(feature = "controller")]
#[repr(C)]
pub struct Chain {
    pub outcome: Outcome,
    pub length: usize,
    pub cart: [u8; CARTS],
    pub zone: [u8; CARTS],
    pub out: u8,
}

#[cfg(feature = "controller")]
#[repr(C)]
pub struct NetRun {
    pub outcome: Outcome,
    pub length: usize,
    pub locked: u8,
    pub position: [u8; CARTS],
}

extern "C" {
    pub fn oblakosh_read_sheet(s: *const u8, s_length: usize) -> SheetRead;
    pub fn oblakosh_read_plan(
        s: *const u8,
        s_length: usize,
        p: *const u8,
        p_length: usize,
    ) -> PlanRead;
    pub fn oblakosh_judge(
        s: *const u8,
        s_length: usize,
        p: *const u8,
        p_length: usize,
        words: *mut u32,
        words_length: usize,
    ) -> Judged;
}

#[cfg(feature = "controller")]
extern "C" {
    pub fn oblakosh_write_again(
        s: *const u8,
        s_length: usize,
        p: *const u8,
        p_length: usize,
        room: *mut u8,
        room_length: usize,
    ) -> PlanWritten;
    pub fn oblakosh_plan(
        s: *const u8,
        s_length: usize,
        room: *mut u8,
        room_length: usize,
    ) -> Planned;
    pub fn oblakosh_plan_first(
        s: *const u8,
        s_length: usize,
        room: *mut u8,
        room_length: usize,
    ) -> Planned;
    pub fn oblakosh_plan_better(
        s: *const u8,
        s_length: usize,
        room: *mut u8,
        room_length: usize,
    ) -> Planned;
    pub fn oblakosh_find_list(
        s: *const u8,
        s_length: usize,
        p: *const u8,
        p_length: usize,
        zone: usize,
    ) -> ListFound;
    pub fn oblakosh_ask(
        s: *const u8,
        s_length: usize,
        p: *const u8,
        p_length: usize,
        lent: Record,
        cart: usize,
    ) -> Asked;
    pub fn oblakosh_move_cart(
        s: *const u8,
        s_length: usize,
        p: *const u8,
        p_length: usize,
        lent: *mut Record,
        cart: usize,
    ) -> Asked;
    pub fn oblakosh_why(
        s: *const u8,
        s_length: usize,
        p: *const u8,
        p_length: usize,
        lent: Record,
        cart: usize,
    ) -> Chain;
    pub fn oblakosh_net(
        s: *const u8,
        s_length: usize,
        p: *const u8,
        p_length: usize,
        room: *mut u8,
        room_length: usize,
    ) -> NetRun;
}

/// The size of the field that such a function borrows.
const fn size_of_field<T, F>(_: fn(&T) -> &F) -> usize {
    size_of::<F>()
}

/// Holds a struct to its size and each field to its place and size, in bytes. With a field left out it does not compile.
macro_rules! layout {
    ($of:ident $size:literal: $($field:ident $place:literal $bytes:literal),+) => {
        const _: () = {
            assert!(size_of::<$of>() == $size);
            $(assert!(offset_of!($of, $field) == $place);)+
            $(assert!(size_of_field(|whole: &$of| &whole.$field) == $bytes);)+
            const fn _has_no_other_field($of { $($field: _),+ }: &$of) {}
        };
    };
}

layout!(Outcome 16: number 0 4, cart 4 1, step 5 1, place 8 8);
layout!(Sheet 848: zones 0 8, follow 8 48, cross 56 48, carts 104 8, lane 112 16, arrival 128 64, steps 192 16, zone 208 128,
    passing 336 256, travel 592 256);
layout!(SheetRead 864: outcome 0 16, sheet 16 848);
layout!(Orders 664: count 0 24, list 24 384, ahead 408 256);
layout!(PlanRead 1528: outcome 0 16, sheet 16 848, orders 864 664);
layout!(Ring 40: length 0 8, cart 8 16, zone 24 16);
layout!(Judged 64: outcome 0 16, finish 16 4, moves 20 4, ring 24 40);
#[cfg(feature = "controller")]
layout!(PlanWritten 24: outcome 0 16, length 16 8);
#[cfg(feature = "controller")]
layout!(Planned 32: outcome 0 16, length 16 8, finish 24 4);
#[cfg(feature = "controller")]
layout!(ListFound 32: outcome 0 16, start 16 8, length 24 8);
#[cfg(feature = "controller")]
layout!(Record 20: position 0 16, made 16 4);
#[cfg(feature = "controller")]
layout!(Asked 32: outcome 0 16, position 16 1, made 20 4, ahead 24 4);
#[cfg(feature = "controller")]
layout!(Chain 64: outcome 0 16, length 16 8, cart 24 16, zone 40 16, out 56 1);
#[cfg(feature = "controller")]
layout!(NetRun 48: outcome 0 16, length 16 8, locked 24 1, position 25 16);
