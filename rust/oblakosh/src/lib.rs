//! Who goes through the crossing first: the proved operations of Oblakosh, safe to call.
//!
//! Each operation takes every input and ends; it answers, or refuses with the number and place of the first check of
//! document 01 that fails, and then lent memory is unchanged. What C's boundary assumes, Rust's types see to: a slice is
//! memory of its length, a `&mut` overlaps nothing else, and nothing is kept after the call.
//!
//! ```
//! let mut words = [0; oblakosh::WORDS];
//! match oblakosh::judge(b"\x01\x00\x09\x01\x00\x00\x00\x00\x00", b"\x01\x00\x05\x01\x00", &mut words) {
//!     Ok(judged) => assert_eq!((judged.moves, judged.finish), (0, 0)),
//!     Err(refused) => println!("{}", refused),
//! }
//! ```
#![deny(missing_docs)]

mod linked;

use linked::Outcome;
use std::error::Error;
use std::fmt;

/// The most zones.
pub const ZONES: usize = 24;
/// The most carts.
pub const CARTS: usize = 16;
/// The most steps of one cart.
pub const STEPS: usize = 8;
/// The words that judging writes.
pub const WORDS: usize = 128;
/// Bytes of the longest net as text.
#[cfg(feature = "controller")]
pub const NET: usize = 80_891;

/// A crossing sheet. Carts, zones and steps count from 0, times are milliseconds, unused entries are 0.
#[repr(C)]
#[derive(Clone, Copy, Debug, PartialEq, Eq)]
pub struct Sheet {
    /// How many zones there are.
    pub zones: usize,
    /// The gap in a zone behind a cart of the same lane.
    pub follow: [u16; ZONES],
    /// The gap in a zone behind a cart of another lane.
    pub cross: [u16; ZONES],
    /// How many carts there are.
    pub carts: usize,
    /// Each cart's lane.
    pub lane: [u8; CARTS],
    /// Each cart's arrival.
    pub arrival: [u32; CARTS],
    /// How many zones each cart's route has.
    pub steps: [u8; CARTS],
    /// The zone of each cart's each step.
    pub zone: [[u8; STEPS]; CARTS],
    /// The passing time there.
    pub passing: [[u16; STEPS]; CARTS],
    /// The travel time from there to the next step.
    pub travel: [[u16; STEPS]; CARTS],
}

/// The orders of a plan.
#[repr(C)]
#[derive(Clone, Copy, Debug, PartialEq, Eq)]
pub struct Orders {
    /// How many carts each zone's list has.
    pub count: [u8; ZONES],
    /// Each zone's list, first through first.
    pub list: [[u8; CARTS]; ZONES],
    /// The carts ahead of each cart in each step's zone: bit d for cart d.
    pub ahead: [[u16; STEPS]; CARTS],
}

/// The ring of a locked plan.
#[repr(C)]
#[derive(Clone, Copy, Debug, PartialEq, Eq)]
pub struct Ring {
    length: usize,
    cart: [u8; CARTS],
    zone: [u8; CARTS],
}

impl Ring {
    /// The ring's carts, begun at the lowest: each waits for the next, the last for the first. A cart on the lane waits for
    /// the one in front while that has not moved, otherwise each for the first of its zone's list that has not left it.
    pub fn carts(&self) -> &[u8] {
        &self.cart[..self.length]
    }

    /// The zone that each of them wants.
    pub fn zones(&self) -> &[u8] {
        &self.zone[..self.length]
    }
}

/// A number of document 01's table, the place, and inside a cart's part of the sheet the cart.
#[derive(Clone, Copy, Debug, PartialEq, Eq)]
pub struct Refusal {
    /// 1 to 28.
    pub number: u32,
    /// From 1 to 14 and inside a cart's part of the sheet, a cut there too, the cart's number plus one; else 0.
    pub cart: u8,
    /// Inside a step of that cart, the step's number plus one; else 0.
    pub step: u8,
    /// The byte that the table tells, counted in the sheet for 1 to 14 and in the plan for 15 to 21, else 0.
    pub place: usize,
}

impl Refusal {
    /// A refusal that has no place: 0, and no cart.
    fn at_0(number: u32) -> Refusal {
        Refusal {
            number,
            cart: 0,
            step: 0,
            place: 0,
        }
    }
}

impl fmt::Display for Refusal {
    fn fmt(&self, f: &mut fmt::Formatter<'_>) -> fmt::Result {
        write!(f, "refused {} at {}", self.number, self.place)?;
        match self.cart {
            0 => Ok(()),
            cart => write!(f, " cart {} step {}", cart, self.step),
        }
    }
}

impl Error for Refusal {}

/// An accepted plan.
#[derive(Clone, Copy, Debug, PartialEq, Eq)]
pub struct Judged {
    /// The largest leaving time.
    pub finish: u32,
    /// All steps plus all carts.
    pub moves: u32,
}

/// Why a plan is not accepted.
#[derive(Clone, Copy, Debug, PartialEq, Eq)]
pub enum NotJudged {
    /// The plan is locked, 22 at 0: these carts wait for each other.
    Locked(Ring),
    /// Another check fails.
    Refused(Refusal),
}

impl fmt::Display for NotJudged {
    fn fmt(&self, f: &mut fmt::Formatter<'_>) -> fmt::Result {
        match self {
            NotJudged::Locked(_) => Refusal::at_0(LOCKED).fmt(f),
            NotJudged::Refused(refusal) => refusal.fmt(f),
        }
    }
}

impl Error for NotJudged {}

const LOCKED: u32 = 22;
#[cfg(feature = "controller")]
const HELD: u32 = 26;

/// The crossing record. The default, all zero, is the start.
#[cfg(feature = "controller")]
#[repr(C)]
#[derive(Clone, Copy, Debug, Default, PartialEq, Eq)]
pub struct Record {
    /// Where each cart stands: 0 on the lane, k in the k-th zone of its route, steps + 1 out; absent carts 0.
    pub position: [u8; CARTS],
    /// The number of moves made.
    pub made: u32,
}

/// A permitted move.
#[cfg(feature = "controller")]
#[derive(Clone, Copy, Debug, PartialEq, Eq)]
pub struct Moved {
    /// The cart's new position.
    pub position: u8,
    /// The new number of moves made.
    pub made: u32,
}

/// Why a cart may not move.
#[cfg(feature = "controller")]
#[derive(Clone, Copy, Debug, PartialEq, Eq)]
pub enum NotMoved {
    /// The cart is held, 26 at 0: so many carts ahead have not left the zone that it wants, and one more if it is to leave
    /// the lane and the cart in front has not.
    Held(u32),
    /// Another check fails.
    Refused(Refusal),
}

#[cfg(feature = "controller")]
impl fmt::Display for NotMoved {
    fn fmt(&self, f: &mut fmt::Formatter<'_>) -> fmt::Result {
        match self {
            NotMoved::Held(_) => Refusal::at_0(HELD).fmt(f),
            NotMoved::Refused(refusal) => refusal.fmt(f),
        }
    }
}

#[cfg(feature = "controller")]
impl Error for NotMoved {}

/// The answer, where the outcome is done.
fn answered<T>(outcome: Outcome, answer: T) -> Result<T, Refusal> {
    match outcome {
        Outcome { number: 0, .. } => Ok(answer),
        Outcome {
            number,
            cart,
            step,
            place,
        } => Err(Refusal {
            number,
            cart,
            step,
            place,
        }),
    }
}

/// The sheet that the bytes say, or 1 to 14.
pub fn read_sheet(sheet: &[u8]) -> Result<Sheet, Refusal> {
    // SAFETY: a slice is memory of its length that may be read, and nothing is written.
    let read = unsafe { linked::oblakosh_read_sheet(sheet.as_ptr(), sheet.len()) };
    answered(read.outcome, read.sheet)
}

/// The sheet, and the plan's orders for it, or 1 to 21.
pub fn read_plan(sheet: &[u8], plan: &[u8]) -> Result<(Sheet, Orders), Refusal> {
    // SAFETY: a slice is memory of its length that may be read, and nothing is written.
    let read = unsafe {
        linked::oblakosh_read_plan(sheet.as_ptr(), sheet.len(), plan.as_ptr(), plan.len())
    };
    answered(read.outcome, (read.sheet, read.orders))
}

/// The verdict, or 1 to 22, or 28 if fewer than [`WORDS`] words are lent. Of an accepted plan, word 8 × cart + step then
/// holds the entering time, unused words of the first 128 are 0, and words beyond are untouched.
pub fn judge(sheet: &[u8], plan: &[u8], words: &mut [u32]) -> Result<Judged, NotJudged> {
    // SAFETY: a slice is memory of its length that may be read; `words` may be written too, and overlaps nothing else.
    let judged = unsafe {
        linked::oblakosh_judge(
            sheet.as_ptr(),
            sheet.len(),
            plan.as_ptr(),
            plan.len(),
            words.as_mut_ptr(),
            words.len(),
        )
    };
    let accepted = Judged {
        finish: judged.finish,
        moves: judged.moves,
    };
    match answered(judged.outcome, accepted) {
        Err(Refusal { number: LOCKED, .. }) => Err(NotJudged::Locked(judged.ring)),
        answer => answer.map_err(NotJudged::Refused),
    }
}

/// Writes the plan at the start of the room, the same bytes, and tells its length; or 1 to 21, or 28 if the room is
/// shorter than the plan. Bytes beyond the plan are untouched.
#[cfg(feature = "controller")]
pub fn write_again(sheet: &[u8], plan: &[u8], room: &mut [u8]) -> Result<usize, Refusal> {
    // SAFETY: a slice is memory of its length that may be read; `room` may be written too, and overlaps nothing else.
    let wrote = unsafe {
        linked::oblakosh_write_again(
            sheet.as_ptr(),
            sheet.len(),
            plan.as_ptr(),
            plan.len(),
            room.as_mut_ptr(),
            room.len(),
        )
    };
    answered(wrote.outcome, wrote.length)
}

/// A sheet's plan: its length, and its finish as judging it gives.
#[cfg(feature = "controller")]
#[derive(Clone, Copy, Debug, PartialEq, Eq)]
pub struct Planned {
    /// Bytes of the plan, at the start of the room.
    pub length: usize,
    /// The largest leaving time.
    pub finish: u32,
}

/// Writes the sheet's plan at the start of the room, the one document 01's removal rule gives, which is never locked; or 1
/// to 14, or 28 if the room is shorter than the plan. Bytes beyond the plan are untouched.
#[cfg(feature = "controller")]
pub fn plan(sheet: &[u8], room: &mut [u8]) -> Result<Planned, Refusal> {
    planned_by(linked::oblakosh_plan, sheet, room)
}

/// The same by the plain rule: every shared zone goes by arrival, then cart number. Such a plan is never locked.
#[cfg(feature = "controller")]
pub fn plan_first(sheet: &[u8], room: &mut [u8]) -> Result<Planned, Refusal> {
    planned_by(linked::oblakosh_plan_first, sheet, room)
}

/// The one of these two plans that finishes earlier, the removal rule's if both finish at once.
#[cfg(feature = "controller")]
pub fn plan_better(sheet: &[u8], room: &mut [u8]) -> Result<Planned, Refusal> {
    planned_by(linked::oblakosh_plan_better, sheet, room)
}

#[cfg(feature = "controller")]
type Planner = unsafe extern "C" fn(*const u8, usize, *mut u8, usize) -> linked::Planned;

#[cfg(feature = "controller")]
fn planned_by(planner: Planner, sheet: &[u8], room: &mut [u8]) -> Result<Planned, Refusal> {
    // SAFETY: a slice is memory of its length that may be read; `room` may be written too, and overlaps nothing else.
    let planned = unsafe { planner(sheet.as_ptr(), sheet.len(), room.as_mut_ptr(), room.len()) };
    let made = Planned {
        length: planned.length,
        finish: planned.finish,
    };
    answered(planned.outcome, made)
}

/// The zone's passing list, first through first, as the very part of the plan lent; or 1 to 21, or 27.
#[cfg(feature = "controller")]
pub fn passing_list<'p>(sheet: &[u8], plan: &'p [u8], zone: usize) -> Result<&'p [u8], Refusal> {
    // SAFETY: a slice is memory of its length that may be read, and nothing is written.
    let found = unsafe {
        linked::oblakosh_find_list(sheet.as_ptr(), sheet.len(), plan.as_ptr(), plan.len(), zone)
    };
    answered(found.outcome, &plan[found.start..][..found.length])
}

#[cfg(feature = "controller")]
fn moved(asked: linked::Asked) -> Result<Moved, NotMoved> {
    let permitted = Moved {
        position: asked.position,
        made: asked.made,
    };
    match answered(asked.outcome, permitted) {
        Err(Refusal { number: HELD, .. }) => Err(NotMoved::Held(asked.ahead)),
        answer => answer.map_err(NotMoved::Refused),
    }
}

/// What [`move_cart`] would answer, with the record left as it is.
#[cfg(feature = "controller")]
pub fn ask(sheet: &[u8], plan: &[u8], record: Record, cart: usize) -> Result<Moved, NotMoved> {
    // SAFETY: a slice is memory of its length that may be read; the record goes by value, and nothing is written.
    moved(unsafe {
        linked::oblakosh_ask(
            sheet.as_ptr(),
            sheet.len(),
            plan.as_ptr(),
            plan.len(),
            record,
            cart,
        )
    })
}

/// To be called before a cart rolls. If its next move is permitted, the cart's new position and the new number of moves,
/// both stored in the record; or 1 to 26, and the record is unchanged. A lane is left in the order of its carts' numbers.
#[cfg(feature = "controller")]
pub fn move_cart(
    sheet: &[u8],
    plan: &[u8],
    record: &mut Record,
    cart: usize,
) -> Result<Moved, NotMoved> {
    // SAFETY: a slice is memory of its length that may be read; `record` is one record that may be written, and overlaps nothing else.
    moved(unsafe {
        linked::oblakosh_move_cart(
            sheet.as_ptr(),
            sheet.len(),
            plan.as_ptr(),
            plan.len(),
            record,
            cart,
        )
    })
}

/// Why a cart does not move: the carts from it down to one that may move now.
#[cfg(feature = "controller")]
#[derive(Clone, Copy, Debug, PartialEq, Eq)]
pub struct Chain {
    length: usize,
    cart: [u8; CARTS],
    zone: [u8; CARTS],
    out: bool,
}

#[cfg(feature = "controller")]
impl Chain {
    /// The chain's carts, begun at the one asked about: each is held by the next, and the last may move. A cart on the lane is
    /// held by the one in front while that has not moved, otherwise each by the first of its zone's list that has not left it.
    /// No cart stands in it twice.
    pub fn carts(&self) -> &[u8] {
        &self.cart[..self.length]
    }

    /// The zone that each of them wants; of the last one there is none if it is to move out.
    pub fn zones(&self) -> &[u8] {
        &self.zone[..self.length - usize::from(self.out)]
    }

    /// Whether the last one's move is the move out.
    pub fn moves_out(&self) -> bool {
        self.out
    }
}

/// The chain from the cart down to one that may move now, of one cart if it may itself; or 1 to 25, as [`move_cart`] refuses.
/// Refusal 26 is never given.
#[cfg(feature = "controller")]
pub fn why(sheet: &[u8], plan: &[u8], record: Record, cart: usize) -> Result<Chain, Refusal> {
    // SAFETY: a slice is memory of its length that may be read; the record goes by value, and nothing is written.
    let told = unsafe {
        linked::oblakosh_why(
            sheet.as_ptr(),
            sheet.len(),
            plan.as_ptr(),
            plan.len(),
            record,
            cart,
        )
    };
    let chain = Chain {
        length: told.length,
        cart: told.cart,
        zone: told.zone,
        out: told.out == 1,
    };
    answered(told.outcome, chain)
}

/// A plan's Petri net, written, and fired until no transition can fire.
#[cfg(feature = "controller")]
#[derive(Clone, Copy, Debug, PartialEq, Eq)]
pub struct Net {
    /// Bytes of the text, at the start of the room.
    pub length: usize,
    /// Whether some cart's out place then has no token: the verdict of [`judge`] is 22.
    pub locked: bool,
    /// Of each cart the position whose place then has its token, as in a [`Record`]; absent carts 0.
    pub position: [u8; CARTS],
}

/// Writes the plan's Petri net as text at the start of the room, a place, transition or arc a line (docs/NET.md), and tells how it
/// ends, a locked plan too; or 1 to 21, or 28 if the room is shorter than the text. [`NET`] bytes are always enough. Bytes beyond the
/// text are untouched.
#[cfg(feature = "controller")]
pub fn net(sheet: &[u8], plan: &[u8], room: &mut [u8]) -> Result<Net, Refusal> {
    // SAFETY: a slice is memory of its length that may be read; `room` may be written too, and overlaps nothing else.
    let run = unsafe {
        linked::oblakosh_net(
            sheet.as_ptr(),
            sheet.len(),
            plan.as_ptr(),
            plan.len(),
            room.as_mut_ptr(),
            room.len(),
        )
    };
    let net = Net {
        length: run.length,
        locked: run.locked == 1,
        position: run.position,
    };
    answered(run.outcome, net)
}
