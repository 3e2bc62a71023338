//! The reservation book as a careful Rust programmer would write it by hand: one walk over the lent records, over the plain readers of ordinary
//! cells.

use super::plane::{self, read};
use super::{refuse, space, Refusal};
use hailgully_raw::HgReservation;

const MOST: usize = 256;
const TURN: u32 = 2_654_208_000;

/// The n whole numbers from a on and the m from b on have one in common.
#[inline(always)]
fn runs_meet(a: i32, n: u32, b: i32, m: u32) -> bool {
    let (a, b) = (a as i64, b as i64);
    a.max(b) < (a + n as i64).min(b + m as i64)
}

/// A longitude's remainder by a full turn.
#[inline(always)]
fn eastward(z: i32) -> u32 {
    if z < 0 {
        (z as u32).wrapping_add(TURN)
    } else {
        z as u32
    }
}

/// The same of longitudes, where a full turn apart is the same: one of the two begins within the other.
#[inline(always)]
fn arcs_meet(a: i32, n: u32, b: i32, m: u32) -> bool {
    let (a, b) = (eastward(a), eastward(b));
    let east = if a <= b { b - a } else { TURN - (a - b) };
    n > 0 && m > 0 && (east < n || TURN - east < m)
}

#[inline(always)]
fn conflict(a: &HgReservation, b: &HgReservation) -> bool {
    a.start.max(b.start) < a.end.min(b.end)
        && runs_meet(a.south, a.height, b.south, b.height)
        && runs_meet(a.floor, a.thickness, b.floor, b.thickness)
        && arcs_meet(a.west, a.width, b.west, b.width)
}

#[inline(always)]
fn add(asked: HgReservation, book: &mut [HgReservation]) -> Result<usize, Refusal> {
    if asked.start >= asked.end {
        return refuse(14);
    }
    let none = book.len();
    let (mut free, mut clash) = (none, none);
    for (place, record) in book.iter().enumerate() {
        if record.live == 0 {
            free = free.min(place);
        } else if record.flight == asked.flight {
            return refuse(15);
        } else if clash == none && conflict(&asked, record) {
            clash = place;
        }
    }
    if clash < none {
        return Err(Refusal::new(16, clash as u64));
    }
    if free == none {
        return refuse(17);
    }
    book[free] = asked;
    Ok(free)
}

/// What is asked for, as a record.
#[inline(always)]
fn record(cell: space::Cell, flight: u32, start: u32, end: u32) -> HgReservation {
    let space::Cell { plane: plane::Cell { level, west, south, width, height }, floor, thickness } = cell;
    HgReservation { live: 1, flight, level, west, south, width, height, floor, thickness, start, end }
}

/// By plane code, over so many layers from a floor on.
#[inline(always)]
fn add_over(
    (floor, thickness): (i32, u32),
    code: &[u8],
    flight: u32,
    start: u32,
    end: u32,
    book: &mut [HgReservation],
) -> Result<usize, Refusal> {
    if book.len() > MOST {
        return refuse(19);
    }
    let plane = read(code)?;
    add(record(space::Cell { plane, floor, thickness }, flight, start, end), book)
}

#[inline(never)]
pub fn add_plane(code: &[u8], flight: u32, start: u32, end: u32, book: &mut [HgReservation]) -> Result<usize, Refusal> {
    add_over((-1_887_436_800, 3_774_873_600), code, flight, start, end, book)
}

#[inline(never)]
pub fn add_ground(code: &[u8], flight: u32, start: u32, end: u32, book: &mut [HgReservation]) -> Result<usize, Refusal> {
    add_over((0, 1_887_436_800), code, flight, start, end, book)
}

#[inline(never)]
pub fn add_space(code: &[u8], flight: u32, start: u32, end: u32, book: &mut [HgReservation]) -> Result<usize, Refusal> {
    if book.len() > MOST {
        return refuse(19);
    }
    add(record(space::read(1, code)?, flight, start, end), book)
}

#[inline(never)]
pub fn release(flight: u32, book: &mut [HgReservation]) -> Result<usize, Refusal> {
    if book.len() > MOST {
        return refuse(19);
    }
    let Some(place) = book.iter().position(|r| r.live != 0 && r.flight == flight) else {
        return refuse(18);
    };
    book[place].live = 0;
    Ok(place)
}
