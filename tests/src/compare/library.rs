//! The library's calls on lent slices, under their names in C, made of the table of calls. Each parameter goes through the faults on its way, and what
//! was lent, and the answer, on their way back. In each the pointer and the length come from one slice, so the library gets memory that it may read,
//! or write, for the time of the call. Codes too are lent from slices that may be written: only so can be seen whether they were.

mod answers;
mod places;

pub use answers::{edges, record, Record};
pub use places::{place_find, place_part, short_read};

use crate::calls::Call;
use crate::faults::book::{adding, releasing};
use crate::faults::{came_back, Reaching};
use answers::Returned;
use hailgully_raw::*;
use hailgully_tests::book::{Kind, Request};

/// What a parameter is in Rust.
macro_rules! typed {
    (lent Records) => {
        &mut [HgReservation]
    };
    (lent $bytes:ident) => {
        &mut [u8]
    };
    (At) => {
        usize
    };
    (Unsigned) => {
        u32
    };
    (LongitudeReading) => {
        f64
    };
    (LatitudeReading) => {
        f64
    };
    ($signed:ident) => {
        i64
    };
}

/// Asks the library; the arguments are made one after the other, of what is lent a pointer and a length.
macro_rules! asked {
    ($call:ident $name:ident [$($ready:expr,)*]) => {
        unsafe { hailgully_raw::$name($($ready),*) }
    };
    ($call:ident $name:ident [$($ready:expr,)*] $part:ident: lent $what:ident, $($more:tt)*) => {
        asked!($call $name [$($ready,)* $part.as_mut_ptr(), $part.len().reaching(parameter!($call $part $what)),] $($more)*)
    };
    ($call:ident $name:ident [$($ready:expr,)*] $part:ident: $what:ident, $($more:tt)*) => {
        asked!($call $name [$($ready,)* $part.reaching(parameter!($call $part $what)),] $($more)*)
    };
}

/// What was lent comes back, with the ordinal of the refusal that the library gave.
macro_rules! back {
    ($call:ident $part:ident lent $what:ident, $got:ident, $ordinal:ident) => {
        came_back(parameter!($call $part $what), $part, $ordinal, $got.refusal());
    };
    ($call:ident $part:ident $what:ident, $got:ident, $ordinal:ident) => {};
}

macro_rules! functions {
    ($($call:ident: $name:ident($($part:ident: $($what:ident)+),*) -> $answer:ident { order: $order:expr, regions: $regions:ident, })*) => {
        $(pub fn $name($($part: typed!($($what)+)),*) -> $answer {
            let mut got: $answer = asked!($call $name [] $($part: $($what)+,)*);
            let _ordinal = got.refusal().ordinal;
            $(back!($call $part $($what)+, got, _ordinal);)*
            got
        })*
    };
}

each_call!(functions);

type Add = fn(&mut [u8], u32, u32, u32, &mut [HgReservation]) -> HgBooked;

/// The call that adds by this kind of code.
pub fn adder(kind: Kind) -> (Call, Add) {
    match kind {
        Kind::Plane => (Call::BookAddPlane, hg_book_add_plane),
        Kind::Ground => (Call::BookAddGround, hg_book_add_ground),
        Kind::Space => (Call::BookAddSpace, hg_book_add_space),
    }
}

/// Adds by the code that is lent, which is the request's.
pub fn book_add(request: &Request, code: &mut [u8], book: &mut [HgReservation]) -> HgBooked {
    let (_, add) = adder(request.kind);
    adding(request, book, |flight, end, book| add(code, flight, request.start, end, book))
}

pub fn book_release(flight: u32, book: &mut [HgReservation]) -> HgBooked {
    releasing(flight, book, |book| hg_book_release(flight, book))
}
