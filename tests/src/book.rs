//! The reservation book (Wishes 3 and 7 of document 02). What a record names is
//! kept as half-open ranges of whole numbers, its longitudes as at most two of
//! them within one turn, and records conflict when ranges meet on every side;
//! `plain` has the same by other means. Of a call all refusals that apply are
//! gathered first, each for itself, and the order then picks one.

mod kinds;
pub mod plain;
mod record;

#[cfg(test)]
mod worked;

pub use kinds::Kind;
pub use record::Reservation;

use crate::plane::{SOUTH, TURN};
use crate::refusals::{first, refusal, Named, Refusal};
use crate::slips;
use crate::space::SpaceCell;
use std::ops::Range;

/// "A slice of records that the scheduler lends, at most 256."
pub const MOST: usize = 256;
/// "19, book too long, before all others; for adding, then 6, 7; 14 ..; 15 ..;
/// 16 ..; 17 ... For release: 18". 20 stands "at 7's old place in every order":
/// of one code only one of the two applies.
const ADDING: &[Named] = &[(19, 1), (6, 1), (7, 1), (20, 1), (14, 1), (15, 1), (16, 1), (17, 1)];
const RELEASING: &[Named] = &[(19, 1), (18, 1)];

/// What an adding call is asked.
#[derive(Clone, Copy, Debug)]
pub struct Request<'a> {
    pub kind: Kind,
    pub code: &'a [u8],
    pub flight: u32,
    pub start: u32,
    pub end: u32,
}

/// The place of the record used, or the refusal that is given; and every
/// refusal that applies, also those that it hides.
pub type Answer = (Result<usize, Refusal>, Vec<Refusal>);

/// A size as the numbers that it names.
fn size(number: u32) -> i64 {
    match slips::current() {
        slips::SIZE_0_NAMES_ONE => i64::from(number).max(1),
        _ => i64::from(number),
    }
}

/// So many whole numbers from the first.
fn range(first: i32, count: u32) -> Range<i64> {
    let end = match slips::current() {
        slips::SUMS_WRAP => i64::from(first.wrapping_add(count as i32)),
        _ => i64::from(first) + size(count),
    };
    i64::from(first)..end
}

/// "Longitudes a full turn apart being the same": those of an arc, as parts of
/// one turn from 0.
pub fn pieces(west: i64, width: i64, turn: i64) -> [Range<i64>; 2] {
    let width = if slips::on(slips::WIDTH_WITHIN_TURN) { width % turn } else { width };
    if slips::on(slips::NO_TURN) {
        return [west..west + width, 0..0];
    }
    if width >= turn {
        return [0..turn, 0..0];
    }
    let east = match slips::current() {
        slips::EAST_WRAPS => i64::from((west + width) as i32),
        _ => west + width,
    };
    let start = west.rem_euclid(turn);
    let end = start + (east - west);
    if end <= turn {
        [start..end, 0..0]
    } else {
        [start..turn, 0..end - turn]
    }
}

/// Whether a number is in both; with the slip, touching is enough.
fn meet(one: &Range<i64>, other: &Range<i64>, touching: u32) -> bool {
    let (start, end) = (one.start.max(other.start), one.end.min(other.end));
    start < end || (start == end && slips::on(touching) && !one.is_empty() && !other.is_empty())
}

/// The same of two lists of pieces of a turn.
pub fn pieces_meet(one: &[Range<i64>; 2], other: &[Range<i64>; 2]) -> bool {
    one.iter().any(|piece| other.iter().any(|with| meet(piece, with, slips::TOUCHING_LONGITUDES)))
}

impl Reservation {
    pub fn is_live(&self) -> bool {
        match slips::current() {
            slips::ONLY_1_IS_LIVE => self.live == 1,
            _ => self.live != 0,
        }
    }

    fn is_live_with(&self, flight: u32) -> bool {
        (self.is_live() || slips::on(slips::DEAD_FLIGHTS_COUNT)) && self.flight == flight
    }

    fn longitudes(&self) -> [Range<i64>; 2] {
        pieces(i64::from(self.cell.plane.west), size(self.cell.plane.width), TURN)
    }

    fn latitudes(&self) -> Range<i64> {
        let latitudes = range(self.cell.plane.south, self.cell.plane.height);
        match slips::current() {
            slips::CLIPPED_TO_POLES => latitudes.start.clamp(SOUTH.0, SOUTH.1)..(latitudes.end - 1).clamp(SOUTH.0, SOUTH.1) + 1,
            _ => latitudes,
        }
    }

    fn layers(&self) -> Range<i64> {
        let SpaceCell { floor, thickness, .. } = self.cell;
        match slips::current() {
            slips::SIGNED_THICKNESS => i64::from(floor)..i64::from(floor) + i64::from(thickness as i32),
            _ => range(floor, thickness),
        }
    }

    fn minutes(&self) -> Range<i64> {
        match slips::current() {
            slips::SIGNED_MINUTES => i64::from(self.start as i32)..i64::from(self.end as i32),
            slips::MINUTES_TURNED if self.end < self.start => i64::from(self.end)..i64::from(self.start),
            _ => i64::from(self.start)..i64::from(self.end),
        }
    }

    /// "Two reservations conflict when they share a unit cube and a minute. A
    /// record's cubes are those its numbers name as whole numbers."
    pub fn conflicts(&self, other: &Reservation) -> bool {
        let other_level = slips::on(slips::LEVELS_PART) && self.cell.plane.level != other.cell.plane.level;
        meet(&self.minutes(), &other.minutes(), slips::TOUCHING_MINUTES)
            && meet(&self.layers(), &other.layers(), slips::TOUCHING_LAYERS)
            && meet(&self.latitudes(), &other.latitudes(), slips::TOUCHING_LATITUDES)
            && pieces_meet(&self.longitudes(), &other.longitudes())
            && !other_level
    }

    /// "Records already live are taken as they stand."
    fn as_it_stands(&self) -> Reservation {
        let layers = (self.cell.floor, self.cell.thickness);
        let taken = match slips::current() {
            slips::OLD_COLUMNS_GROW if Kind::Ground.column() == Some(layers) => Kind::Plane.column(),
            slips::COLUMNS_SHRINK if Kind::Plane.column() == Some(layers) => Kind::Ground.column(),
            _ => None,
        };
        let (floor, thickness) = taken.unwrap_or(layers);
        Reservation { cell: SpaceCell { floor, thickness, ..self.cell }, ..*self }
    }
}

/// "16, conflict, with the first conflicting record's place."
fn conflict(record: &Reservation, book: &[Reservation]) -> Option<Refusal> {
    let live = |other: &Reservation| other.is_live() || slips::on(slips::DEAD_RECORDS_CONFLICT);
    let conflicting = |other: &Reservation| live(other) && record.conflicts(&other.as_it_stands());
    let place = match slips::current() {
        slips::LAST_CONFLICT => book.iter().rposition(conflicting)?,
        slips::PLACE_AMONG_LIVE => book.iter().filter(|other| live(other)).position(conflicting)?,
        _ => book.iter().position(conflicting)?,
    };
    Some(Refusal { number: 16, ordinal: 1, place: place as u64 })
}

/// "19, book too long."
fn too_long(book: &[Reservation]) -> Option<Refusal> {
    let most = match slips::current() {
        slips::ONE_RECORD_MORE => MOST + 1,
        slips::ONE_RECORD_LESS => MOST - 1,
        _ => MOST,
    };
    (book.len() > most).then_some(refusal(19))
}

impl Request<'_> {
    pub fn new(kind: Kind, code: &[u8], flight: u32, (start, end): (u32, u32)) -> Request<'_> {
        Request { kind, code, flight, start, end }
    }

    /// All that apply, in no order: a code that cannot be read, or no minute,
    /// leaves nothing that could conflict.
    fn refusals(&self, cell: Result<SpaceCell, Refusal>, book: &[Reservation]) -> Vec<Refusal> {
        let mut list = Vec::new();
        list.extend(too_long(book));
        list.extend(cell.err());
        if cell.is_err_and(|given| given.number == 6) {
            list.extend(self.kind.bad(self.code));
        }
        if self.start >= self.end {
            list.push(refusal(14));
        }
        if book.iter().any(|record| record.is_live_with(self.flight)) {
            list.push(refusal(15));
        }
        list.extend(cell.ok().and_then(|cell| conflict(&self.tried(cell), book)));
        if book.iter().all(Reservation::is_live) {
            list.push(refusal(17));
        }
        list
    }

    fn record(&self, cell: SpaceCell) -> Reservation {
        Reservation { live: 1, flight: self.flight, cell, start: self.start, end: self.end }
    }

    /// The record as it is held against the book.
    fn tried(&self, cell: SpaceCell) -> Reservation {
        let mut record = self.record(cell);
        let (floor, thickness) = (&mut record.cell.floor, &mut record.cell.thickness);
        match (self.kind, slips::current()) {
            (Kind::Plane, slips::TRIED_WITHOUT_HIGHEST) => *thickness -= 1,
            (Kind::Plane, slips::TRIED_WITHOUT_LOWEST) => (*floor, *thickness) = (*floor + 1, *thickness - 1),
            (Kind::Plane, slips::TRIED_FROM_GROUND) => (*floor, *thickness) = Kind::Ground.column().expect("a plane code has a column"),
            _ => {}
        }
        record
    }

    /// "Adding uses the first record not live."
    pub fn add(&self, book: &mut [Reservation]) -> Answer {
        let cell = self.kind.cell(self.code);
        let applying = self.refusals(cell, book);
        let dead = |record: &Reservation| !record.is_live();
        let free = match slips::current() {
            slips::LAST_FREE => book.iter().rposition(dead),
            _ => book.iter().position(dead),
        };
        let given = first(&applying, adding());
        if let (Some(_), Some(at), true) = (given, free, slips::on(slips::REFUSED_BUT_WRITTEN)) {
            book[at].start = self.start;
        }
        let answer = match (given, cell, free) {
            (None, Ok(cell), Some(at)) => {
                book[at] = self.record(cell);
                Ok(at)
            }
            (given, ..) => Err(given.expect("a code that is not read gets 6, 7 or 20, a book with nothing free 17")),
        };
        (answer, applying)
    }
}

/// "Release turns off only the live mark of the first live record with that
/// flight number."
pub fn release(flight: u32, book: &mut [Reservation]) -> Answer {
    let of_flight = |record: &Reservation| record.is_live_with(flight);
    let found = match slips::current() {
        slips::LAST_RELEASED => book.iter().rposition(of_flight),
        _ => book.iter().position(of_flight),
    };
    let applying: Vec<Refusal> = too_long(book).into_iter().chain(found.is_none().then_some(refusal(18))).collect();
    let answer = match (first(&applying, RELEASING), found) {
        (None, Some(at)) => {
            book[at].live = 0;
            if slips::on(slips::FLIGHT_CLEARED) {
                book[at].flight = 0;
            }
            Ok(at)
        }
        (given, _) => Err(given.expect("what is not found gets 18")),
    };
    (answer, applying)
}

/// The order of the refusals of adding, or a slip's.
fn adding() -> &'static [Named] {
    match slips::current() {
        slips::CODE_BEFORE_BOOK => &[(6, 1), (7, 1), (20, 1), (19, 1), (14, 1), (15, 1), (16, 1), (17, 1)],
        slips::FLIGHT_BEFORE_MINUTES => &[(19, 1), (6, 1), (7, 1), (20, 1), (15, 1), (14, 1), (16, 1), (17, 1)],
        slips::CONFLICT_BEFORE_FLIGHT => &[(19, 1), (6, 1), (7, 1), (20, 1), (14, 1), (16, 1), (15, 1), (17, 1)],
        slips::FULL_BEFORE_CONFLICT => &[(19, 1), (6, 1), (7, 1), (20, 1), (14, 1), (15, 1), (17, 1), (16, 1)],
        slips::MISPLACED_AFTER_MINUTES => &[(19, 1), (6, 1), (7, 1), (14, 1), (20, 1), (15, 1), (16, 1), (17, 1)],
        _ => ADDING,
    }
}
