//! Faults of a library that keeps the book otherwise.

use super::{fault, Fault};
use hailgully_raw::{HgBooked, HgReservation};
use hailgully_tests::book::{Request, MOST};
use hailgully_tests::slips;

listed! {
    END_INCLUDED: "takes the end minute as included",
    FLIGHT_OF_16_BITS: "compares 16 bits of the flight numbers",
    AT_FROM_1: "counts the place of the record used from 1",
    AT_IN_REFUSAL: "answers a record's place with refusal 16",
    NO_PLACE: "gives no place with refusal 16",
    PLACE_OF_15: "gives a place with refusal 15",
    ORDINAL_2: "gives ordinal 2 in refusals of the book",
    STOPS_AT_FREE: "looks no further than the first record not live",
    FIRST_256: "takes the first 256 records of a longer book",
    NO_RECORDS: "gives no refusal for a book of no records",
    MARK_2: "marks what it adds with 2",
    NO_LEVEL: "leaves the level out of what it adds",
    KEEPS_FLIGHT: "leaves the flight number of the record that it uses",
    KEEPS_FLOOR: "leaves the layer floor of the record that it uses",
    WRITES_FIRST: "writes into the free record before it refuses",
    MARKS_MADE_1: "makes every live mark 1",
    OLD_REWRITTEN: "makes live records of the old column whole ones",
    DEAD_CLEARED: "clears the records that are not live",
    RELEASED_CLEARED: "clears a released record",
    ALL_RELEASED: "releases every record of the flight",
    COUNTED_DOWN: "counts a live mark down in releasing",
}

/// The fault of the book that is on. Books with records that nobody may touch have none.
#[inline(always)]
fn current(book: &[HgReservation]) -> Option<&'static str> {
    match fault(slips::current()) {
        Some(Fault::Book(does)) if book.len() < 1 << 20 => Some(does),
        _ => None,
    }
}

/// The records that reach the library.
fn seen<'a>(does: &str, book: &'a mut [HgReservation]) -> &'a mut [HgReservation] {
    let length = match does {
        STOPS_AT_FREE => book.iter().position(|record| record.live == 0).map_or(book.len(), |free| free + 1),
        FIRST_256 => book.len().min(MOST),
        _ => book.len(),
    };
    &mut book[..length]
}

/// The book as it was; what is done to it before every call.
fn begun(does: &str, book: &mut [HgReservation]) -> Vec<HgReservation> {
    let before = book.to_vec();
    if does == OLD_REWRITTEN {
        let old = |record: &&mut HgReservation| record.live != 0 && (record.floor, record.thickness) == (0, 1_887_436_800);
        book.iter_mut().filter(old).for_each(|record| (record.floor, record.thickness) = (-1_887_436_800, 3_774_873_600));
    }
    before
}

/// What is done to the book, and to the answer, in every call.
fn always(does: &str, book: &mut [HgReservation], mut got: HgBooked) -> HgBooked {
    match does {
        AT_FROM_1 if got.refusal.number == 0 => got.at += 1,
        AT_IN_REFUSAL if got.refusal.number == 16 => got.at = got.refusal.place,
        NO_PLACE if got.refusal.number == 16 => got.refusal.place = 0,
        ORDINAL_2 if got.refusal.number > 13 => got.refusal.ordinal = 2,
        NO_RECORDS if book.is_empty() => got = HgBooked::default(),
        MARKS_MADE_1 => book.iter_mut().for_each(|record| record.live = record.live.min(1)),
        DEAD_CLEARED => book.iter_mut().filter(|record| record.live == 0).for_each(|record| *record = HgReservation::default()),
        _ => {}
    }
    got
}

/// An adding call as a library with the fault would do it; `call` takes flight, end and the book.
#[inline(always)]
pub fn adding(request: &Request, book: &mut [HgReservation], call: impl FnOnce(u32, u32, &mut [HgReservation]) -> HgBooked) -> HgBooked {
    let (flight, end) = (request.flight, request.end);
    let Some(does) = current(book) else { return call(flight, end, book) };
    let before = begun(does, book);
    if does == FLIGHT_OF_16_BITS {
        book.iter_mut().for_each(|record| record.flight &= 0xffff);
    }
    let mut got = match does {
        FLIGHT_OF_16_BITS => call(flight & 0xffff, end, book),
        END_INCLUDED => call(flight, end.saturating_add(1), book),
        _ => call(flight, end, seen(does, book)),
    };
    if does == FLIGHT_OF_16_BITS {
        book.iter_mut().zip(&before).for_each(|(record, before)| record.flight = before.flight);
    }
    let free = before.iter().position(|record| record.live == 0);
    match (got.refusal.number, free) {
        (0, Some(at)) => {
            let record = &mut book[at];
            match does {
                FLIGHT_OF_16_BITS => record.flight = flight,
                END_INCLUDED => record.end = end,
                MARK_2 => record.live = 2,
                NO_LEVEL => record.level = 0,
                KEEPS_FLIGHT => record.flight = before[at].flight,
                KEEPS_FLOOR => record.floor = before[at].floor,
                _ => {}
            }
        }
        (15, _) if does == PLACE_OF_15 => {
            let live = |record: &HgReservation| record.live != 0 && record.flight == flight;
            got.refusal.place = before.iter().position(live).map_or(0, |at| at as u64);
        }
        (_, Some(at)) if does == WRITES_FIRST => book[at].start = request.start,
        _ => {}
    }
    always(does, book, got)
}

/// The same of a releasing call.
#[inline(always)]
pub fn releasing(flight: u32, book: &mut [HgReservation], call: impl FnOnce(&mut [HgReservation]) -> HgBooked) -> HgBooked {
    let Some(does) = current(book) else { return call(book) };
    let before = begun(does, book);
    let got = call(seen(does, book));
    if got.refusal.number == 0 {
        let at = got.at as usize;
        match does {
            RELEASED_CLEARED => book[at] = HgReservation::default(),
            ALL_RELEASED => book.iter_mut().filter(|record| record.flight == flight).for_each(|record| record.live = 0),
            COUNTED_DOWN => book[at].live = before[at].live - 1,
            _ => {}
        }
    }
    always(does, book, got)
}
