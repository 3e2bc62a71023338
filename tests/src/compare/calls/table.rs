//! The table of the library's calls. An entry is all that the comparer knows of a call: its name here, its name and its parameters in C, its refusals
//! in the documents' order, and the regions of the grid in which it must be asked. `each_call` hands the table to a macro: calls.rs makes the enum of
//! it, library.rs the functions that ask the library.
//!
//! A parameter is its name and what it is (`What`); what is lent stands for a pointer and the length behind it.

use hailgully_tests::refusals::Named;

/// Refusals in their order. `5 without 1`: where 1 applies, 5 has no meaning. So a code without a level has no length that a line could lack, one
/// that cannot be read has no cell, a start not before the end no minute, and a name that is in no book no code; and 7 and 20 share one place of the
/// order, as a code's first bad character is either garbled or misplaced. A refusal of a second code or position is `of 2`.
macro_rules! order {
    ($($number:literal $(of $ordinal:literal)? $(without $($other:literal $(of $others:literal)?)+)?),*) => {
        &[$((named!($number $($ordinal)?), &[$($(named!($other $($others)?)),+)?])),*]
    };
}

macro_rules! named {
    ($number:literal) => {
        ($number, 1)
    };
    ($number:literal $ordinal:literal) => {
        ($number, $ordinal)
    };
}

/// Refusals by number and ordinal, each with those before it under which it has no meaning.
pub type Order = &'static [(Named, &'static [Named])];

pub const READING: Order = order![6, 7, 20 without 7];
pub const ADDING: Order = order![19, 6, 7, 20 without 7, 14, 15, 16 without 6 7 20 14, 17];

macro_rules! each_call {
    ($made:ident) => {
        $made! {
            PlaneWrite: hg_plane_write(level: Signed, longitude: Longitude, latitude: Latitude, line: lent Bytes, at: At) -> HgWritten {
                order: order![1, 2, 3, 5 without 1],
                regions: Every,
            }
            PlaneRead: hg_plane_read(code: lent Code) -> HgPlaneCell {
                order: READING,
                regions: Every,
            }
            SpaceWrite: hg_space_write(
                edition: Edition, level: Signed, longitude: Longitude, latitude: Latitude, layer: Signed, line: lent Bytes, at: At
            ) -> HgWritten {
                order: order![1, 13, 2, 3, 4, 5 without 1],
                regions: WithSigns,
            }
            SpaceRead: hg_space_read(edition: Edition, code: lent SpaceCode) -> HgSpaceCell {
                order: order![13, 6, 7, 20 without 7],
                regions: WithSigns,
            }
            ReferenceWrite: hg_reference_write(base: lent Code, target: lent SecondCode, line: lent Bytes, at: At) -> HgWritten {
                order: order![
                    6, 7, 20 without 7, 6 of 2, 7 of 2, 20 of 2 without 7 of 2, 8,
                    9 without 6 7 20 6 of 2 7 of 2 20 of 2, 10 without 6 7 20 6 of 2 7 of 2 20 of 2, 5 without 6
                ],
                regions: Ordinary,
            }
            ReferenceRead: hg_reference_read(code: lent Code, line: lent Bytes, at: At) -> HgWritten {
                order: order![6, 7, 20 without 7, 8 without 6, 12 without 6 7 20, 5 without 6],
                regions: Ordinary,
            }
            Arcseconds: hg_arcseconds(longitude: LongitudeReading, latitude: LatitudeReading) -> HgUnits {
                order: order![11, 2, 3],
                regions: None,
            }
            PlaneBox: hg_plane_box(code: lent Code) -> HgBox {
                order: READING,
                regions: Every,
            }
            BookAddPlane: hg_book_add_plane(
                code: lent Code, flight: Unsigned, start: Unsigned, end: Unsigned, book: lent Records
            ) -> HgBooked {
                order: ADDING,
                regions: Every,
            }
            BookAddGround: hg_book_add_ground(
                code: lent Code, flight: Unsigned, start: Unsigned, end: Unsigned, book: lent Records
            ) -> HgBooked {
                order: ADDING,
                regions: Every,
            }
            BookAddSpace: hg_book_add_space(
                code: lent SpaceCode, flight: Unsigned, start: Unsigned, end: Unsigned, book: lent Records
            ) -> HgBooked {
                order: ADDING,
                regions: WithSigns,
            }
            BookRelease: hg_book_release(flight: Unsigned, book: lent Records) -> HgBooked {
                order: order![19, 18],
                regions: None,
            }
            PlaceFind: hg_place_find(name: lent Bytes, places: lent Bytes) -> HgRefusal {
                order: order![21, 22],
                regions: Every,
            }
            PlacePart: hg_place_part(name: lent Bytes, places: lent Bytes) -> HgPart {
                order: order![21, 22],
                regions: Every,
            }
            ShortRead: hg_short_read(code: lent Code, places: lent Bytes, line: lent Bytes, at: At) -> HgWritten {
                order: order![21, 6, 7, 20 without 7, 22, 8 without 6 22, 12 without 6 7 20 22, 5 without 6 22],
                regions: Ordinary,
            }
        }
    };
}
