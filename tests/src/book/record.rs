//! The record of the book. Its numbers stand here once: the struct, random
//! records and the library's record are made of this list.

use crate::space::SpaceCell;

/// Hands the numbers of a record, but for its live mark, to a macro, in the
/// header's order: those before its cell, those of the cell and where the cell
/// has them, those behind it.
#[macro_export]
macro_rules! record_numbers {
    ($made:ident) => {
        $made! {
            flight;
            level: plane.level, west: plane.west, south: plane.south, width: plane.width, height: plane.height,
            floor: floor, thickness: thickness;
            start, end
        }
    };
}

macro_rules! made {
    ($($before:ident),*; $($named:ident: $($place:ident).+),*; $($behind:ident),*) => {
        /// "A record holds a live mark, flight number, plane cell, layer floor and
        /// thickness, and start and end minute, the end not included."
        #[derive(Clone, Copy, Debug, Default, PartialEq, Eq)]
        pub struct Reservation {
            pub live: u32,
            $(pub $before: u32,)*
            pub cell: SpaceCell,
            $(pub $behind: u32,)*
        }

        impl Reservation {
            /// A record with this mark; `draw` gives its numbers.
            pub fn drawn(live: u32, mut draw: impl FnMut() -> u32) -> Reservation {
                let mut record = Reservation { live, ..Reservation::default() };
                $(record.cell.$($place).+ = draw() as _;)*
                $(record.$before = draw();)*
                $(record.$behind = draw();)*
                record
            }
        }
    };
}

record_numbers!(made);
