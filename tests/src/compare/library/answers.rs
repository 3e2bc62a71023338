//! What the library returns, and what it should return for the oracle's answer.

use hailgully_raw::*;
use hailgully_tests::book::Reservation;
use hailgully_tests::places::Part;
use hailgully_tests::plane::PlaneCell;
use hailgully_tests::refusals::Refusal;
use hailgully_tests::space::SpaceCell;

macro_rules! records {
    ($($before:ident),*; $($named:ident: $($place:ident).+),*; $($behind:ident),*) => {
        /// A record of the oracle as the library holds it.
        pub fn record(own: &Reservation) -> HgReservation {
            HgReservation {
                live: own.live,
                $($before: own.$before,)*
                $($named: own.cell.$($place).+,)*
                $($behind: own.$behind,)*
            }
        }
    };
}

hailgully_tests::record_numbers!(records);

/// A record that the library should return, made of the oracle's answer.
pub trait Record<T> {
    fn of(own: Result<T, Refusal>) -> Self;
}

/// A record that the library returns.
pub trait Returned {
    fn refusal(&mut self) -> &mut HgRefusal;
}

impl Returned for HgRefusal {
    fn refusal(&mut self) -> &mut HgRefusal {
        self
    }
}

/// Makes a record of the oracle's answer, or of its refusal with every other field 0.
macro_rules! answers {
    ($record:ident, $own:ty, |$given:ident| $made:expr) => {
        impl Record<$own> for $record {
            fn of(own: Result<$own, Refusal>) -> $record {
                match own {
                    Ok($given) => $made,
                    Err(refused) => $record { refusal: HgRefusal::of(Err(refused)), ..$record::default() },
                }
            }
        }

        impl Returned for $record {
            fn refusal(&mut self) -> &mut HgRefusal {
                &mut self.refusal
            }
        }
    };
}

/// All three numbers are 0 where nothing is refused.
impl Record<()> for HgRefusal {
    fn of(own: Result<(), Refusal>) -> HgRefusal {
        match own {
            Ok(()) => HgRefusal::default(),
            Err(Refusal { number, ordinal, place }) => HgRefusal { number, ordinal, place },
        }
    }
}

answers!(HgWritten, usize, |length| HgWritten { length: length as u64, ..HgWritten::default() });
answers!(HgBooked, usize, |at| HgBooked { at: at as u64, ..HgBooked::default() });
answers!(HgPart, Part, |part| HgPart {
    start: part.start as u64,
    name_length: part.name_length as u64,
    code_length: part.code_length as u64,
    ..HgPart::default()
});
answers!(HgUnits, (i32, i32), |units| HgUnits { longitude: units.0, latitude: units.1, ..HgUnits::default() });
answers!(HgPlaneCell, PlaneCell, |cell| HgPlaneCell {
    level: cell.level,
    west: cell.west,
    south: cell.south,
    width: cell.width,
    height: cell.height,
    ..HgPlaneCell::default()
});
answers!(HgSpaceCell, SpaceCell, |cell| HgSpaceCell {
    level: cell.plane.level,
    west: cell.plane.west,
    south: cell.plane.south,
    width: cell.plane.width,
    height: cell.plane.height,
    floor: cell.floor,
    thickness: cell.thickness,
    ..HgSpaceCell::default()
});
answers!(HgBox, [u64; 4], |edges| {
    let [west, south, width, height] = edges.map(f64::from_bits);
    HgBox { west, south, width, height, ..HgBox::default() }
});

/// A box's four numbers by their bits.
pub fn edges(of: &HgBox) -> [u64; 4] {
    [of.west, of.south, of.width, of.height].map(f64::to_bits)
}
