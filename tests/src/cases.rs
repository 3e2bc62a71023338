//! What to compare: random numbers from a seed, squares of every kind; below, edges, codes, readings, records of the book,
//! place books and the document's own cases.

mod bookings;
mod codes;
mod document;
mod edges;
mod places;
mod readings;

pub use bookings::*;
pub use codes::*;
pub use document::*;
pub use edges::*;
pub use places::*;
pub use readings::*;

use crate::plane::{self, wrap, DEGREE, LENGTHS, POLAR_INDEX, SOUTH, WEST};

/// Random numbers that depend on the seed alone (splitmix64).
pub struct Random(u64);

impl Random {
    pub fn new(seed: u64) -> Random {
        Random(seed)
    }

    pub fn draw(&mut self) -> u64 {
        self.0 = self.0.wrapping_add(0x9e37_79b9_7f4a_7c15);
        let mut mixed = self.0;
        mixed = (mixed ^ (mixed >> 30)).wrapping_mul(0xbf58_476d_1ce4_e5b9);
        mixed = (mixed ^ (mixed >> 27)).wrapping_mul(0x94d0_49bb_1331_11eb);
        mixed ^ (mixed >> 31)
    }

    /// 0 to `count` less one.
    pub fn below(&mut self, count: u64) -> u64 {
        ((u128::from(self.draw()) * u128::from(count)) >> 64) as u64
    }

    pub fn between(&mut self, least: i64, greatest: i64) -> i64 {
        least + self.below((greatest - least + 1) as u64) as i64
    }

    pub fn one_in(&mut self, count: u64) -> bool {
        self.below(count) == 0
    }

    pub fn pick<T: Copy>(&mut self, list: &[T]) -> T {
        list[self.below(list.len() as u64) as usize]
    }
}

/// Unit heights of cells of every kind; all but the first also polar.
const HEIGHTS: [i64; 11] = [29_491_200, 3_686_400, 1_843_200, 1_228_800, 122_880, 8_192, 4_096, 512, 64, 8, 1];

const WIDTHS: [i64; 10] = [44_236_800, 3_686_400, 1_843_200, 122_880, 8_192, 4_096, 512, 64, 8, 1];

/// A latitude of this hemisphere by its outward index.
fn at_index(north: bool, index: i64) -> i64 {
    if north {
        index
    } else {
        -1 - index
    }
}

pub fn random_longitude(random: &mut Random) -> i64 {
    random.between(WEST.0, WEST.1)
}

/// Any square below 88°.
pub fn ordinary(random: &mut Random) -> (i64, i64) {
    let index = random.between(0, POLAR_INDEX - 1);
    let north = random.one_in(2);
    (random_longitude(random), at_index(north, index))
}

/// A polar square; often near the edge of a cap or of a column.
pub fn polar(random: &mut Random) -> (i64, i64) {
    let distance = match random.below(4) {
        0 => random.between(0, 2 * DEGREE - 1),
        1 => random.between(0, DEGREE - 1),
        2 => {
            let height = random.pick(&HEIGHTS[1..]);
            random.between(0, height * 16 - 1)
        }
        _ => {
            let height = random.pick(&HEIGHTS[1..]);
            height * random.between(0, 15) + random.between(-2, 2)
        }
    };
    let distance = distance.clamp(0, 2 * DEGREE - 1);
    let longitude = match random.below(4) {
        0 => {
            let degrees = random.pick(&[24, 45, 60, 120, 180, 8, 3]);
            wrap(degrees * DEGREE * random.between(0, 120) + random.between(-2, 2))
        }
        _ => random_longitude(random),
    };
    let north = random.one_in(2);
    (longitude, at_index(north, 90 * DEGREE - 1 - distance))
}

/// One unit either side of, or on, an edge of some cell of some level.
pub fn near_edge(random: &mut Random) -> (i64, i64) {
    let (longitude, latitude) = if random.one_in(2) { ordinary(random) } else { polar(random) };
    let code = plane::write::finest(longitude, latitude);
    let length = random.pick(&LENGTHS);
    let Ok(end) = plane::walk::whole(&code[..length]) else {
        return (longitude, latitude);
    };
    let cell = end.cell();
    let (west, south) = (i64::from(cell.west), i64::from(cell.south));
    let (width, height) = (i64::from(cell.width), i64::from(cell.height));
    let longitude = match random.below(3) {
        0 => longitude,
        1 => wrap(west + random.between(-1, 1)),
        _ => wrap(west + width + random.between(-1, 1)),
    };
    let latitude = match random.below(3) {
        0 => latitude,
        1 => south + random.between(-1, 1),
        _ => south + height + random.between(-1, 1),
    };
    (longitude, latitude.clamp(SOUTH.0, SOUTH.1))
}

/// A square of any kind.
pub fn anywhere(random: &mut Random) -> (i64, i64) {
    match random.below(3) {
        0 => ordinary(random),
        1 => polar(random),
        _ => near_edge(random),
    }
}

/// Squares in each kind of region, for the wide damage of codes.
pub fn places_of_each_kind() -> Vec<(i64, i64)> {
    let mut list = Vec::new();
    for (longitude, index) in [
        (47 * DEGREE + 12_345, 31 * DEGREE + 54_321),
        (-100 * DEGREE + 7, 71 * DEGREE + 3),
        (77 * DEGREE, 88 * DEGREE + 123_456),
        (-33 * DEGREE - 5, 88 * DEGREE + DEGREE / 2 + 99),
        (130 * DEGREE, 89 * DEGREE + 1_000_000),
        (-5, 90 * DEGREE - 1_900_000),
        (99 * DEGREE, 90 * DEGREE - 130_000),
        (0, 90 * DEGREE - 1),
    ] {
        list.push((longitude, index));
        list.push((-1 - longitude, -1 - index));
    }
    list
}
