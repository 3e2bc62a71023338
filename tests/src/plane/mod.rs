//! Plane codes: the common numbers, the cell, the whole-code writer and reader.

pub mod listing;
pub mod walk;
pub mod write;

use crate::refusals::{put, refusal, Refusal};
use crate::slips;

/// "A unit is 1/2048 arc-second; one degree is 7,372,800 units."
pub const DEGREE: i64 = 7_372_800;
pub const TURN: i64 = 360 * DEGREE;
/// The numbers that a caller may give. Wish 2 of document 02: "for whole units
/// 2 and 3 begin one unit later at the upper end".
pub const LONGITUDE: (i64, i64) = (-1_327_104_000, 1_327_104_000);
pub const LATITUDE: (i64, i64) = (-663_552_000, 663_552_000);
/// The west and south corners of unit squares: document 01's ranges, as "demand
/// 3 still speaks of unit squares".
pub const WEST: (i64, i64) = (-1_327_104_000, 1_327_103_999);
pub const SOUTH: (i64, i64) = (-663_552_000, 663_551_999);
/// Ordinary "means latitude index below 648,806,400 (88°)".
pub const POLAR_INDEX: i64 = 648_806_400;
/// Lengths of the codes of levels 1 to 10.
pub const LENGTHS: [usize; 10] = [4, 6, 7, 9, 11, 12, 14, 16, 18, 20];

/// What kind of cell the rules divide.
#[derive(Clone, Copy, Debug, PartialEq, Eq)]
pub enum Region {
    Ordinary,
    /// N000 or S000.
    Pole,
    /// 88° to 89°.
    Belt,
    /// 89° to 90°, but no cap.
    Disc,
    Cap,
}

/// "A plane cell is level, west, south, width, height."
#[derive(Clone, Copy, Debug, Default, PartialEq, Eq)]
pub struct PlaneCell {
    pub level: u32,
    pub west: i32,
    pub south: i32,
    pub width: u32,
    pub height: u32,
}

pub fn within(number: i64, range: (i64, i64)) -> bool {
    range.0 <= number && number <= range.1
}

/// "The outward index of a longitude or latitude u is u where u is 0 or more,
/// and -1 - u where it is negative."
pub fn outward(u: i64) -> i64 {
    if u >= 0 {
        u
    } else if slips::on(slips::ABSOLUTE_VALUES) {
        -u
    } else {
        -1 - u
    }
}

/// Longitude taken eastward, 0 to 2,654,208,000 less one.
pub fn eastward(longitude: i64) -> i64 {
    if longitude < 0 {
        longitude + TURN
    } else {
        longitude
    }
}

/// "Longitudes a full turn apart name the same square": the one that a square
/// has.
pub fn wrap(longitude: i64) -> i64 {
    let eastward = longitude.rem_euclid(TURN);
    if within(eastward, WEST) {
        eastward
    } else {
        eastward - TURN
    }
}

/// The square of a position in the ranges. "Longitude 1,327,104,000 gets the
/// code of -1,327,104,000", which is a full turn away, "and latitude 663,552,000
/// gets the code of 663,551,999 at the same longitude", the greatest there is.
pub fn square(longitude: i64, latitude: i64) -> (i64, i64) {
    let west = if slips::on(slips::LAST_UNIT_FOR_180) { longitude.min(WEST.1) } else { wrap(longitude) };
    let turned = slips::on(slips::POLE_TURNS) && latitude > SOUTH.1;
    (west, if turned { SOUTH.0 } else { latitude.min(SOUTH.1) })
}

/// "West lies in the longitude range": the longitude of an eastward number.
pub fn west_of(eastward: i64) -> i32 {
    let past = if slips::on(slips::WEST_EDGE_POSITIVE) { eastward > TURN / 2 } else { eastward >= TURN / 2 };
    (if past { eastward - TURN } else { eastward }) as i32
}

/// The level whose codes have this length, if there is one.
pub fn level_of(length: usize) -> Option<u32> {
    let at = LENGTHS.iter().position(|&of_level| of_level == length)?;
    Some(at as u32 + 1)
}

/// Refusal 1.
pub fn refuse_level(level: i64) -> Result<(), Refusal> {
    if !within(level, (1, 10)) {
        return Err(refusal(1));
    }
    Ok(())
}

/// Whether a writer takes a number for one of its range.
fn taken(number: i64, (least, greatest): (i64, i64)) -> bool {
    match slips::current() {
        slips::OLD_ENDS => within(number, (least, greatest - 1)),
        slips::UNIT_TOO_MANY => within(number, (least, greatest + 1)),
        slips::UNIT_TOO_MANY_BELOW => within(number, (least - 1, greatest)),
        _ => within(number, (least, greatest)),
    }
}

/// Refusals 2, 3 in their order.
pub fn refuse_position(longitude: i64, latitude: i64) -> Result<(), Refusal> {
    if slips::on(slips::LATITUDE_FIRST) && !within(latitude, LATITUDE) {
        return Err(refusal(3));
    }
    let pole_first = slips::on(slips::POLE_FIRST) && latitude == LATITUDE.1;
    if !taken(longitude, LONGITUDE) && !pole_first {
        return Err(refusal(2));
    }
    if !taken(latitude, LATITUDE) {
        return Err(refusal(3));
    }
    Ok(())
}

/// Position writer: refusals 1, 2, 3, 5.
pub fn write(level: i64, longitude: i64, latitude: i64, line: &mut [u8], at: usize) -> Result<usize, Refusal> {
    refuse_level(level)?;
    refuse_position(longitude, latitude)?;
    let (west, south) = square(longitude, latitude);
    let code = write::finest(west, south);
    put(&code[..LENGTHS[level as usize - 1]], line, at)
}

/// The refusal of the first bad character, whatever the length.
pub fn bad(code: &[u8]) -> Option<Refusal> {
    walk::whole(code).err()
}

/// Whole-code reader: refusals 6, 7 or 20.
pub fn read(code: &[u8]) -> Result<PlaneCell, Refusal> {
    if level_of(code.len()).is_none() {
        let early = if slips::on(slips::MISPLACED_BEFORE_LENGTH) { bad(code) } else { None };
        return Err(early.filter(|bad| bad.number == 20).unwrap_or(refusal(6)));
    }
    walk::whole(code).map(walk::Walk::cell)
}

/// Whether a cell is in a polar region.
pub fn polar(cell: &PlaneCell) -> bool {
    outward(i64::from(cell.south)) >= POLAR_INDEX
}
