//! Arc-second readings, worked out from the bits of the f64 in whole numbers.

use crate::plane::{self, LATITUDE, LONGITUDE};
use crate::refusals::{refusal, Refusal};
use crate::slips;

/// A reading: not a number, an infinity, or "its sign, whole significand and
/// power of two".
enum Reading {
    NotANumber,
    Infinite,
    Finite { negative: bool, significand: i128, power: i32 },
}

fn reading(bits: u64) -> Reading {
    let negative = bits >> 63 == 1;
    let exponent = (bits >> 52) & 0x7ff;
    let fraction = bits & 0xf_ffff_ffff_ffff;
    match (exponent, fraction) {
        (0x7ff, 0) => Reading::Infinite,
        (0x7ff, _) => Reading::NotANumber,
        (0, _) => Reading::Finite { negative, significand: i128::from(fraction), power: -1074 },
        _ => Reading::Finite { negative, significand: i128::from(fraction + (1 << 52)), power: exponent as i32 - 1075 },
    }
}

/// 2048 times a finite reading, "multiplied clear of that power": a whole
/// number, and the whole number that it is to be divided by. Nothing where it is
/// far outside every range.
fn clear(bits: u64) -> Option<(i128, i128)> {
    let Reading::Finite { negative, significand, power } = reading(bits) else {
        return None;
    };
    let signed = if negative { -significand } else { significand };
    // 2048 is 2 to the 11. A significand has 53 bits: divided by 2 to the 90, or
    // by more, it lies between -1 and 1.
    match power + 11 {
        41.. => None,
        up @ 0..=40 => Some((signed << up, 1)),
        down => Some((signed, 1 << (-down).min(90))),
    }
}

fn not_a_number(bits: u64) -> bool {
    match reading(bits) {
        Reading::NotANumber => true,
        Reading::Infinite => slips::on(slips::INFINITY_NOT_A_NUMBER),
        Reading::Finite { .. } => false,
    }
}

/// Whether refusal 2 or 3 does not begin yet: "for readings they begin just
/// above 648,000 and 324,000". The ends are given in units.
fn inside((number, over): (i128, i128), (least, greatest): (i64, i64)) -> bool {
    let (least, greatest) = (i128::from(least) * over, i128::from(greatest) * over);
    match slips::current() {
        slips::FLOOR_IN_RANGE => least <= number && number < greatest + over,
        slips::OLD_READING_ENDS => least <= number && number < greatest,
        _ => least <= number && number <= greatest,
    }
}

/// "The greatest whole units not above 2048 times the reading", if it lies in
/// the range.
fn one(bits: u64, range: (i64, i64)) -> Option<i32> {
    let (number, over) = clear(bits).filter(|&times_2048| inside(times_2048, range))?;
    Some(if slips::on(slips::TOWARD_ZERO) { number / over } else { number.div_euclid(over) } as i32)
}

/// A longitude and a latitude, given as the bits of two f64: refusals 11, 2, 3.
pub fn arcseconds(longitude: u64, latitude: u64) -> Result<(i32, i32), Refusal> {
    let late = slips::on(slips::NOT_A_NUMBER_LATE) && not_a_number(latitude);
    if late && !not_a_number(longitude) && one(longitude, LONGITUDE).is_none() {
        return Err(refusal(2));
    }
    if not_a_number(longitude) || not_a_number(latitude) {
        return Err(refusal(11));
    }
    let east = one(longitude, LONGITUDE).ok_or(refusal(2))?;
    let north = one(latitude, LATITUDE).ok_or(refusal(3))?;
    Ok(match slips::current() {
        slips::READING_TURNED => (plane::wrap(i64::from(east)) as i32, north),
        slips::POLE_READ_AT_0 if i64::from(north) == LATITUDE.1 => (0, north),
        _ => (east, north),
    })
}

/// The bits of the f64 that is exactly this unit count over 2048.
pub fn over_2048(units: i64) -> u64 {
    if units == 0 {
        let minus = slips::on(slips::MINUS_ZERO_BOX);
        return u64::from(minus) << 63;
    }
    let size = units.unsigned_abs();
    let top = 63 - size.leading_zeros();
    let fraction = (size << (52 - top)) & 0xf_ffff_ffff_ffff;
    let exponent = u64::from(1023 + top - 11);
    (u64::from(units < 0) << 63) | (exponent << 52) | fraction
}

/// The box of a plane code: the bits of west, south, width, height in
/// arc-seconds. Refusals 6, 7 or 20.
pub fn plane_box(code: &[u8]) -> Result<[u64; 4], Refusal> {
    let cell = plane::read(code)?;
    Ok([
        over_2048(i64::from(cell.west)),
        over_2048(i64::from(cell.south)),
        over_2048(i64::from(cell.width)),
        over_2048(i64::from(cell.height)),
    ])
}
