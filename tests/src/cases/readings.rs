//! Arc-second readings, as the bits of an f64.

use super::{near_end, Random};
use crate::arcseconds::over_2048;
use crate::plane::{LATITUDE, LONGITUDE};

/// The f64 of each of these unit numbers and of its neighbours, each with the
/// f64 on either side of it.
fn around(units: impl IntoIterator<Item = i64>) -> Vec<u64> {
    let near = units.into_iter().flat_map(|units| [units - 1, units, units + 1]).map(over_2048);
    near.flat_map(|bits| [bits.wrapping_sub(1), bits, bits + 1]).collect()
}

/// Readings around the ends of both ranges.
pub fn end_readings() -> Vec<u64> {
    around([LONGITUDE.0, LONGITUDE.1, LATITUDE.0, LATITUDE.1])
}

/// f64 bits at which arc-seconds could go wrong: zeros, subnormals, the
/// greatest, infinities, not-a-numbers, powers of two, the ranges' ends.
pub fn odd_readings() -> Vec<u64> {
    let mut list = vec![
        0x7ff0_0000_0000_0000,
        0x7ff0_0000_0000_0001,
        0x7ff4_0000_0000_0000,
        0x7ff8_0000_0000_0000,
        0x7fff_ffff_ffff_ffff,
        0x7fef_ffff_ffff_ffff,
        0x000f_ffff_ffff_ffff,
        0x0010_0000_0000_0000,
        0,
        1,
        2,
    ];
    list.extend(end_readings());
    list.extend(around([0, 1, 2, 7, 2048, 1 << 31, 1 << 32]));
    let minus: Vec<u64> = list.iter().map(|bits| bits ^ (1 << 63)).collect();
    list.extend(minus);
    list.sort_unstable();
    list.dedup();
    list
}

/// Whole units near an end of either range, or one bit either side of them.
pub fn near_end_reading(random: &mut Random) -> u64 {
    let range = random.pick(&[LONGITUDE, LATITUDE]);
    let bits = over_2048(near_end(random, range));
    bits.wrapping_add(random.between(-1, 1) as u64)
}

/// Any f64: any bits, one of a size like the ranges', one near an end, or one
/// bit either side of whole units.
pub fn any_reading(random: &mut Random) -> u64 {
    match random.below(7) {
        0 => random.draw(),
        1 => {
            let exponent = random.between(1023 - 30, 1023 + 34) as u64;
            (random.draw() & !(0x7ff << 52)) | exponent << 52
        }
        2 => random.pick(&[0x7ff8u64 << 48, 0x7ff0 << 48, 0xfff0 << 48, 0x7ff0_0000_0000_0001]),
        3 => near_end_reading(random),
        _ => {
            let units = random.between(LONGITUDE.0 - 9, LONGITUDE.1 + 9) >> random.below(32);
            let bits = over_2048(units);
            bits.wrapping_add(random.between(-1, 1) as u64)
        }
    }
}
