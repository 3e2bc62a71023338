//! Readings in arc-seconds as a careful Rust programmer would turn them into units by hand.

use super::{refuse, Refusal};

#[derive(Clone, Copy, PartialEq, Debug)]
pub struct Units {
    pub longitude: i32,
    pub latitude: i32,
}

/// The greatest whole number not above: a cast, and one less where the cast went up. A call of `floor` is slower where the processor's own may not
/// be counted on.
#[inline(always)]
fn floor(v: f64) -> i32 {
    let n = v as i32;
    n - (n as f64 > v) as i32
}

#[inline(never)]
pub fn arcseconds(longitude: f64, latitude: f64) -> Result<Units, Refusal> {
    if longitude.is_nan() || latitude.is_nan() {
        return refuse(11);
    }
    let (x, y) = (longitude * 2048.0, latitude * 2048.0);
    if !(-1_327_104_000.0..=1_327_104_000.0).contains(&x) {
        return refuse(2);
    }
    if !(-663_552_000.0..=663_552_000.0).contains(&y) {
        return refuse(3);
    }
    Ok(Units { longitude: floor(x), latitude: floor(y) })
}
