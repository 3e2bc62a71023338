//! Arc-second readings to whole units.

use crate::inputs::{many, Dice};
use crate::plain;
use crate::table::{Pass, Row};
use hailgully_raw::lent as ffi;
use std::hint::black_box;

type Reading = (f64, f64);

fn ours(readings: &'static [Reading]) -> Pass {
    Box::new(move || {
        for r in readings {
            black_box(&ffi::arcseconds(r.0, r.1));
        }
    })
}

fn other(readings: &'static [Reading]) -> Pass {
    Box::new(move || {
        for r in readings {
            black_box(&plain::arcseconds::arcseconds(r.0, r.1));
        }
    })
}

fn same_one(longitude: f64, latitude: f64) {
    let ours = ffi::arcseconds(longitude, latitude);
    plain::same(&ours.refusal, plain::arcseconds::arcseconds(longitude, latitude), |other| {
        assert_eq!(plain::arcseconds::Units { longitude: ours.longitude, latitude: ours.latitude }, other);
    });
}

/// The plain function agrees with the library on the readings that are timed, and on awkward ones.
fn same(readings: &[Reading]) {
    for &(x, y) in readings {
        assert_eq!(ffi::arcseconds(x, y).refusal.number, 0);
        same_one(x, y);
        same_one(2.0 * x, 2.0 * y);
    }
    let limits = [648_000.0, 324_000.0, 0.0, 0.5, 1.0 / 2048.0, 1e-310, 1e300, f64::INFINITY, f64::NAN];
    let awkward: Vec<f64> = limits.iter().flat_map(|v: &f64| [*v, -v, v.next_down(), -v.next_down(), v.next_up(), -v.next_up()]).collect();
    for &x in &awkward {
        for &y in &awkward {
            same_one(x, y);
        }
    }
}

pub fn rows(dice: &mut Dice) -> Vec<Row> {
    let readings = many(|| (dice.reading(648_000.0), dice.reading(324_000.0)));
    same(readings);
    vec![Row::plain("arcseconds", ours(readings), other(readings), Some(1.5))]
}
