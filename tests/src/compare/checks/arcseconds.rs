//! One case of each call of arc-seconds.

use super::plane::unread;
use super::{show, Run};
use crate::calls::{applying, Call};
use crate::library;
use hailgully_tests::arcseconds;

impl Run {
    pub fn arcseconds(&mut self, longitude: u64, latitude: u64) {
        if self.over() {
            return;
        }
        let (call, own) = (Call::Arcseconds, arcseconds::arcseconds(longitude, latitude));
        let (east, north) = (f64::from_bits(longitude), f64::from_bits(latitude));
        self.answer(own, library::hg_arcseconds(east, north), || format!("{call} {east:e} ({longitude:#x}) {north:e} ({latitude:#x})"));
        let apply = applying(&[(11, east.is_nan() || north.is_nan()), (2, east.abs() > 648_000.0), (3, north.abs() > 324_000.0)]);
        self.count(call, apply, own.err());
    }

    pub fn plane_box(&mut self, code: &[u8]) {
        if self.over() {
            return;
        }
        let (call, own) = (Call::PlaneBox, arcseconds::plane_box(code));
        let got = self.reader(code, own, library::hg_plane_box, || format!("{call} {}", show(code)));
        self.count(call, unread(code, own.err()), own.err());
        // "The box's west and south read back as the same units."
        if own.is_ok() {
            self.accepted(call, code);
            let [west, south, _, _] = library::edges(&got);
            self.arcseconds(west, south);
        }
    }
}
