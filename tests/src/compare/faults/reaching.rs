//! Parameters as they reach the library, and what was lent as it comes back, where a fault of one of them is on.

use super::{characters, fault, Fault};
use crate::calls::{Parameter, What};
use hailgully_raw::{HgRefusal, HgReservation};
use hailgully_tests::plane::{LATITUDE, LONGITUDE};
use hailgully_tests::slips;

/// A number that reaches the library as this parameter, or as the length of what is lent as it.
pub trait Reaching {
    fn reaching(self, parameter: Parameter) -> Self;
}

impl Reaching for u32 {
    #[inline(always)]
    fn reaching(self, _: Parameter) -> u32 {
        self
    }
}

impl Reaching for usize {
    #[inline(always)]
    fn reaching(self, parameter: Parameter) -> usize {
        match fault(slips::current()) {
            Some(Fault::Cut(which, bits)) if which == parameter => self & ((1 << bits) - 1),
            _ => self,
        }
    }
}

impl Reaching for i64 {
    #[inline(always)]
    fn reaching(self, parameter: Parameter) -> i64 {
        let (least, greatest) = if parameter.what == What::Longitude { LONGITUDE } else { LATITUDE };
        match fault(slips::current()) {
            Some(Fault::Cut(which, bits)) if which == parameter => self & ((1 << bits) - 1),
            Some(Fault::Clipped(which)) if which == parameter => self.clamp(least, greatest),
            Some(Fault::EndRefused(which)) if which == parameter && self == greatest => self + 1,
            _ => self,
        }
    }
}

impl Reaching for f64 {
    #[inline(always)]
    fn reaching(self, parameter: Parameter) -> f64 {
        let end = if parameter.what == What::LongitudeReading { 648_000.0 } else { 324_000.0 };
        match fault(slips::current()) {
            Some(Fault::Clipped(which)) if which == parameter => self.clamp(-end, end),
            Some(Fault::EndRefused(which)) if which == parameter && self == end => self.next_up(),
            _ => self,
        }
    }
}

/// What can be lent.
pub trait Lent {
    /// Changes a byte of it, if it has one.
    fn change(&mut self);

    /// Its characters, where it is a code.
    fn characters(&self) -> &[u8];
}

impl Lent for [u8] {
    fn change(&mut self) {
        self.last_mut().into_iter().for_each(|byte| *byte ^= 1);
    }

    fn characters(&self) -> &[u8] {
        self
    }
}

impl Lent for [HgReservation] {
    fn change(&mut self) {
        self.first_mut().into_iter().for_each(|record| record.end ^= 1);
    }

    fn characters(&self) -> &[u8] {
        &[]
    }
}

/// What was lent as it comes back, and the refusal if it is one of this code: the library gave it with this ordinal.
#[inline(always)]
pub fn came_back<L: Lent + ?Sized>(parameter: Parameter, lent: &mut L, ordinal: u32, refusal: &mut HgRefusal) {
    if parameter.what.ordinal() == Some(ordinal) {
        characters::refused(parameter, lent.characters(), refusal);
    }
    match fault(slips::current()) {
        Some(Fault::Changed(which)) if which == parameter => lent.change(),
        _ => {}
    }
}
