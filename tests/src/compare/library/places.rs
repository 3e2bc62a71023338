//! The three calls that read a place book, as a library with a fault of the place book would answer them.

use super::{hg_place_find, hg_place_part, hg_short_read};
use crate::faults::places::{asked, led, part, refusal};
use hailgully_raw::{HgPart, HgRefusal, HgWritten};

pub fn place_find(name: &mut [u8], places: &mut [u8]) -> HgRefusal {
    let mut other = asked(name, places);
    let mut got = hg_place_find(other.as_deref_mut().unwrap_or(name), places);
    refusal(&mut got);
    got
}

pub fn place_part(name: &mut [u8], places: &mut [u8]) -> HgPart {
    let mut other = asked(name, places);
    let mut got = hg_place_part(other.as_deref_mut().unwrap_or(name), places);
    refusal(&mut got.refusal);
    part(places, &mut got);
    got
}

pub fn short_read(code: &mut [u8], places: &mut [u8], line: &mut [u8], at: usize) -> HgWritten {
    let mut got = hg_short_read(code, places, line, at);
    refusal(&mut got.refusal);
    led(code, line, at, &mut got);
    got
}
