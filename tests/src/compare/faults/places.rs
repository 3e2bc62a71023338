//! Faults of a library that looks names up in a place book otherwise.

use super::{fault, Fault};
use hailgully_raw::{HgPart, HgRefusal, HgWritten};
use hailgully_tests::places::{plain, NAME_MOST};
use hailgully_tests::slips;

listed! {
    ZERO_ENDS: "takes a name up to its first zero byte",
    FIRST_64: "takes the first 64 bytes of a longer name",
    ANY_CASE: "finds a name whatever the case of its letters",
    BY_BEGINNING: "finds a name by its beginning",
    GOES_ON: "finds the name that a longer one begins with",
    ORDINAL_OF_FOUND: "gives an ordinal where nothing of a place book is refused",
    ORDINAL_2: "gives ordinal 2 in refusals of a place book",
    PLACE_OF_21: "gives a place with refusal 21",
    PLACE_OF_22: "gives a place with refusal 22",
    FROM_BODIES: "counts a part's start from the bodies' start",
    FROM_1: "counts a part's start from 1",
    OF_CODE: "answers the start of the code and not of the name",
    TURNED: "turns the lengths of a part round",
    NAME_COUNTED: "counts the name with the code's length",
    PART_OF_21: "answers a part with refusal 21",
    PART_OF_22: "answers a part with refusal 22",
    OWN_LENGTH: "answers the length of the short code itself",
    LENGTH_OF_5: "answers a length with refusal 5 of a short code",
    WRITES_FIRST: "writes into the line before it refuses a short code",
    ZERO_BEHIND: "ends what a short code leads to with a zero byte",
}

/// The fault of the place book that is on.
#[inline(always)]
fn current() -> Option<&'static str> {
    match fault(slips::current()) {
        Some(Fault::Places(does)) => Some(does),
        _ => None,
    }
}

/// Another name that is looked up, if any.
#[inline(always)]
pub fn asked(name: &[u8], places: &[u8]) -> Option<Vec<u8>> {
    let does = current()?;
    let known =
        |same: fn(&[u8], &[u8]) -> bool| plain::entries(places)?.into_iter().find(|known| same(&known.0, name)).map(|known| known.0);
    match does {
        ZERO_ENDS => name.split(|&byte| byte == 0).next().map(<[u8]>::to_vec),
        FIRST_64 => name.get(..NAME_MOST).map(<[u8]>::to_vec),
        ANY_CASE => known(<[u8]>::eq_ignore_ascii_case),
        BY_BEGINNING => known(|known, name| known.starts_with(name)),
        GOES_ON => known(|known, name| name.starts_with(known)),
        _ => None,
    }
}

/// A refusal, or none, as it comes back.
#[inline(always)]
pub fn refusal(got: &mut HgRefusal) {
    match (current(), got.number) {
        (Some(ORDINAL_OF_FOUND), 0) => got.ordinal = 1,
        (Some(ORDINAL_2), 21 | 22) => got.ordinal = 2,
        (Some(PLACE_OF_21), 21) | (Some(PLACE_OF_22), 22) => got.place = 1,
        _ => {}
    }
}

/// A part as it comes back.
#[inline(always)]
pub fn part(places: &[u8], got: &mut HgPart) {
    match (current(), got.refusal.number) {
        (Some(FROM_BODIES), 0) => got.start -= 2 + 4 * u64::from(u16::from_be_bytes([places[0], places[1]])),
        (Some(FROM_1), 0) => got.start += 1,
        (Some(OF_CODE), 0) => got.start += got.name_length,
        (Some(TURNED), 0) => (got.name_length, got.code_length) = (got.code_length, got.name_length),
        (Some(NAME_COUNTED), 0) => got.code_length += got.name_length,
        (Some(PART_OF_21), 21) | (Some(PART_OF_22), 22) => got.start = places.len() as u64,
        _ => {}
    }
}

/// What a short code leads to as it comes back.
#[inline(always)]
pub fn led(code: &[u8], line: &mut [u8], at: usize, got: &mut HgWritten) {
    let place = if got.refusal.number == 0 { at + got.length as usize } else { at };
    match (current(), got.refusal.number, line.get_mut(place)) {
        (Some(OWN_LENGTH), 0, _) => got.length = code.len() as u64,
        (Some(LENGTH_OF_5), 5, _) => got.length = 11,
        (Some(WRITES_FIRST), 1.., Some(byte)) => *byte ^= 1,
        (Some(ZERO_BEHIND), 0, Some(byte)) => *byte = 0,
        _ => {}
    }
}
