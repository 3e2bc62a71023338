//! Faults of a library that tells garbled from misplaced otherwise.

use super::{fault, Fault};
use crate::calls::{Parameter, What};
use hailgully_raw::HgRefusal;
use hailgully_tests::refusals::CODE_CHARACTERS;
use hailgully_tests::slips;
use hailgully_tests::space::TURNS;

const ALL_GARBLED: &str = "answers 7 for every bad character of";
const ALL_MISPLACED: &str = "answers 20 for every bad character of";
/// What is done with one of the codes that the calls read.
pub const OF_ONE: &[&str] = &[ALL_GARBLED, ALL_MISPLACED];

listed! {
    NO_PLACE: "gives no place with 20",
    OTHER_ORDINAL: "gives the other code's ordinal with 20",
    NEXT_BYTE: "takes the kind of a bad character from the byte after it",
    PLANE_PLACE: "takes the kind of a space code's bad plane character from the byte at its place among the plane characters",
}

/// The refusal of a code as it comes back.
#[inline(always)]
pub fn refused(which: Parameter, code: &[u8], refusal: &mut HgRefusal) {
    let Some(Fault::Character(does, only)) = fault(slips::current()) else { return };
    if !matches!(refusal.number, 7 | 20) || only.is_some_and(|only| only != which) {
        return;
    }
    let (misplaced, place) = (refusal.number == 20, refusal.place as usize);
    let kind = |place: usize| if CODE_CHARACTERS.contains(&code[place]) { 20 } else { 7 };
    match does {
        ALL_GARBLED => refusal.number = 7,
        ALL_MISPLACED => refusal.number = 20,
        NO_PLACE if misplaced => refusal.place = 0,
        OTHER_ORDINAL if misplaced => refusal.ordinal = 3 - refusal.ordinal,
        NEXT_BYTE if place + 1 < code.len() => refusal.number = kind(place + 1),
        PLANE_PLACE if which.what == What::SpaceCode && TURNS[place] == b'p' => {
            refusal.number = kind(TURNS[..place].iter().filter(|turn| **turn == b'p').count());
        }
        _ => {}
    }
}
