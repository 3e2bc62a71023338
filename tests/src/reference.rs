//! Reference codes: "a plane code, a hyphen, M, N. M is cells east and N cells
//! north in true compass sense, in every quarter: 0 to 7, or A to G for -1 to
//! -7." The reader moves the base; the writer tries all offsets.

use crate::plane::{self, level_of, polar, PlaneCell, POLAR_INDEX, SOUTH, TURN};
use crate::refusals::{bad_character, of_second_code, put, refusal, Refusal};
use crate::slips;

/// The characters of -7 to 7.
pub const OFFSETS: &[u8; 15] = b"GFEDCBA01234567";

fn offset(character: u8) -> Option<i64> {
    let at = OFFSETS.iter().position(|&known| known == character)?;
    Some(at as i64 - 7)
}

/// Refusal 8: "a reference base or target is below level 5 or polar".
pub fn unfit(cell: &PlaneCell) -> bool {
    cell.level < 5 || polar(cell)
}

/// The west and south edges of the cell that lies so many cells away. "East
/// and west pass through 180°; north and south pass the equator."
pub fn moved(cell: &PlaneCell, east: i64, north: i64) -> (i64, i64) {
    let turned = slips::on(slips::DIGIT_DIRECTION) && cell.west < 0;
    let east = if turned { -east } else { east };
    let mut west = i64::from(cell.west) + east * i64::from(cell.width);
    if !slips::on(slips::LONG_WAY_ROUND) {
        if west < -TURN / 2 {
            west += TURN;
        }
        if west >= TURN / 2 {
            west -= TURN;
        }
    }
    (west, i64::from(cell.south) + north * i64::from(cell.height))
}

/// The offsets, each -7 to 7, that lead from the base to the target.
pub fn offsets(base: &PlaneCell, target: &PlaneCell) -> Option<(i64, i64)> {
    let goal = (i64::from(target.west), i64::from(target.south));
    let north = (-7..=7).find(|&north| moved(base, 0, north).1 == goal.1)?;
    let east = (-7..=7).find(|&east| moved(base, east, north) == goal)?;
    Some((east, north))
}

/// Reference writer: "6, 7 of the base; 6, 7 of the target; 8, 9, 10, 5", with
/// 20 where 7 stands.
pub fn write(base: &[u8], target: &[u8], line: &mut [u8], at: usize) -> Result<usize, Refusal> {
    let to = || plane::read(target).map_err(of_second_code);
    let from = plane::read(base).map_err(|bad| match slips::current() {
        slips::TARGET_GARBLED_FIRST if bad.number == 20 => to().err().filter(|other| other.number == 7).unwrap_or(bad),
        _ => bad,
    })?;
    let to = to()?;
    if slips::on(slips::LEVELS_BEFORE_POLAR) && from.level != to.level {
        return Err(refusal(9));
    }
    if unfit(&from) || unfit(&to) {
        return Err(refusal(8));
    }
    if from.level != to.level {
        return Err(refusal(9));
    }
    let Some((east, north)) = offsets(&from, &to) else {
        return Err(refusal(10));
    };
    let mut code = [0; 23];
    code[..base.len()].copy_from_slice(base);
    code[base.len()] = b'-';
    code[base.len() + 1] = OFFSETS[(east + 7) as usize];
    code[base.len() + 2] = OFFSETS[(north + 7) as usize];
    put(&code[..base.len() + 3], line, at)
}

/// Whether a move leads "to 88° or nearer a pole", or past the pole.
pub fn reaches_pole(cell: &PlaneCell, north: i64) -> bool {
    let (_, south) = moved(cell, 0, north);
    let past = south < SOUTH.0 || south > SOUTH.1;
    past || (if south >= 0 { south } else { -1 - south }) >= POLAR_INDEX
}

/// The hyphen, M and N that end a code of at least three bytes: both offsets,
/// or the refusal of the first bad character, by its place in the whole code.
pub fn signs(code: &[u8]) -> Result<(i64, i64), Refusal> {
    let length = code.len() - 3;
    let bad = |place: usize| match (slips::current(), bad_character(place, code[place])) {
        (slips::HYPHEN_PLACE_GARBLED, bad) if place == length => Refusal { number: 7, ..bad },
        (_, bad) => bad,
    };
    if code[length] != b'-' {
        return Err(bad(length));
    }
    let east = offset(code[length + 1]).ok_or_else(|| bad(length + 1))?;
    let north = offset(code[length + 2]).ok_or_else(|| bad(length + 2))?;
    Ok((east, north))
}

/// A reference code in reading: the base and both offsets.
pub fn parts(code: &[u8]) -> Result<(PlaneCell, i64, i64), Refusal> {
    let Some(length) = code.len().checked_sub(3) else {
        return Err(refusal(6));
    };
    level_of(length).ok_or(refusal(6))?;
    let base = plane::read(&code[..length])?;
    let (east, north) = signs(code).map_err(|bad| match slips::current() {
        slips::UNFIT_BEFORE_MISPLACED if bad.number == 20 && unfit(&base) => refusal(8),
        _ => bad,
    })?;
    Ok((base, east, north))
}

/// Reference reader: "6 (total less 3 is no plane length), 7, 8, 12, 5", with 20
/// where 7 stands. "The reader writes the target's plane code."
pub fn read(code: &[u8], line: &mut [u8], at: usize) -> Result<usize, Refusal> {
    let (base, east, north) = parts(code)?;
    if slips::on(slips::POLE_REACHED_FIRST) && reaches_pole(&base, north) {
        return Err(refusal(12));
    }
    if unfit(&base) {
        return Err(refusal(8));
    }
    if reaches_pole(&base, north) {
        return Err(refusal(12));
    }
    let (west, south) = moved(&base, east, north);
    let west = west.clamp(-TURN / 2, TURN / 2 - 1);
    let finest = plane::write::finest(west, south);
    put(&finest[..code.len() - 3], line, at)
}
