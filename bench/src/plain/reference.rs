//! Reference codes as a careful Rust programmer would write them by hand, over the plain reader and the plain writer of ordinary cells.

use super::plane::{put, read, value, Cell, LENGTHS};
use super::{refuse, Refusal};

const TURN: i64 = 2_654_208_000;
const HALF: i64 = 1_327_104_000;
const POLAR: i64 = 648_806_400;

/// An offset's digit: 0 to 7 as they are, -1 to -7 as A to G.
#[inline(always)]
fn offset(size: u32, from: i32, to: i32) -> Result<u8, Refusal> {
    let apart = (to as i64 - from as i64).rem_euclid(TURN) as u32;
    let (on, back) = (apart / size, (TURN as u32 - apart) / size);
    match (on, back) {
        (0..=7, _) => Ok(b'0' + on as u8),
        (_, 1..=7) => Ok(b'@' + back as u8),
        _ => refuse(10),
    }
}

/// The plain reader knows no polar cell, so what is left of refusal 8 is the level.
#[inline(always)]
fn far_enough(c: &Cell) -> Result<(), Refusal> {
    if c.level < 5 {
        refuse(8)
    } else {
        Ok(())
    }
}

#[inline(never)]
pub fn write(base: &[u8], target: &[u8], line: &mut [u8], at: usize) -> Result<usize, Refusal> {
    let b = read(base)?;
    let t = read(target).map_err(|r| Refusal { ordinal: 2, ..r })?;
    far_enough(&b)?;
    far_enough(&t)?;
    if b.level != t.level {
        return refuse(9);
    }
    let (m, n) = (offset(b.width, b.west, t.west)?, offset(b.height, b.south, t.south)?);
    let k = base.len();
    if at > line.len() || line.len() - at < k + 3 {
        return refuse(5);
    }
    let line = &mut line[at..at + k + 3];
    line[..k].copy_from_slice(base);
    line[k..].copy_from_slice(&[b'-', m, n]);
    Ok(k + 3)
}

/// How many cells an offset's character leads on.
#[inline(always)]
fn cells(code: &[u8], place: usize) -> Result<i64, Refusal> {
    match value(code[place]) {
        v @ 0..=7 => Ok(v as i64),
        v @ 10..=16 => Ok(9 - v as i64),
        _ => Err(Refusal::wrong(code, place)),
    }
}

/// The corner that so many units lead to, between -180° and 180°.
#[inline(always)]
fn moved(from: i32, units: i64) -> i64 {
    let to = from as i64 + units;
    if to < -HALF {
        to + TURN
    } else if to < HALF {
        to
    } else {
        to - TURN
    }
}

/// The hyphen at place k, and the cells that M and N behind it lead east and north.
#[inline(always)]
pub fn offset_of(code: &[u8], k: usize) -> Result<(i64, i64), Refusal> {
    if code[k] != b'-' {
        return Err(Refusal::wrong(code, k));
    }
    Ok((cells(code, k + 1)?, cells(code, k + 2)?))
}

#[inline(never)]
pub fn follow(code: &[u8], line: &mut [u8], at: usize) -> Result<usize, Refusal> {
    if code.len() < 3 {
        return refuse(6);
    }
    let k = code.len() - 3;
    let b = read(&code[..k])?;
    let (m, n) = offset_of(code, k)?;
    far_enough(&b)?;
    let x = moved(b.west, m * b.width as i64);
    let y = moved(b.south, n * b.height as i64);
    if !(-POLAR..POLAR).contains(&y) {
        return refuse(12);
    }
    if at > line.len() || line.len() - at < LENGTHS[b.level as usize] {
        return refuse(5);
    }
    put(b.level as usize, x < 0, y < 0, (x ^ (x >> 63)) as u32, (y ^ (y >> 63)) as u32, &mut line[at..]);
    Ok(LENGTHS[b.level as usize])
}
