//! Space codes as a careful Rust programmer would write them by hand: one pass, each level's plane characters and then its height character. Both
//! editions are compiled from one text, edition 1 into divisions by constants, edition 2 into shifts.

use super::plane::{self, at_an_end, cell, hex, index, on_globe, value};
use super::{Refusal, REFUSED_POLAR};

#[derive(Clone, Copy, PartialEq, Debug)]
pub struct Cell {
    pub plane: plane::Cell,
    pub floor: i32,
    pub thickness: u32,
}

const LENGTHS: [usize; 11] = [0, 7, 10, 12, 15, 18, 20, 23, 26, 29, 32];

/// How an edition makes digits of a layer. Where a level is given, it is a constant to the compiler.
trait Edition {
    /// How many digits each level has.
    const DIGITS: [u32; 11];
    const THICKNESSES: [u32; 11];
    const LEAST: i64;
    const GREATEST: i64;
    /// The height of a layer in its range, of which the digits are made.
    fn height(layer: i64) -> u32;
    /// A level's digit.
    fn digit(height: u32, level: usize) -> u32;
    /// What a level's digit adds to the height.
    fn part(digit: u32, level: usize) -> u32;
    /// The lowest layer of what was read.
    fn floor(below: bool, height: u32) -> i32;
}

struct Edition1;

impl Edition for Edition1 {
    const DIGITS: [u32; 11] = [2, 64, 8, 2, 15, 15, 2, 8, 8, 8, 8];
    const THICKNESSES: [u32; 11] = [0, 29_491_200, 3_686_400, 1_843_200, 122_880, 8_192, 4_096, 512, 64, 8, 1];
    const LEAST: i64 = -1_887_436_800;
    const GREATEST: i64 = 1_887_436_799;

    #[inline(always)]
    fn height(layer: i64) -> u32 {
        (if layer < 0 { layer - Self::LEAST } else { layer }) as u32
    }

    #[inline(always)]
    fn digit(height: u32, level: usize) -> u32 {
        height / Self::THICKNESSES[level] % Self::DIGITS[level]
    }

    #[inline(always)]
    fn part(digit: u32, level: usize) -> u32 {
        digit * Self::THICKNESSES[level]
    }

    #[inline(always)]
    fn floor(below: bool, height: u32) -> i32 {
        if below {
            height as i32 + Self::LEAST as i32
        } else {
            height as i32
        }
    }
}

struct Edition2;

impl Edition2 {
    /// How many bits are below each level's digit.
    const BELOW: [u32; 11] = [31, 25, 22, 21, 17, 13, 12, 9, 6, 3, 0];
}

impl Edition for Edition2 {
    const DIGITS: [u32; 11] = [2, 64, 8, 2, 16, 16, 2, 8, 8, 8, 8];
    const THICKNESSES: [u32; 11] = [0, 1 << 25, 1 << 22, 1 << 21, 1 << 17, 1 << 13, 1 << 12, 1 << 9, 1 << 6, 1 << 3, 1];
    const LEAST: i64 = -2_147_483_648;
    const GREATEST: i64 = 2_147_483_647;

    #[inline(always)]
    fn height(layer: i64) -> u32 {
        layer as u32
    }

    #[inline(always)]
    fn digit(height: u32, level: usize) -> u32 {
        height >> Self::BELOW[level] & (Self::DIGITS[level] - 1)
    }

    #[inline(always)]
    fn part(digit: u32, level: usize) -> u32 {
        digit << Self::BELOW[level]
    }

    #[inline(always)]
    fn floor(below: bool, height: u32) -> i32 {
        (height | u32::from(below) << 31) as i32
    }
}

fn refuse(number: u32) -> Result<usize, Refusal> {
    Err(Refusal::new(number, 0))
}

/// A position as its quarter and its outward indices; h is the layer's height in its edition.
struct Place {
    west: bool,
    south: bool,
    below: bool,
    x: u32,
    y: u32,
    h: u32,
}

#[inline(always)]
fn put_first<E: Edition>(p: &Place, out: &mut [u8]) {
    let c = p.x / 44_236_800;
    let z = if p.west { 30 - c } else { 31 + c };
    let top = E::digit(p.h, 1);
    out[0] = if p.south { b'S' } else { b'N' };
    out[1] = if p.below { b'1' } else { b'0' };
    out[2] = (48 + z / 10) as u8;
    out[3] = (48 + z % 10) as u8;
    out[4] = (65 + p.y / 29_491_200) as u8;
    out[5] = (48 + top / 10) as u8;
    out[6] = (48 + top % 10) as u8;
}

#[inline(always)]
fn put_three(out: &mut [u8], place: usize, x: u32, y: u32, h: u32) {
    out[place] = hex(x);
    out[place + 1] = hex(y);
    out[place + 2] = hex(h);
}

#[inline(always)]
fn put_two(out: &mut [u8], place: usize, x: u32, y: u32, h: u32) {
    out[place] = hex(2 * y + x);
    out[place + 1] = hex(h);
}

/// The characters after the checks; `out` has room for the level's length.
#[inline(always)]
fn put<E: Edition>(level: usize, p: &Place, out: &mut [u8]) {
    let out = &mut out[..LENGTHS[level]];
    let (x, y, h) = (p.x, p.y, p.h);
    put_first::<E>(p, out);
    if level < 2 {
        return;
    }
    put_three(out, 7, x / 3_686_400 % 12, y / 3_686_400 % 8, E::digit(h, 2));
    if level < 3 {
        return;
    }
    put_two(out, 10, x / 1_843_200 % 2, y / 1_228_800 % 3, E::digit(h, 3));
    if level < 4 {
        return;
    }
    put_three(out, 12, x / 122_880 % 15, y / 122_880 % 10, E::digit(h, 4));
    if level < 5 {
        return;
    }
    put_three(out, 15, x / 8_192 % 15, y / 8_192 % 15, E::digit(h, 5));
    if level < 6 {
        return;
    }
    put_two(out, 18, x / 4_096 % 2, y / 4_096 % 2, E::digit(h, 6));
    if level < 7 {
        return;
    }
    put_three(out, 20, x / 512 % 8, y / 512 % 8, E::digit(h, 7));
    if level < 8 {
        return;
    }
    put_three(out, 23, x / 64 % 8, y / 64 % 8, E::digit(h, 8));
    if level < 9 {
        return;
    }
    put_three(out, 26, x / 8 % 8, y / 8 % 8, E::digit(h, 9));
    if level < 10 {
        return;
    }
    put_three(out, 29, x % 8, y % 8, E::digit(h, 10));
}

/// The writer of one edition, after the level, the edition and the position.
#[inline(always)]
fn write_in<E: Edition>(level: usize, longitude: i64, latitude: i64, layer: i64, line: &mut [u8], at: usize) -> Result<usize, Refusal> {
    let (x, y) = (index(longitude), index(latitude));
    if !(E::LEAST..=E::GREATEST).contains(&layer) {
        return refuse(4);
    }
    let n = LENGTHS[level];
    if at > line.len() || line.len() - at < n {
        return refuse(5);
    }
    if y >= 648_806_400 {
        return refuse(REFUSED_POLAR);
    }
    let place = Place { west: longitude < 0, south: latitude < 0, below: layer < 0, x: x as u32, y: y as u32, h: E::height(layer) };
    put::<E>(level, &place, &mut line[at..]);
    Ok(n)
}

#[cold]
#[inline(never)]
fn write_at_an_end(
    edition: i64,
    level: i64,
    longitude: i64,
    latitude: i64,
    layer: i64,
    line: &mut [u8],
    at: usize,
) -> Result<usize, Refusal> {
    if !(1..=2).contains(&edition) {
        return refuse(13);
    }
    let (longitude, latitude) = at_an_end(longitude, latitude)?;
    write(edition, level, longitude, latitude, layer, line, at)
}

#[inline(never)]
pub fn write(edition: i64, level: i64, longitude: i64, latitude: i64, layer: i64, line: &mut [u8], at: usize) -> Result<usize, Refusal> {
    if !(1..=10).contains(&level) {
        return refuse(1);
    }
    if !on_globe(index(longitude), index(latitude)) {
        return write_at_an_end(edition, level, longitude, latitude, layer, line, at);
    }
    match edition {
        1 => write_in::<Edition1>(level as usize, longitude, latitude, layer, line, at),
        2 => write_in::<Edition2>(level as usize, longitude, latitude, layer, line, at),
        _ => refuse(13),
    }
}

#[inline(always)]
fn level_of(n: usize) -> usize {
    match n {
        7 => 1,
        10 => 2,
        12 => 3,
        15 => 4,
        18 => 5,
        20 => 6,
        23 => 7,
        26 => 8,
        29 => 9,
        32 => 10,
        _ => 0,
    }
}

/// A character's value, below the bound. Where ten values or fewer are allowed there are no letters to look for.
macro_rules! digit {
    ($code:ident, $place:expr, $bound:expr) => {{
        let v = if $bound <= 10 { $code[$place].wrapping_sub(48) as u32 } else { value($code[$place]) };
        if v >= $bound {
            return Err(Refusal::wrong($code, $place));
        }
        v
    }};
}

/// Two decimal digits, from 0 to the greatest allowed, which is sixty or a little more.
macro_rules! two_digits {
    ($code:ident, $place:expr, $greatest:expr) => {{
        let v = 10 * digit!($code, $place, 7) + digit!($code, $place + 1, 10);
        if v > $greatest {
            return Err(Refusal::wrong($code, $place + 1));
        }
        v
    }};
}

/// A level of three characters: its columns and rows of one size, and its digit of the height.
macro_rules! three {
    ($code:ident, $s:ident, $level:expr, $place:expr, $cols:expr, $rows:expr, $size:expr) => {{
        $s.x += digit!($code, $place, $cols) * $size;
        $s.y += digit!($code, $place + 1, $rows) * $size;
        $s.h += E::part(digit!($code, $place + 2, E::DIGITS[$level]), $level);
    }};
}

/// A level of two characters: two columns, some rows, and its digit of the height.
macro_rules! two {
    ($code:ident, $s:ident, $level:expr, $place:expr, $rows:expr, $size:expr, $height:expr) => {{
        let v = digit!($code, $place, 2 * $rows);
        $s.x += v % 2 * $size;
        $s.y += v / 2 * $height;
        $s.h += E::part(digit!($code, $place + 1, E::DIGITS[$level]), $level);
    }};
}

/// How far a code has been read: outward indices and the height.
#[derive(Clone, Copy)]
struct Sum {
    x: u32,
    y: u32,
    h: u32,
}

#[inline(always)]
fn rest<E: Edition>(code: &[u8], level: usize, mut s: Sum) -> Result<Sum, Refusal> {
    let code = &code[..LENGTHS[level]];
    if level < 2 {
        return Ok(s);
    }
    three!(code, s, 2, 7, 12, 8, 3_686_400);
    if level < 3 {
        return Ok(s);
    }
    two!(code, s, 3, 10, 3, 1_843_200, 1_228_800);
    if level < 4 {
        return Ok(s);
    }
    three!(code, s, 4, 12, 15, 10, 122_880);
    if level < 5 {
        return Ok(s);
    }
    three!(code, s, 5, 15, 15, 15, 8_192);
    if level < 6 {
        return Ok(s);
    }
    two!(code, s, 6, 18, 2, 4_096, 4_096);
    if level < 7 {
        return Ok(s);
    }
    three!(code, s, 7, 20, 8, 8, 512);
    if level < 8 {
        return Ok(s);
    }
    three!(code, s, 8, 23, 8, 8, 64);
    if level < 9 {
        return Ok(s);
    }
    three!(code, s, 9, 26, 8, 8, 8);
    if level < 10 {
        return Ok(s);
    }
    three!(code, s, 10, 29, 8, 8, 1);
    Ok(s)
}

/// The reader of one edition.
#[inline(always)]
fn read_in<E: Edition>(code: &[u8]) -> Result<Cell, Refusal> {
    let level = level_of(code.len());
    if level == 0 {
        return Err(Refusal::new(6, 0));
    }
    let south = match code[0] {
        b'N' => false,
        b'S' => true,
        _ => return Err(Refusal::wrong(code, 0)),
    };
    let below = digit!(code, 1, 2) == 1;
    let z = two_digits!(code, 2, 60);
    if z == 0 {
        return Err(Refusal::new(REFUSED_POLAR, 0));
    }
    let row = digit!(code, 4, 32);
    if row < 10 {
        return Err(Refusal::wrong(code, 4));
    }
    let west = z < 31;
    let x = if west { 30 - z } else { z - 31 } * 44_236_800;
    let h = E::part(two_digits!(code, 5, 63), 1);
    let s = rest::<E>(code, level, Sum { x, y: (row - 10) * 29_491_200, h })?;
    Ok(Cell { plane: cell(level, west, south, s.x, s.y), floor: E::floor(below, s.h), thickness: E::THICKNESSES[level] })
}

#[inline(never)]
pub fn read(edition: i64, code: &[u8]) -> Result<Cell, Refusal> {
    match edition {
        1 => read_in::<Edition1>(code),
        2 => read_in::<Edition2>(code),
        _ => Err(Refusal::new(13, 0)),
    }
}
