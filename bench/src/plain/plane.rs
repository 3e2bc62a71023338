//! Plane codes of ordinary cells, written and read by hand: straight-line functions with constant divisors. Other plain functions are over these.

use super::{refuse, Refusal, REFUSED_POLAR};

#[derive(Clone, Copy, PartialEq, Debug)]
pub struct Cell {
    pub level: u32,
    pub west: i32,
    pub south: i32,
    pub width: u32,
    pub height: u32,
}

#[derive(Clone, Copy, PartialEq, Debug)]
pub struct Box {
    pub west: f64,
    pub south: f64,
    pub width: f64,
    pub height: f64,
}

pub const LENGTHS: [usize; 11] = [0, 4, 6, 7, 9, 11, 12, 14, 16, 18, 20];
pub const WIDTHS: [u32; 11] = [0, 44_236_800, 3_686_400, 1_843_200, 122_880, 8_192, 4_096, 512, 64, 8, 1];
const HEIGHTS: [u32; 11] = [0, 29_491_200, 3_686_400, 1_228_800, 122_880, 8_192, 4_096, 512, 64, 8, 1];

#[inline(always)]
pub fn index(u: i64) -> u64 {
    (u ^ (u >> 63)) as u64
}

#[inline(always)]
pub fn hex(v: u32) -> u8 {
    (if v < 10 { 48 + v } else { 55 + v }) as u8
}

/// The plane code's characters after the checks; `out` has room for the level's length.
#[inline(always)]
pub fn put(level: usize, west: bool, south: bool, x: u32, y: u32, out: &mut [u8]) {
    let out = &mut out[..LENGTHS[level]];
    let c = x / 44_236_800;
    let z = if west { 30 - c } else { 31 + c };
    out[0] = if south { b'S' } else { b'N' };
    out[1] = (48 + z / 10) as u8;
    out[2] = (48 + z % 10) as u8;
    out[3] = (65 + y / 29_491_200) as u8;
    if level < 2 {
        return;
    }
    out[4] = hex(x / 3_686_400 % 12);
    out[5] = hex(y / 3_686_400 % 8);
    if level < 3 {
        return;
    }
    out[6] = hex(2 * (y / 1_228_800 % 3) + x / 1_843_200 % 2);
    if level < 4 {
        return;
    }
    out[7] = hex(x / 122_880 % 15);
    out[8] = hex(y / 122_880 % 10);
    if level < 5 {
        return;
    }
    out[9] = hex(x / 8_192 % 15);
    out[10] = hex(y / 8_192 % 15);
    if level < 6 {
        return;
    }
    out[11] = hex(2 * (y / 4_096 % 2) + x / 4_096 % 2);
    if level < 7 {
        return;
    }
    out[12] = hex(x / 512 % 8);
    out[13] = hex(y / 512 % 8);
    if level < 8 {
        return;
    }
    out[14] = hex(x / 64 % 8);
    out[15] = hex(y / 64 % 8);
    if level < 9 {
        return;
    }
    out[16] = hex(x / 8 % 8);
    out[17] = hex(y / 8 % 8);
    if level < 10 {
        return;
    }
    out[18] = hex(x % 8);
    out[19] = hex(y % 8);
}

/// Whether a position's numbers are a unit square's.
#[inline(always)]
pub fn on_globe(x: u64, y: u64) -> bool {
    x < 1_327_104_000 && y < 663_552_000
}

/// The unit square of a position whose numbers are none: 180° is -180°, 90° is the unit south of it, and everything else is refused.
pub fn at_an_end(longitude: i64, latitude: i64) -> Result<(i64, i64), Refusal> {
    let longitude = if longitude == 1_327_104_000 { -1_327_104_000 } else { longitude };
    let latitude = if latitude == 663_552_000 { 663_551_999 } else { latitude };
    if index(longitude) >= 1_327_104_000 {
        return refuse(2);
    }
    if index(latitude) >= 663_552_000 {
        return refuse(3);
    }
    Ok((longitude, latitude))
}

#[cold]
#[inline(never)]
fn plane_write_at_an_end(level: i64, longitude: i64, latitude: i64, line: &mut [u8], at: usize) -> Result<usize, Refusal> {
    let (longitude, latitude) = at_an_end(longitude, latitude)?;
    plane_write(level, longitude, latitude, line, at)
}

#[inline(never)]
pub fn plane_write(level: i64, longitude: i64, latitude: i64, line: &mut [u8], at: usize) -> Result<usize, Refusal> {
    if !(1..=10).contains(&level) {
        return refuse(1);
    }
    let (x, y) = (index(longitude), index(latitude));
    if !on_globe(x, y) {
        return plane_write_at_an_end(level, longitude, latitude, line, at);
    }
    let n = LENGTHS[level as usize];
    if at > line.len() || line.len() - at < n {
        return refuse(5);
    }
    if y >= 648_806_400 {
        return refuse(REFUSED_POLAR);
    }
    put(level as usize, longitude < 0, latitude < 0, x as u32, y as u32, &mut line[at..]);
    Ok(n)
}

#[inline(always)]
pub fn value(b: u8) -> u32 {
    match b {
        b'0'..=b'9' => (b - 48) as u32,
        b'A'..=b'V' => (b - 55) as u32,
        _ => 32,
    }
}

#[inline(always)]
fn level_of(n: usize) -> usize {
    match n {
        4 => 1,
        6 => 2,
        7 => 3,
        9 => 4,
        11 => 5,
        12 => 6,
        14 => 7,
        16 => 8,
        18 => 9,
        20 => 10,
        _ => 0,
    }
}

macro_rules! digit {
    ($code:ident, $place:expr, $bound:expr) => {{
        let v = if $bound <= 10 { $code[$place].wrapping_sub(48) as u32 } else { value($code[$place]) };
        if v >= $bound {
            return Err(Refusal::wrong($code, $place));
        }
        v
    }};
}

macro_rules! pair {
    ($code:ident, $x:ident, $y:ident, $place:expr, $cols:expr, $rows:expr, $w:expr, $h:expr) => {{
        $x += digit!($code, $place, $cols) * $w;
        $y += digit!($code, $place + 1, $rows) * $h;
    }};
}

macro_rules! single {
    ($code:ident, $x:ident, $y:ident, $place:expr, $rows:expr, $w:expr, $h:expr) => {{
        let v = digit!($code, $place, 2 * $rows);
        $x += v % 2 * $w;
        $y += v / 2 * $h;
    }};
}

#[inline(always)]
fn read_rest(code: &[u8], level: usize, x: &mut u32, y: &mut u32) -> Result<(), Refusal> {
    let (mut a, mut b) = (*x, *y);
    let code = &code[..LENGTHS[level]];
    'done: {
        if level < 2 {
            break 'done;
        }
        pair!(code, a, b, 4, 12, 8, 3_686_400, 3_686_400);
        if level < 3 {
            break 'done;
        }
        single!(code, a, b, 6, 3, 1_843_200, 1_228_800);
        if level < 4 {
            break 'done;
        }
        pair!(code, a, b, 7, 15, 10, 122_880, 122_880);
        if level < 5 {
            break 'done;
        }
        pair!(code, a, b, 9, 15, 15, 8_192, 8_192);
        if level < 6 {
            break 'done;
        }
        single!(code, a, b, 11, 2, 4_096, 4_096);
        if level < 7 {
            break 'done;
        }
        pair!(code, a, b, 12, 8, 8, 512, 512);
        if level < 8 {
            break 'done;
        }
        pair!(code, a, b, 14, 8, 8, 64, 64);
        if level < 9 {
            break 'done;
        }
        pair!(code, a, b, 16, 8, 8, 8, 8);
        if level < 10 {
            break 'done;
        }
        pair!(code, a, b, 18, 8, 8, 1, 1);
    }
    *x = a;
    *y = b;
    Ok(())
}

#[inline(always)]
pub fn cell(level: usize, west: bool, south: bool, x: u32, y: u32) -> Cell {
    let (w, h) = (WIDTHS[level], HEIGHTS[level]);
    Cell {
        level: level as u32,
        west: if west { -((x + w) as i32) } else { x as i32 },
        south: if south { -((y + h) as i32) } else { y as i32 },
        width: w,
        height: h,
    }
}

/// The reader, compiled into each of its callers.
#[inline(always)]
pub fn read(code: &[u8]) -> Result<Cell, Refusal> {
    let level = level_of(code.len());
    if level == 0 {
        return Err(Refusal::new(6, 0));
    }
    let south = match code[0] {
        b'N' => false,
        b'S' => true,
        _ => return Err(Refusal::wrong(code, 0)),
    };
    let tens = digit!(code, 1, 7);
    let ones = digit!(code, 2, 10);
    let z = 10 * tens + ones;
    if z > 60 {
        return Err(Refusal::wrong(code, 2));
    }
    if z == 0 {
        return Err(Refusal::new(REFUSED_POLAR, 0));
    }
    let row = digit!(code, 3, 32);
    if row < 10 {
        return Err(Refusal::wrong(code, 3));
    }
    let west = z < 31;
    let mut x = if west { 30 - z } else { z - 31 } * 44_236_800;
    let mut y = (row - 10) * 29_491_200;
    read_rest(code, level, &mut x, &mut y)?;
    Ok(cell(level, west, south, x, y))
}

#[inline(never)]
pub fn plane_read(code: &[u8]) -> Result<Cell, Refusal> {
    read(code)
}

#[inline(never)]
pub fn plane_box(code: &[u8]) -> Result<Box, Refusal> {
    let cell = read(code)?;
    Ok(Box {
        west: cell.west as f64 / 2048.0,
        south: cell.south as f64 / 2048.0,
        width: cell.width as f64 / 2048.0,
        height: cell.height as f64 / 2048.0,
    })
}
