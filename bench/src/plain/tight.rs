//! A second plain reader, tighter than the first: digits by a table, and one test at the end for all that may be wrong. Only where something is
//! does the first reader look for the place.

use super::plane::{cell, plane_read, Cell};
use super::Refusal;

/// Each byte's digit, 32 where it is no code character.
static DIGITS: [u8; 256] = digits();

/// The level of the codes of each length, 0 where there is none.
static LEVELS: [u8; 21] = [0, 0, 0, 0, 1, 0, 2, 3, 0, 4, 0, 5, 6, 0, 7, 0, 8, 0, 9, 0, 10];

const fn digits() -> [u8; 256] {
    let mut table = [32; 256];
    let mut v = 0;
    while v < 32 {
        table[if v < 10 { 48 + v } else { 55 + v }] = v as u8;
        v += 1;
    }
    table
}

/// How far a code has been read. The highest bit of `wrong` is set once a digit was not below its bound.
struct Sum {
    x: u32,
    y: u32,
    wrong: u32,
}

impl Sum {
    #[inline(always)]
    fn digit(&mut self, b: u8, bound: u32) -> u32 {
        let v = DIGITS[b as usize] as u32;
        self.wrong |= (bound - 1).wrapping_sub(v);
        v
    }

    #[inline(always)]
    fn pair(&mut self, code: &[u8], place: usize, columns: u32, rows: u32, size: u32) {
        self.x = self.x.wrapping_add(self.digit(code[place], columns) * size);
        self.y = self.y.wrapping_add(self.digit(code[place + 1], rows) * size);
    }

    #[inline(always)]
    fn single(&mut self, code: &[u8], place: usize, rows: u32, width: u32, height: u32) {
        let v = self.digit(code[place], 2 * rows);
        self.x = self.x.wrapping_add(v % 2 * width);
        self.y = self.y.wrapping_add(v / 2 * height);
    }

    /// Level 1: the zone of two decimal digits, and the row letter. A zone of 0 is polar, and counts as wrong here.
    #[inline(always)]
    fn first(code: &[u8]) -> (Sum, bool, bool) {
        let (north, south) = (code[0] == b'N', code[0] == b'S');
        let mut s = Sum { x: 0, y: 0, wrong: ((north | south) as u32).wrapping_sub(1) };
        let z = 10 * s.digit(code[1], 7) + s.digit(code[2], 10);
        let row = s.digit(code[3], 32).wrapping_sub(10);
        let west = z < 31;
        let column = if west { 30u32.wrapping_sub(z) } else { z - 31 };
        s.wrong |= z.wrapping_sub(1) | 60u32.wrapping_sub(z) | row;
        s.x = column.wrapping_mul(44_236_800);
        s.y = row.wrapping_mul(29_491_200);
        (s, west, south)
    }

    /// The levels after the first that the code has.
    #[inline(always)]
    fn rest(&mut self, level: usize, code: &[u8]) {
        if level < 2 {
            return;
        }
        self.pair(code, 4, 12, 8, 3_686_400);
        if level < 3 {
            return;
        }
        self.single(code, 6, 3, 1_843_200, 1_228_800);
        if level < 4 {
            return;
        }
        self.pair(code, 7, 15, 10, 122_880);
        if level < 5 {
            return;
        }
        self.pair(code, 9, 15, 15, 8_192);
        if level < 6 {
            return;
        }
        self.single(code, 11, 2, 4_096, 4_096);
        for (place, size) in [(12, 512), (14, 64), (16, 8), (18, 1)] {
            if code.len() <= place {
                return;
            }
            self.pair(code, place, 8, 8, size);
        }
    }
}

#[inline(never)]
pub fn read(code: &[u8]) -> Result<Cell, Refusal> {
    let level = if code.len() < 21 { LEVELS[code.len()] as usize } else { 0 };
    if level == 0 {
        return Err(Refusal::new(6, 0));
    }
    let (mut s, west, south) = Sum::first(code);
    s.rest(level, code);
    if s.wrong >> 31 == 0 {
        Ok(cell(level, west, south, s.x, s.y))
    } else {
        plane_read(code)
    }
}
