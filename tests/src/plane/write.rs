//! The quick writer. It works the level 10 code out from the finest digit
//! upward, by repeated division; a coarser code is its beginning.

use super::{eastward, outward, DEGREE, POLAR_INDEX, TURN};
use crate::slips;

/// Place of each level's last character, and columns x rows, from level 10 up.
const ORDINARY: [(usize, i64, i64); 9] =
    [(19, 8, 8), (17, 8, 8), (15, 8, 8), (13, 8, 8), (11, 2, 2), (10, 15, 15), (8, 15, 10), (6, 2, 3), (5, 12, 8)];

/// The same for belt and disc cells, levels 10 to 3.
const POLAR: [(usize, i64, i64); 8] = [(19, 8, 8), (17, 8, 8), (15, 8, 8), (13, 8, 8), (11, 2, 2), (10, 15, 15), (8, 15, 15), (6, 2, 2)];

/// Heights of the caps of levels 2 to 10, and the columns around each.
const CAPS: [(i64, i64); 9] = [(3_686_400, 3), (1_843_200, 3), (122_880, 15), (8_192, 15), (4_096, 2), (512, 8), (64, 8), (8, 8), (1, 8)];

fn character(number: i64) -> u8 {
    b"0123456789ABCDEF"[(number & 15) as usize]
}

fn set(code: &mut [u8; 20], last: usize, column: i64, row: i64) {
    if last == 6 || last == 11 {
        code[last] = character(2 * row + column);
    } else {
        code[last - 1] = character(column);
        code[last] = character(row);
    }
}

/// Writes the digits of these levels from the finest; hands back what is left.
fn digits(code: &mut [u8; 20], splits: &[(usize, i64, i64)], mut across: i64, mut along: i64) -> (i64, i64) {
    for &(last, columns, rows) in splits {
        set(code, last, across % columns, along % rows);
        across /= columns;
        along /= rows;
    }
    (across, along)
}

/// The level 10 code of a square.
pub fn finest(longitude: i64, latitude: i64) -> [u8; 20] {
    let mut code = [b'0'; 20];
    code[0] = if latitude >= 0 { b'N' } else { b'S' };
    let index = outward(latitude);
    if index < POLAR_INDEX {
        ordinary(&mut code, longitude, index);
    } else if index < 89 * DEGREE {
        belt(&mut code, eastward(longitude), index - POLAR_INDEX);
    } else {
        let distance = (90 * DEGREE - 1 - index).max(0);
        disc(&mut code, eastward(longitude), distance);
    }
    code
}

fn ordinary(code: &mut [u8; 20], longitude: i64, index: i64) {
    let mut across = outward(longitude);
    if slips::on(slips::WEST_COLUMNS_EASTWARD) && longitude < 0 {
        let zone = across / (6 * DEGREE);
        across = zone * 6 * DEGREE + (6 * DEGREE - 1 - across % (6 * DEGREE));
    }
    let (zones, row) = digits(code, &ORDINARY, across, index);
    let zone = if longitude >= 0 { 31 + zones } else { 30 - zones };
    code[1] = character(zone / 10);
    code[2] = character(zone % 10);
    let skipped = slips::on(slips::LETTER_I_SKIPPED) && row >= 8;
    code[3] = b'A' + row as u8 + u8::from(skipped);
}

fn belt(code: &mut [u8; 20], eastward: i64, past_88: i64) {
    let sector = eastward / (60 * DEGREE);
    let (half, along) = (past_88 / (DEGREE / 2), past_88 % (DEGREE / 2));
    let (first, second) = [(1, 0), (1, 1), (2, 0), (2, 1), (3, 1), (3, 0)][sector as usize];
    code[4] = character(first);
    code[5] = character(second + 2 * half);
    let from_west = eastward % (60 * DEGREE);
    let across = if sector < 3 { from_west } else { 60 * DEGREE - 1 - from_west };
    // 60° over 2 · 15 · 15 · 2 · 8 · 8 · 8 · 8 columns: 120 units each.
    digits(code, &POLAR, across / 120, along);
}

/// `distance` is the document's q, the distance from the pole.
fn disc(code: &mut [u8; 20], eastward: i64, distance: i64) {
    // The first level whose cap no longer holds the square; before it all 0.
    let Some(left) = CAPS.iter().position(|&(height, _)| distance >= height) else {
        return;
    };
    let (height, columns) = CAPS[left];
    let width = TURN / columns;
    let (column, row) = (eastward / width, distance / height);
    let finer = &POLAR[..8 - left];
    match left {
        0 => code[5] = character(1 + column),
        1 => code[6] = character(1 + column),
        _ => set(code, POLAR[8 - left].0, column, row),
    }
    let narrow: i64 = finer.iter().map(|&(_, columns, _)| columns).product();
    let across = (eastward % width) / (width / narrow);
    digits(code, finer, across, distance % height);
}
