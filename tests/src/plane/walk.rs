//! The quick reader. It takes a code character by character; each step hands
//! back where the walk then stands, or nothing where the character is not
//! allowed, given those before it.

use super::{west_of, PlaneCell, Region, DEGREE, POLAR_INDEX, TURN};
use crate::refusals::{take_all, Refusal};
use crate::slips;

/// A cell (its west edge `start` eastward, its edge on the equator's side
/// `near` as a latitude index) and the characters of the next level so far.
#[derive(Clone, Copy, Debug)]
pub struct Walk {
    region: Region,
    north: bool,
    /// The level of the cell; 0 before level 1 is whole.
    level: u32,
    /// How many characters of the next level are taken, and what they say.
    taken: u32,
    held: i64,
    start: i64,
    width: i64,
    near: i64,
    height: i64,
}

/// Columns x rows of levels 2 to 10 away from the poles, and near them.
const ORDINARY: [(i64, i64); 9] = [(12, 8), (2, 3), (15, 10), (15, 15), (2, 2), (8, 8), (8, 8), (8, 8), (8, 8)];
const POLAR: [(i64, i64); 9] = [(0, 0), (2, 2), (15, 15), (15, 15), (2, 2), (8, 8), (8, 8), (8, 8), (8, 8)];

fn number(character: u8) -> i64 {
    let lower = slips::on(slips::SMALL_LETTERS) && character.is_ascii_lowercase();
    let character = if lower { character - 32 } else { character };
    match character {
        b'0'..=b'9' => i64::from(character - b'0'),
        b'A'..=b'E' => i64::from(character - b'A') + 10,
        _ => 99,
    }
}

impl Walk {
    pub fn start() -> Walk {
        Walk { region: Region::Ordinary, north: true, level: 0, taken: 0, held: 0, start: 0, width: 0, near: 0, height: 0 }
    }

    /// Takes one more character, if it is allowed here.
    pub fn take(self, character: u8) -> Option<Walk> {
        if self.level == 0 {
            return self.first_level(character);
        }
        if self.level == 10 {
            return None;
        }
        let digit = number(character);
        let single = self.level == 2 || self.level == 5;
        match self.region {
            Region::Pole | Region::Cap if !single && self.taken == 0 => {
                let columns = match self.level {
                    1 => 4,
                    3 | 4 => 15,
                    _ => 8,
                };
                self.hold(digit, columns)
            }
            Region::Pole => self.pole(self.held, digit),
            Region::Cap => self.cap(digit),
            _ => {
                let splits = if self.region == Region::Ordinary { &ORDINARY } else { &POLAR };
                let (columns, rows) = splits[self.level as usize - 1];
                if single {
                    (digit < columns * rows).then(|| self.even(columns, rows, digit % 2, digit / 2))
                } else if self.taken == 0 {
                    self.hold(digit, columns)
                } else {
                    (digit < rows).then(|| self.even(columns, rows, self.held, digit))
                }
            }
        }
    }

    fn hold(self, digit: i64, below: i64) -> Option<Walk> {
        let held = Walk { taken: self.taken + 1, held: self.held * 10 + digit, ..self };
        (digit < below).then_some(held)
    }

    /// N or S, the zone's two digits, the letter; or 000.
    fn first_level(self, character: u8) -> Option<Walk> {
        let digit = number(character);
        match self.taken {
            0 if character == b'N' || character == b'S' => Some(Walk { taken: 1, north: character == b'N', ..self }),
            0 => None,
            1 => self.hold(digit, 7),
            2 => self.hold(digit, if self.held == 6 { 1 } else { 10 }),
            _ if self.held == 0 => (digit == 0).then_some(Walk {
                region: Region::Pole,
                level: 1,
                taken: 0,
                width: TURN,
                near: POLAR_INDEX,
                height: 2 * DEGREE,
                ..self
            }),
            _ if character.is_ascii_uppercase() && character <= b'V' => {
                let row = i64::from(character - b'A');
                let east = (self.held + 29) % 60;
                Some(Walk {
                    level: 1,
                    taken: 0,
                    held: 0,
                    start: east * 6 * DEGREE,
                    width: 6 * DEGREE,
                    near: row * 4 * DEGREE,
                    height: 4 * DEGREE,
                    ..self
                })
            }
            _ => None,
        }
    }

    fn next(self, region: Region, start: i64, width: i64, near: i64, height: i64) -> Walk {
        Walk { region, level: self.level + 1, taken: 0, held: 0, start, width, near, height, ..self }
    }

    fn even(self, columns: i64, rows: i64, column: i64, row: i64) -> Walk {
        let (width, height) = (self.width / columns, self.height / rows);
        let belt = self.region == Region::Belt;
        let disc = self.region == Region::Disc;
        let eastward = disc || self.start < TURN / 2 || (belt && slips::on(slips::BELT_COLUMNS_EASTWARD));
        let from_pole = disc || (belt && slips::on(slips::BELT_ROWS_FROM_POLE));
        let columns_west = if eastward { column } else { columns - 1 - column };
        let rows_before = if from_pole { rows - 1 - row } else { row };
        self.next(self.region, self.start + columns_west * width, width, self.near + rows_before * height, height)
    }

    /// Level 2 of N000 and S000.
    fn pole(self, first: i64, second: i64) -> Option<Walk> {
        if second > 3 {
            return None;
        }
        let half = DEGREE / 2;
        let (odd, nearer) = (second % 2, second / 2);
        let sector = match first {
            0 if second == 0 => return Some(self.next(Region::Cap, 0, TURN, self.near + 3 * half, half)),
            0 => {
                let third = TURN / 3;
                let start = (second - 1) * third;
                return Some(self.next(Region::Disc, start, third, self.near + 2 * half, half));
            }
            1 => odd,
            2 => 2 + odd,
            _ => 5 - odd,
        };
        let width = TURN / 6;
        let near = self.near + nearer * half;
        Some(self.next(Region::Belt, sector * width, width, near, half))
    }

    /// The last character of a level of a cap.
    fn cap(self, digit: i64) -> Option<Walk> {
        let (columns, rows, column, row) = match self.level + 1 {
            3 => (3, 2, (digit - 1).max(0), digit.min(1)),
            6 => (2, 2, digit % 2, digit / 2),
            4 | 5 => (15, 15, self.held, digit),
            _ => (8, 8, self.held, digit),
        };
        let any_column = match self.level + 1 {
            6 => slips::on(slips::CAP_DIGIT_1),
            _ => slips::on(slips::CAP_ROW_0_ANY_COLUMN),
        };
        if column >= columns || row >= rows || (row == 0 && column != 0 && !any_column) {
            return None;
        }
        let (width, height) = (TURN / columns, self.height / rows);
        let near = self.near + (rows - 1 - row) * height;
        if row == 0 {
            return Some(self.next(Region::Cap, 0, TURN, near, height));
        }
        Some(self.next(Region::Disc, column * width, width, near, height))
    }

    /// The cell of the whole levels so far.
    pub fn cell(self) -> PlaneCell {
        let south = if self.north { self.near } else { -(self.near + self.height) };
        let whole_turn = self.width == TURN && slips::on(slips::CAP_FROM_180);
        PlaneCell {
            level: self.level,
            west: west_of(if whole_turn { TURN / 2 } else { self.start }),
            south: south as i32,
            width: self.width as u32,
            height: self.height as u32,
        }
    }
}

/// Walks all these characters, whatever their number: the end, or the first bad
/// one's refusal.
pub fn whole(code: &[u8]) -> Result<Walk, Refusal> {
    take_all(code, Walk::start(), |walk, _, character| walk.take(character))
}
