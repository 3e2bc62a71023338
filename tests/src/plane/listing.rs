//! The plain oracle: lists all cells that a cell is divided into, with their
//! characters, in the document's words. A writer looks for the listed cell
//! that holds the square, a reader for the listed cell whose characters agree.
//! Slow, and no slip reaches it.

use super::{PlaneCell, Region, DEGREE, LENGTHS, TURN};
use crate::refusals::{refusal, Refusal};
use std::collections::BTreeSet;
use std::sync::OnceLock;

/// A cell with the characters that its own level adds. `west` is taken
/// eastward from the prime meridian, 0 to a turn less one.
#[derive(Clone, Copy, Debug)]
pub struct Listed {
    text: [u8; 4],
    count: usize,
    pub region: Region,
    pub north: bool,
    pub level: usize,
    pub west: i64,
    pub south: i64,
    pub width: i64,
    pub height: i64,
}

impl Listed {
    pub fn text(&self) -> &[u8] {
        &self.text[..self.count]
    }

    pub fn holds(&self, eastward: i64, latitude: i64) -> bool {
        self.west <= eastward && eastward < self.west + self.width && self.south <= latitude && latitude < self.south + self.height
    }

    pub fn cell(&self) -> PlaneCell {
        let west = if self.west < TURN / 2 { self.west } else { self.west - TURN };
        PlaneCell {
            level: self.level as u32,
            west: west as i32,
            south: self.south as i32,
            width: self.width as u32,
            height: self.height as u32,
        }
    }

    /// A cell of the next level: its region, characters, column strip (west
    /// edge and width), and the rows of `height` from the row that touches the
    /// equator's side (`toward_pole`) or the pole's side.
    fn below(&self, region: Region, text: &[u8], strip: (i64, i64), row: (i64, i64), toward_pole: bool) -> Listed {
        let (number, height) = row;
        let south = if self.north == toward_pole { self.south + number * height } else { self.south + self.height - (number + 1) * height };
        let mut held = [0; 4];
        held[..text.len()].copy_from_slice(text);
        Listed {
            text: held,
            count: text.len(),
            region,
            north: self.north,
            level: self.level + 1,
            west: strip.0,
            south,
            width: strip.1,
            height,
        }
    }
}

const CHARACTERS: &[u8; 15] = b"0123456789ABCDE";

fn character(number: i64) -> u8 {
    CHARACTERS[number as usize]
}

/// "Two characters are column, then row. One character is 2·row + column." The characters, and how many they are.
fn characters(level: usize, column: i64, row: i64) -> ([u8; 2], usize) {
    match level {
        3 | 6 => ([character(2 * row + column), 0], 1),
        _ => ([character(column), character(row)], 2),
    }
}

/// Columns x rows of an ordinary cell at levels 2 to 10.
fn ordinary_split(level: usize) -> (i64, i64) {
    match level {
        2 => (12, 8),
        3 => (2, 3),
        4 => (15, 10),
        5 => (15, 15),
        6 => (2, 2),
        _ => (8, 8),
    }
}

/// Of a belt cell at levels 3 to 10: "2 x 2, 15 x 15, 15 x 15, 2 x 2, then
/// 8 x 8 four times".
fn polar_split(level: usize) -> (i64, i64) {
    match level {
        3 | 6 => (2, 2),
        4 | 5 => (15, 15),
        _ => (8, 8),
    }
}

/// Level 1: both polar cells, and 60 zones by 22 letters on each side of the
/// equator.
pub fn first_level() -> &'static [Listed] {
    static LIST: OnceLock<Vec<Listed>> = OnceLock::new();
    LIST.get_or_init(|| {
        let mut list = Vec::new();
        for (letter, north) in [(b'N', true), (b'S', false)] {
            let whole = Listed {
                text: [letter, b'0', b'0', b'0'],
                count: 4,
                region: Region::Pole,
                north,
                level: 1,
                west: 0,
                south: if north { 88 * DEGREE } else { -90 * DEGREE },
                width: TURN,
                height: 2 * DEGREE,
            };
            list.push(whole);
            for zone in 1..=60i64 {
                for row in 0..22i64 {
                    let degrees = (zone - 31) * 6;
                    let eastward = if degrees < 0 { degrees + 360 } else { degrees };
                    let south = if north { 4 * row } else { -4 * (row + 1) };
                    let (tens, ones) = (b'0' + (zone / 10) as u8, b'0' + (zone % 10) as u8);
                    list.push(Listed {
                        text: [letter, tens, ones, b'A' + row as u8],
                        region: Region::Ordinary,
                        west: eastward * DEGREE,
                        south: south * DEGREE,
                        width: 6 * DEGREE,
                        height: 4 * DEGREE,
                        ..whole
                    });
                }
            }
        }
        list
    })
}

/// "Whether a character belongs to no code or is misplaced": whether a code of
/// level 1 has it somewhere. Finer codes add no other character.
pub fn belongs(character: u8) -> bool {
    static SEEN: OnceLock<BTreeSet<u8>> = OnceLock::new();
    SEEN.get_or_init(|| first_level().iter().flat_map(|cell| cell.text().to_vec()).collect()).contains(&character)
}

/// All cells that this cell is divided into.
pub fn children(of: &Listed) -> Vec<Listed> {
    match of.region {
        Region::Ordinary => grid(of, ordinary_split(of.level + 1)),
        Region::Belt | Region::Disc => grid(of, polar_split(of.level + 1)),
        Region::Pole => pole(of),
        Region::Cap => cap(of),
    }
}

/// An even division. Ordinary and belt: columns away from the prime meridian,
/// rows away from the equator. Disc: columns eastward, rows from the pole.
fn grid(of: &Listed, (columns, rows): (i64, i64)) -> Vec<Listed> {
    let (width, height) = (of.width / columns, of.height / rows);
    assert!(width * columns == of.width && height * rows == of.height);
    let disc = of.region == Region::Disc;
    let in_the_west = of.west >= TURN / 2;
    let mut list = Vec::with_capacity((columns * rows) as usize);
    for row in 0..rows {
        for column in 0..columns {
            let west = if in_the_west && !disc { of.west + of.width - (column + 1) * width } else { of.west + column * width };
            let (text, count) = characters(of.level + 1, column, row);
            list.push(of.below(of.region, &text[..count], (west, width), (row, height), !disc));
        }
    }
    list
}

/// Level 2 of N000 and S000: twelve belt cells, the cap, and 01, 02, 03.
fn pole(of: &Listed) -> Vec<Listed> {
    const BELT: [(&[u8; 2], i64); 12] = [
        (b"10", 0),
        (b"12", 0),
        (b"11", 60),
        (b"13", 60),
        (b"20", 120),
        (b"22", 120),
        (b"21", 180),
        (b"23", 180),
        (b"30", 300),
        (b"32", 300),
        (b"31", 240),
        (b"33", 240),
    ];
    let half = DEGREE / 2;
    let mut list = Vec::new();
    for (text, degrees) in BELT {
        // "Second digit 0 or 1 is the half farther from the pole."
        let row = if text[1] <= b'1' { 0 } else { 1 };
        let strip = (degrees * DEGREE, 60 * DEGREE);
        list.push(of.below(Region::Belt, text, strip, (row, half), true));
    }
    list.push(of.below(Region::Cap, b"00", (0, TURN), (0, half), false));
    for (text, degrees) in [(b"01", 0), (b"02", 120), (b"03", 240)] {
        let strip = (degrees * DEGREE, 120 * DEGREE);
        list.push(of.below(Region::Disc, text, strip, (1, half), false));
    }
    list
}

/// The division of a cap at levels 3 to 10: the new cap, and the rows around
/// it in columns eastward.
fn cap(of: &Listed) -> Vec<Listed> {
    let level = of.level + 1;
    let (columns, rows) = match level {
        3 => (3, 2),
        4 | 5 => (15, 15),
        6 => (2, 2),
        _ => (8, 8),
    };
    let (width, height) = (TURN / columns, of.height / rows);
    assert!(width * columns == TURN && height * rows == of.height);
    let new_cap: &[u8] = if level == 3 || level == 6 { b"0" } else { b"00" };
    let mut list = vec![of.below(Region::Cap, new_cap, (0, TURN), (0, height), false)];
    for row in 1..rows {
        for column in 0..columns {
            let (text, count) = match level {
                3 => ([character(1 + column), 0], 1),
                _ => characters(level, column, row),
            };
            let strip = (column * width, width);
            list.push(of.below(Region::Disc, &text[..count], strip, (row, height), false));
        }
    }
    list
}

/// The code of the cell of this level, 1 to 10, that holds the square.
pub fn code(level: usize, longitude: i64, latitude: i64) -> (Vec<u8>, PlaneCell) {
    let eastward = super::eastward(longitude);
    let mut text = Vec::with_capacity(20);
    let mut at = the_one(first_level(), eastward, latitude);
    text.extend_from_slice(at.text());
    while at.level < level {
        at = the_one(&children(&at), eastward, latitude);
        text.extend_from_slice(at.text());
    }
    (text, at.cell())
}

/// "Squares" lie in one listed cell each.
fn the_one(list: &[Listed], eastward: i64, latitude: i64) -> Listed {
    let mut found = list.iter().filter(|part| part.holds(eastward, latitude));
    let one = *found.next().expect("no listed cell holds the square");
    assert!(found.next().is_none(), "two listed cells hold the square");
    one
}

/// Whole-code reader by the lists: the first place at which no listed cell's
/// characters agree is the bad one.
pub fn read(code: &[u8]) -> Result<PlaneCell, Refusal> {
    if !LENGTHS.contains(&code.len()) {
        return Err(refusal(6));
    }
    let mut place = 0;
    let mut agreed = agreeing(first_level(), code, &mut place)?;
    while place < code.len() {
        agreed = agreeing(&children(&agreed), code, &mut place)?;
    }
    Ok(agreed.cell())
}

fn agreeing(list: &[Listed], code: &[u8], place: &mut usize) -> Result<Listed, Refusal> {
    let rest = &code[*place..];
    let count = list[0].text().len();
    for seen in 1..=count {
        let agree = |part: &&Listed| part.text().iter().zip(rest).take(seen).all(|(one, other)| one == other);
        match list.iter().find(agree) {
            Some(found) if seen == count => {
                *place += count;
                return Ok(*found);
            }
            Some(_) => {}
            None => {
                let number = if belongs(rest[seen - 1]) { 20 } else { 7 };
                return Err(Refusal { number, ordinal: 1, place: (*place + seen - 1) as u64 });
            }
        }
    }
    unreachable!("a listed cell has characters")
}
