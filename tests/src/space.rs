//! Space codes: "N or S, the sign, then for each level its plane characters
//! followed by its height character or characters". In two editions (Wish 1 of
//! document 02): they differ in the height characters and in the layer range.

mod bits;
mod radices;

use crate::plane::walk::Walk;
use crate::plane::{self, refuse_level, refuse_position, square, within, PlaneCell, LONGITUDE};
use crate::refusals::{put, refusal, take_all, Refusal};
use crate::slips;

/// Lengths of the space codes of levels 1 to 10.
pub const LENGTHS: [usize; 10] = [7, 10, 12, 15, 18, 20, 23, 26, 29, 32];
/// Whose turn it is at each place: p plane, s sign, t and h height (t the
/// first of two digits).
pub const TURNS: &[u8; 32] = b"pspppthpphphpphpphphpphpphpphpph";

/// "The caller names the edition, 1 ours, 2 theirs."
#[derive(Clone, Copy, Debug, PartialEq, Eq, PartialOrd, Ord)]
pub enum Edition {
    Ours = 1,
    Theirs = 2,
}

impl Edition {
    pub const BOTH: [Edition; 2] = [Edition::Ours, Edition::Theirs];

    /// Refusal 13: "edition neither 1 nor 2".
    pub fn named(number: i64) -> Result<Edition, Refusal> {
        match number {
            1 => Ok(Edition::Ours),
            2 => Ok(Edition::Theirs),
            _ => Err(refusal(13)),
        }
    }

    /// The least and the greatest layer.
    pub fn layers(self) -> (i64, i64) {
        match self {
            Edition::Ours => (-1_887_436_800, 1_887_436_799),
            Edition::Theirs => (-2_147_483_648, 2_147_483_647),
        }
    }

    /// The sign and the eleven height characters of a layer in its range.
    fn heights(self, layer: i64) -> [u8; 12] {
        match self {
            Edition::Ours => radices::heights(layer),
            Edition::Theirs => bits::heights(layer),
        }
    }
}

/// "A space cell adds layer floor and thickness."
#[derive(Clone, Copy, Debug, Default, PartialEq, Eq)]
pub struct SpaceCell {
    pub plane: PlaneCell,
    pub floor: i32,
    pub thickness: u32,
}

pub fn level_of(length: usize) -> Option<u32> {
    let at = LENGTHS.iter().position(|&of_level| of_level == length)?;
    Some(at as u32 + 1)
}

/// The level 10 code of a square and a layer in its range.
pub fn finest(edition: Edition, (longitude, latitude): (i64, i64), layer: i64) -> [u8; 32] {
    let (flat, high) = (plane::write::finest(longitude, latitude), edition.heights(layer));
    let (mut flat, mut high) = (flat.into_iter(), high.into_iter());
    let mut code = TURNS.map(|turn| match turn {
        b'p' => flat.next().expect("20 plane characters"),
        _ => high.next().expect("12 height characters"),
    });
    match slips::current() {
        slips::SIGN_FIRST => code.swap(0, 1),
        slips::HEIGHT_ONE_PLACE_OFF => code.swap(18, 19),
        slips::TENS_OVERWRITTEN => code[5] = code[6],
        _ => {}
    }
    code
}

/// Position writer: refusals 1, 13, 2, 3, 4, 5.
pub fn write(edition: i64, level: i64, longitude: i64, latitude: i64, layer: i64, line: &mut [u8], at: usize) -> Result<usize, Refusal> {
    let named = Edition::named(edition);
    if slips::on(slips::EDITION_BEFORE_LEVEL) {
        named?;
    }
    refuse_level(level)?;
    if slips::on(slips::EDITION_AFTER_LONGITUDE) && !within(longitude, LONGITUDE) {
        return Err(refusal(2));
    }
    let edition = named?;
    refuse_position(longitude, latitude)?;
    let length = LENGTHS[level as usize - 1];
    if slips::on(slips::LINE_BEFORE_LAYER) && line.len().saturating_sub(at) < length {
        return Err(refusal(5));
    }
    let range = if slips::on(slips::EDITION_1_LAYERS) { Edition::Ours } else { edition }.layers();
    if !within(layer, range) {
        return Err(refusal(4));
    }
    put(&finest(edition, square(longitude, latitude), layer)[..length], line, at)
}

/// The height characters read so far, of either edition.
#[derive(Clone, Copy)]
enum Heights {
    Ours(radices::Heights),
    Theirs(bits::Heights),
}

impl Heights {
    fn start(edition: Edition) -> Heights {
        match edition {
            Edition::Ours => Heights::Ours(radices::Heights::start()),
            Edition::Theirs => Heights::Theirs(bits::Heights::start()),
        }
    }

    fn take(self, character: u8) -> Option<Heights> {
        match self {
            Heights::Ours(heights) => heights.take(character).map(Heights::Ours),
            Heights::Theirs(heights) => heights.take(character).map(Heights::Theirs),
        }
    }

    fn layers(self) -> (i32, u32) {
        match self {
            Heights::Ours(heights) => heights.layers(),
            Heights::Theirs(heights) => heights.layers(),
        }
    }
}

/// A space code in reading: the plane walk, and the heights so far.
#[derive(Clone, Copy)]
struct SpaceWalk {
    plane: Walk,
    heights: Heights,
}

impl SpaceWalk {
    fn take(self, turn: u8, character: u8) -> Option<SpaceWalk> {
        Some(match turn {
            b'p' => SpaceWalk { plane: self.plane.take(character)?, ..self },
            _ => SpaceWalk { heights: self.heights.take(character)?, ..self },
        })
    }
}

/// Walks all these characters, whatever their number: the end, or the first bad
/// one's refusal.
fn whole(edition: Edition, code: &[u8]) -> Result<SpaceWalk, Refusal> {
    let start = SpaceWalk { plane: Walk::start(), heights: Heights::start(edition) };
    let take = |walk: SpaceWalk, place: usize, character| walk.take(*TURNS.get(place)?, character);
    take_all(code, start, take).map_err(|bad| Refusal { place: place(bad.place), ..bad })
}

/// A bad character's place, or a slip's.
fn place(place: u64) -> u64 {
    let before = TURNS.iter().take(place as usize);
    match slips::current() {
        slips::HEIGHT_64_AT_FIRST_DIGIT if place == 6 => 5,
        slips::PLACE_AMONG_HEIGHTS if TURNS.get(place as usize).is_some_and(|turn| *turn != b'p') => {
            before.filter(|turn| **turn != b'p').count() as u64
        }
        _ => place,
    }
}

/// The refusal of the first bad character, whatever the length.
pub fn bad(edition: Edition, code: &[u8]) -> Option<Refusal> {
    whole(edition, code).err()
}

/// The plane characters of a space code, and how many they are.
pub fn plane_part(code: &[u8]) -> ([u8; 20], usize) {
    let mut flat = [b'0'; 20];
    let characters = code.iter().zip(TURNS).filter(|(_, turn)| **turn == b'p');
    let mut length = 0;
    for (to, (character, _)) in flat.iter_mut().zip(characters) {
        *to = *character;
        length += 1;
    }
    (flat, length)
}

/// Whole-code reader: refusals 13, 6, 7 or 20.
pub fn read(edition: i64, code: &[u8]) -> Result<SpaceCell, Refusal> {
    let named = Edition::named(edition);
    if !slips::on(slips::EDITION_AFTER_LENGTH) {
        named?;
    }
    if level_of(code.len()).is_none() {
        return Err(refusal(6));
    }
    let end = whole(named?, code)?;
    let (floor, thickness) = end.heights.layers();
    Ok(SpaceCell { plane: end.plane.cell(), floor, thickness })
}
