//! Numbers at and around edges: of cells, of ranges, of machine numbers.

use super::{near_edge, Random, HEIGHTS, WIDTHS};
use crate::plane::{self, DEGREE, LATITUDE, LONGITUDE, POLAR_INDEX, SOUTH, TURN, WEST};
use crate::space::Edition;

/// Adds a number and its neighbours.
fn around(list: &mut Vec<i64>, number: i64) {
    list.extend([number - 1, number, number + 1]);
}

fn tidy(mut list: Vec<i64>, range: (i64, i64)) -> Vec<i64> {
    list.retain(|&number| plane::within(number, range));
    list.sort_unstable();
    list.dedup();
    list
}

/// Longitudes of squares at the edges of columns of every kind.
pub fn edge_longitudes() -> Vec<i64> {
    let mut list = Vec::new();
    for zone in -30..=30 {
        around(&mut list, zone * 6 * DEGREE);
    }
    for eighth in -4..=4 {
        around(&mut list, eighth * 45 * DEGREE);
    }
    for width in WIDTHS {
        for edge in [0, TURN / 2] {
            around(&mut list, edge + width);
            around(&mut list, edge - width);
            around(&mut list, -edge + width);
        }
    }
    tidy(list, WEST)
}

/// Latitudes of squares at the edges of rows of every kind: each letter, 88°,
/// 88°30', 89°, 89°30', each cap, the poles.
pub fn edge_latitudes() -> Vec<i64> {
    let mut list = Vec::new();
    for row in 0..=22 {
        around(&mut list, row * 4 * DEGREE);
    }
    for halves in 176..=180 {
        around(&mut list, halves * DEGREE / 2);
    }
    for height in HEIGHTS {
        around(&mut list, height);
        around(&mut list, POLAR_INDEX - height);
        around(&mut list, POLAR_INDEX + height);
        around(&mut list, 89 * DEGREE - height);
        around(&mut list, 90 * DEGREE - height);
        around(&mut list, 90 * DEGREE - 2 * height);
    }
    let below: Vec<i64> = list.iter().map(|latitude| -latitude).collect();
    list.extend(below);
    tidy(list, SOUTH)
}

/// Thicknesses of the height cells of levels 1 to 10.
fn thicknesses(edition: Edition) -> [i64; 10] {
    match edition {
        Edition::Ours => [29_491_200, 3_686_400, 1_843_200, 122_880, 8_192, 4_096, 512, 64, 8, 1],
        Edition::Theirs => [25, 22, 21, 17, 13, 12, 9, 6, 3, 0].map(|bits| 1 << bits),
    }
}

/// Layers at the edges of the height cells of every level.
pub fn edge_layers(edition: Edition) -> Vec<i64> {
    let (least, greatest) = edition.layers();
    let mut list = Vec::new();
    around(&mut list, 0);
    around(&mut list, least + 1);
    around(&mut list, greatest - 1);
    for thickness in thicknesses(edition) {
        for count in [1, 2, 3, 7, 8, 14, 15, 16, 63, 64] {
            around(&mut list, thickness * count);
            around(&mut list, -thickness * count);
            around(&mut list, least + thickness * count);
        }
    }
    tidy(list, (least, greatest))
}

/// A layer: any, or near an edge of a height cell.
pub fn layer(random: &mut Random, edition: Edition) -> i64 {
    let (least, greatest) = edition.layers();
    if random.one_in(2) {
        return random.between(least, greatest);
    }
    let thickness = random.pick(&thicknesses(edition));
    let edge = thickness * random.between(least / thickness, greatest / thickness);
    (edge + random.between(-1, 1)).clamp(least, greatest)
}

/// An edition's number; now and then one that names none.
pub fn edition(random: &mut Random) -> i64 {
    match random.below(16) {
        0 => random.pick(&ODD_EDITIONS),
        1 => outside(random, (1, 2)),
        _ => random.between(1, 2),
    }
}

/// Numbers that name no edition, some of which would if they were cut to 8, 16
/// or 32 bits.
pub const ODD_EDITIONS: [i64; 14] = [
    0,
    -1,
    -2,
    3,
    (1 << 8) + 1,
    (1 << 16) + 2,
    (1 << 31) + 1,
    (1 << 32) + 1,
    (1 << 32) + 2,
    (-1 << 32) + 1,
    i64::MIN,
    i64::MIN + 1,
    i64::MAX - 1,
    i64::MAX,
];

/// One below, at and one above both ends of a range.
pub fn ends((least, greatest): (i64, i64)) -> Vec<i64> {
    let mut list = Vec::new();
    around(&mut list, least);
    around(&mut list, greatest);
    list
}

/// The same of both editions' layers, and layers about the ground.
pub fn end_layers() -> Vec<i64> {
    Edition::BOTH.into_iter().flat_map(|edition| ends(edition.layers())).chain([-1, 0, 1]).collect()
}

/// An end of a range, or a number up to two away from it.
pub fn near_end(random: &mut Random, (least, greatest): (i64, i64)) -> i64 {
    random.pick(&[least, greatest]) + random.between(-2, 2)
}

/// Numbers around a range's ends and around the ends of machine numbers, some
/// of which would fall into the range if they were cut to 32 bits.
pub fn extremes(range: (i64, i64)) -> Vec<i64> {
    let mut list = vec![i64::MIN, i64::MIN + 1, i64::MAX - 1, i64::MAX];
    for number in [range.0, range.1, 0] {
        around(&mut list, number);
        around(&mut list, -number);
        list.extend([number + (1 << 32), number - (1 << 32)]);
        list.extend([number + (1 << 16), number + (1 << 8)]);
    }
    for bits in [31, 32, 62] {
        around(&mut list, 1 << bits);
        around(&mut list, -(1 << bits));
    }
    list.sort_unstable();
    list.dedup();
    list
}

/// A number outside the range.
pub fn outside(random: &mut Random, range: (i64, i64)) -> i64 {
    loop {
        let number = match random.below(4) {
            0 => range.0 - random.between(1, 3),
            1 => range.1 + random.between(1, 3),
            2 => random.draw() as i64,
            _ => random.between(range.0, range.1) + (random.between(-2, 2) << 32),
        };
        if !plane::within(number, range) {
            return number;
        }
    }
}

/// A level, a longitude and a latitude, each often outside its range or near an
/// end of it.
pub fn odd_position(random: &mut Random) -> (i64, i64, i64) {
    let (longitude, latitude) = near_edge(random);
    let level = random.between(1, 10);
    let mut odd = |number, range| match random.below(6) {
        0 | 1 => outside(random, range),
        2 => near_end(random, range),
        _ => number,
    };
    (odd(level, (1, 10)), odd(longitude, LONGITUDE), odd(latitude, LATITUDE))
}

/// The length of a level's codes; of the nearest level's where there is no such level.
pub fn length_of(level: i64, lengths: &[usize; 10]) -> usize {
    lengths[level.clamp(1, 10) as usize - 1]
}
