//! Cases of the reference writer and the reference reader.

use super::{each_length, each_room, fit, fixed, part, random, read_about, Family};
use crate::checks::Run;
use hailgully_tests::cases;
use hailgully_tests::plane::{wrap, write::finest, DEGREE, LENGTHS, POLAR_INDEX, SOUTH};
use hailgully_tests::reference::OFFSETS;

pub fn families() -> Vec<Family> {
    vec![
        fixed("reference: the document's cases", 1, document),
        fixed("reference: all offsets -8 to 8 at edges", 48, offsets),
        fixed("reference: lines and places around the fit", 12, lines),
        fixed("reference: every hyphen, M and N", 12, signs),
        fixed("reference: lengths 0 to 60", 16, lengths),
        random("reference: random offsets", 4, near),
        random("reference: random codes read", 3, read),
        random("reference: random refusals", 3, refused),
    ]
}

fn document(run: &mut Run, _: u64) {
    for code in cases::DOCUMENT_REFERENCES {
        run.reference_read(code.as_bytes(), 20, 0);
    }
}

/// Unit sizes of levels 5 to 10.
const SIZES: [i64; 6] = [8_192, 4_096, 512, 64, 8, 1];

/// Longitudes around 0°, 180° and a zone's edge; latitudes around the equator,
/// a letter's edge, and 88° on both sides.
fn corners() -> Vec<(i64, i64)> {
    let mut list = Vec::new();
    let half = 180 * DEGREE;
    for longitude in [0, -1, half - 1, -half, 6 * DEGREE, -6 * DEGREE - 1, 99 * DEGREE + 77, -12_345] {
        for latitude in [0, -1, POLAR_INDEX - 1, -POLAR_INDEX, 4 * DEGREE, -40 * DEGREE - 1, 555_555] {
            list.push((longitude, latitude));
        }
    }
    list
}

/// The square so many cells of this size away, kept within the latitudes.
fn away((longitude, latitude): (i64, i64), size: i64, east: i64, north: i64) -> (i64, i64) {
    let latitude = (latitude + north * size).clamp(SOUTH.0, SOUTH.1);
    (wrap(longitude + east * size), latitude)
}

/// A code with a hyphen, M and N after it.
fn with_offset(code: &[u8], hyphen: u8, east: u8, north: u8) -> ([u8; 23], usize) {
    let mut whole = [0; 23];
    whole[..code.len()].copy_from_slice(code);
    whole[code.len()..code.len() + 3].copy_from_slice(&[hyphen, east, north]);
    (whole, code.len() + 3)
}

fn offsets(run: &mut Run, piece: u64) {
    let level = piece as usize % 6 + 5;
    let (size, length) = (SIZES[level - 5], LENGTHS[level - 1]);
    for corner in part(&corners(), piece / 6, 8) {
        for shift in [0, 3 * size, -5 * size] {
            let start = away(corner, size, shift / size, -shift / size);
            let base = finest(start.0, start.1);
            for east in -8..=8 {
                for north in -8..=8 {
                    let there = away(start, size, east, north);
                    let target = finest(there.0, there.1);
                    run.reference_write(&base[..length], &target[..length], 30, 4);
                }
            }
            for &east in OFFSETS {
                for &north in OFFSETS {
                    let (code, whole) = with_offset(&base[..length], b'-', east, north);
                    run.reference_read(&code[..whole], 26, 1);
                }
            }
        }
    }
}

fn lines(run: &mut Run, piece: u64) {
    let level = piece as usize % 6 + 5;
    let (size, length) = (SIZES[level - 5], LENGTHS[level - 1]);
    // The second half starts just below 88°, where N = 3 gets 12.
    let start = if piece < 6 { (5, 5) } else { (-5, POLAR_INDEX - 1) };
    let base = finest(start.0, start.1);
    for (east, north) in [(3, -2), (-7, 0), (9, 0), (1, -8)] {
        let there = away(start, size, east, north);
        let target = finest(there.0, there.1);
        each_room(40, |line, at| run.reference_write(&base[..length], &target[..length], line, at));
    }
    for north in [b'3', b'B'] {
        let (code, whole) = with_offset(&base[..length], b'-', b'C', north);
        each_room(40, |line, at| run.reference_read(&code[..whole], line, at));
    }
}

fn signs(run: &mut Run, piece: u64) {
    let length = LENGTHS[piece as usize % 6 + 4];
    let places = cases::places_of_each_kind();
    let (longitude, latitude) = places[piece as usize / 6 + 1];
    let base = finest(longitude, latitude);
    for first in 0..=255 {
        for second in 0..=255 {
            let (code, whole) = with_offset(&base[..length], b'-', first, second);
            run.reference_read(&code[..whole], 24, 0);
        }
        let (code, whole) = with_offset(&base[..length], first, b'0', b'G');
        run.reference_read(&code[..whole], 24, 0);
        let (code, whole) = with_offset(&base[..length], first, b'8', b'G');
        run.reference_read(&code[..whole], 24, 0);
    }
}

fn lengths(run: &mut Run, piece: u64) {
    let (longitude, latitude) = cases::places_of_each_kind()[piece as usize];
    let code = finest(longitude, latitude);
    for length in 0..=20 {
        let (signed, whole) = with_offset(&code[..length], b'-', b'1', b'A');
        run.reference_read(&signed[..whole], 24, 0);
    }
    each_length(&code, &[b'0', b'-', b'A', b'N', 0], |long| {
        run.reference_read(long, 24, 0);
        for other in [0, 4, 11, 13, 20] {
            run.reference_write(long, &code[..other], 24, 0);
            run.reference_write(&code[..other], long, 24, 0);
        }
    });
}

/// A square for a base: any ordinary one, a corner, or now and then a polar
/// one.
fn somewhere(run: &mut Run) -> (i64, i64) {
    match run.random.below(8) {
        0 => cases::polar(&mut run.random),
        1..=3 => cases::ordinary(&mut run.random),
        _ => {
            let corner = run.random.pick(&corners());
            let size = run.random.pick(&SIZES);
            let (east, north) = (run.random.between(-9, 9), run.random.between(-9, 9));
            away(corner, size, east, north)
        }
    }
}

/// A base and a target up to nine cells away; what is written is read.
fn near(run: &mut Run) {
    let level = run.random.between(5, 10) as usize;
    let (size, length) = (SIZES[level - 5], LENGTHS[level - 1]);
    let start = somewhere(run);
    let (east, north) = (run.random.between(-8, 8), run.random.between(-8, 8));
    let there = away(start, size, east, north);
    let (base, target) = (finest(start.0, start.1), finest(there.0, there.1));
    let (line, at) = fit(run, length + 3);
    run.reference_write(&base[..length], &target[..length], line, at);
    let (one, other) = (run.random.pick(OFFSETS), run.random.pick(OFFSETS));
    let (code, whole) = with_offset(&base[..length], b'-', one, other);
    let (line, at) = fit(run, length);
    run.reference_read(&code[..whole], line, at);
}

fn read(run: &mut Run) {
    let start = somewhere(run);
    let length = run.random.pick(&LENGTHS);
    let base = finest(start.0, start.1);
    let (one, other) = (run.random.pick(OFFSETS), run.random.pick(OFFSETS));
    let (mut code, whole) = with_offset(&base[..length], b'-', one, other);
    let (line, at) = fit(run, length);
    read_about(run, &mut code[..whole], |run, code| run.reference_read(code, line, at));
}

/// Bases and targets of any level, of any damage.
fn refused(run: &mut Run) {
    let start = somewhere(run);
    let level = run.random.between(1, 10) as usize;
    let other = match run.random.below(2) {
        0 => level,
        _ => run.random.between(1, 10) as usize,
    };
    let there = match run.random.below(3) {
        0 => start,
        1 => away(start, 8, run.random.between(-99, 99), run.random.between(-99, 99)),
        _ => somewhere(run),
    };
    let mut codes = [[b'0'; 60]; 2];
    let mut sizes = [LENGTHS[level - 1], LENGTHS[other - 1]];
    for (at, square) in [start, there].into_iter().enumerate() {
        codes[at][..20].copy_from_slice(&finest(square.0, square.1));
        if run.random.one_in(5) {
            cases::damage(&mut run.random, &mut codes[at][..sizes[at]]);
        }
        if run.random.one_in(8) {
            sizes[at] = run.random.below(40) as usize;
        }
    }
    let (line, at) = fit(run, sizes[0] + 3);
    run.reference_write(&codes[0][..sizes[0]], &codes[1][..sizes[1]], line, at);
}
