//! Cases of the plane writer and the plane reader.

use super::{each_length, each_room, each_two, fit, fixed, part, random, read_about, Family};
use crate::checks::Run;
use hailgully_tests::cases::{self, Random};
use hailgully_tests::plane::{write::finest, LATITUDE, LENGTHS, LONGITUDE};

pub fn families() -> Vec<Family> {
    vec![
        fixed("plane: the documents' cases", 1, document),
        fixed("plane: edges by edges, all levels", 64, edges),
        fixed("plane: lines and places around the fit", 10, lines),
        fixed("plane: extreme numbers", 16, numbers),
        fixed("plane: all level 1 texts", 36, level_1_texts),
        fixed("plane: every two-character step", 56, two_characters),
        fixed("plane: lengths 0 to 60", 16, lengths),
        random("plane: random ordinary squares", 4, |run| square(run, cases::ordinary)),
        random("plane: random polar squares", 4, |run| square(run, cases::polar)),
        random("plane: random cell edges", 4, |run| square(run, cases::near_edge)),
        random("plane: random texts", 2, texts),
        random("plane: random refusals of the writer", 1, refused),
    ]
}

fn document(run: &mut Run, _: u64) {
    for (longitude, latitude, level) in cases::DOCUMENT_POSITIONS {
        run.plane_write(level, longitude, latitude, 20, 0);
        run.plane_read(&finest(longitude, latitude)[..LENGTHS[level as usize - 1]]);
    }
    for (longitude, latitude) in [(LONGITUDE.1, 0), (0, LATITUDE.1), (LONGITUDE.1, LATITUDE.1)] {
        run.plane_write(1, longitude, latitude, 20, 0);
    }
    for code in cases::DOCUMENT_CODES {
        run.plane_read(code.as_bytes());
    }
}

fn edges(run: &mut Run, piece: u64) {
    let latitudes = cases::edge_latitudes();
    for longitude in part(&cases::edge_longitudes(), piece, 64) {
        for &latitude in &latitudes {
            let code = finest(longitude, latitude);
            for (level, length) in (1..).zip(LENGTHS) {
                run.plane_write(level, longitude, latitude, 24, 2);
                run.plane_read(&code[..length]);
            }
        }
    }
}

fn lines(run: &mut Run, piece: u64) {
    let level = piece as i64 + 1;
    let places = cases::places_of_each_kind();
    each_room(44, |length, at| {
        for &(longitude, latitude) in places.iter().step_by(3) {
            run.plane_write(level, longitude, latitude, length, at);
        }
        run.plane_write(level, LONGITUDE.1 + 1, 0, length, at);
        run.plane_write(level, 0, LATITUDE.0 - 1, length, at);
        run.plane_write(level + 10, 0, 0, length, at);
    });
}

fn numbers(run: &mut Run, piece: u64) {
    for level in part(&cases::extremes((1, 10)), piece, 16) {
        for longitude in cases::extremes(LONGITUDE) {
            for latitude in cases::extremes(LATITUDE) {
                run.plane_write(level, longitude, latitude, 20, 0);
                run.plane_write(level, longitude, latitude, 20, 17);
            }
        }
    }
}

fn level_1_texts(run: &mut Run, piece: u64) {
    let characters = b"0123456789ABCDEFGHIJKLMNOPQRSTUVWXYZ";
    let last = characters[piece as usize];
    for first in [b'N', b'S'] {
        for tens in characters {
            for ones in characters {
                run.plane_read(&[first, *tens, *ones, last]);
            }
        }
    }
}

/// Each kind of region by the seven levels of two characters.
fn two_characters(run: &mut Run, piece: u64) {
    let (kind, at) = (piece as usize / 7, piece as usize % 7);
    let length = LENGTHS[[2, 4, 5, 7, 8, 9, 10][at] - 1];
    let (longitude, latitude) = cases::places_of_each_kind()[2 * kind + at % 2];
    each_two(&finest(longitude, latitude)[..length], length - 2, |code| run.plane_read(code));
}

fn lengths(run: &mut Run, piece: u64) {
    let (longitude, latitude) = cases::places_of_each_kind()[piece as usize];
    let code = finest(longitude, latitude);
    for start in [&code[..], &code[..4], &[]] {
        each_length(start, &[b'0', b'7', b'A', b'N', b' ', 0, 255], |code| run.plane_read(code));
    }
}

fn square(run: &mut Run, pick: fn(&mut Random) -> (i64, i64)) {
    let (longitude, latitude) = pick(&mut run.random);
    let level = run.random.between(1, 10);
    let length = LENGTHS[level as usize - 1];
    let (line, at) = fit(run, length);
    run.plane_write(level, longitude, latitude, line, at);
    read_about(run, &mut finest(longitude, latitude)[..length], Run::plane_read);
}

fn texts(run: &mut Run) {
    let (mut code, length) = cases::walked_code(&mut run.random);
    read_about(run, &mut code[..length], Run::plane_read);
}

fn refused(run: &mut Run) {
    let (level, longitude, latitude) = cases::odd_position(&mut run.random);
    let (line, at) = fit(run, cases::length_of(level, &LENGTHS));
    run.plane_write(level, longitude, latitude, line, at);
}
