//! Cases of the space writer and the space reader, in both editions and in none.

use super::{each_length, each_room, each_two, fit, fixed, part, random, read_about, Family};
use crate::checks::Run;
use hailgully_tests::cases::{self, outside, Random, ODD_EDITIONS};
use hailgully_tests::plane::{LATITUDE, LONGITUDE};
use hailgully_tests::space::{finest, Edition, LENGTHS};

pub fn families() -> Vec<Family> {
    vec![
        fixed("space: the documents' cases", 1, document),
        fixed("space: layer edges, all levels", 32, edges),
        fixed("space: lines and places around the fit", 10, lines),
        fixed("space: extreme numbers", 32, numbers),
        fixed("space: editions and what they hide", 16, editions),
        fixed("space: every F place", 16, letter_f),
        fixed("space: every two-character step", 48, two_characters),
        fixed("space: every two-character step of edition 2", 12, two_characters_2),
        fixed("space: lengths 0 to 60", 16, lengths),
        random("space: random ordinary squares", 3, |run| square(run, cases::ordinary)),
        random("space: random polar squares", 3, |run| square(run, cases::polar)),
        random("space: random cell edges", 3, |run| square(run, cases::near_edge)),
        random("space: random texts", 2, texts),
        random("space: random refusals of the writer", 1, refused),
    ]
}

fn document(run: &mut Run, _: u64) {
    for edition in [1, 2] {
        run.space_write(edition, 10, (255_316_321, 277_488_284), 0, 32, 0);
        run.space_read(edition, b"N036J0093000780B3010010520430140");
        run.space_write(edition, 1, (0, 0), -1, 7, 0);
        run.space_read(edition, b"N131A63");
        run.space_write(edition, 4, (0, 0), 1_843_199, 15, 0);
        run.space_read(edition, b"N031A000000000E");
        for (level, length) in (1..).zip(LENGTHS) {
            for layer in cases::end_layers() {
                run.space_write(edition, level, (0, 0), layer, length, 0);
            }
        }
    }
}

/// Half of the pieces for each edition; the other one is asked for the same layers and codes at level 10.
fn edges(run: &mut Run, piece: u64) {
    let edition = Edition::BOTH[piece as usize / 16];
    let position = cases::places_of_each_kind()[piece as usize % 16];
    for layer in cases::edge_layers(edition) {
        let code = finest(edition, position, layer);
        for (level, length) in (1..).zip(LENGTHS) {
            run.space_write(edition as i64, level, position, layer, 40, 3);
            run.space_read(edition as i64, &code[..length]);
        }
        run.space_write(3 - edition as i64, 10, position, layer, 40, 3);
        run.space_read(3 - edition as i64, &code);
    }
}

fn lines(run: &mut Run, piece: u64) {
    let level = piece as i64 + 1;
    let places = cases::places_of_each_kind();
    each_room(48, |length, at| {
        let edition = (length % 2) as i64 + 1;
        let (least, greatest) = Edition::BOTH[length % 2].layers();
        for &position in places.iter().step_by(5) {
            run.space_write(edition, level, position, -12_345_678, length, at);
        }
        run.space_write(edition, level, (0, LATITUDE.1 + 1), 0, length, at);
        run.space_write(edition, level, (0, 0), greatest + 1, length, at);
        run.space_write(edition, level, (0, 0), least - 1, length, at);
        run.space_write(edition, level - 10, (0, 0), 0, length, at);
        run.space_write(edition + 2, level, (0, 0), 0, length, at);
    });
}

/// Half of the pieces for each edition.
fn numbers(run: &mut Run, piece: u64) {
    let (edition, piece) = (piece as usize / 16, piece % 16);
    let (longitudes, latitudes) = (cases::extremes(LONGITUDE), cases::extremes(LATITUDE));
    let layers = cases::extremes(Edition::BOTH[edition].layers());
    let edition = edition as i64 + 1;
    for level in part(&cases::extremes((1, 10)), piece, 16) {
        for &layer in &layers {
            for &longitude in longitudes.iter().step_by(5) {
                for &latitude in latitudes.iter().step_by(5) {
                    run.space_write(edition, level, (longitude, latitude), layer, 32, 0);
                    run.space_write(edition, level, (longitude, latitude), layer, 32, 30);
                }
            }
            run.space_write(edition, level, (0, -1), layer, 32, 0);
        }
    }
}

/// Numbers around 1 and 2, and those that would be taken for them, with every other refusal beside them and with none.
fn editions(run: &mut Run, piece: u64) {
    let mut numbers = cases::extremes((1, 2));
    numbers.extend(ODD_EDITIONS);
    let position = cases::places_of_each_kind()[piece as usize];
    let positions = [position, (LONGITUDE.1 + 1, position.1), (position.0, LATITUDE.0 - 1), (i64::MAX, i64::MIN)];
    let codes = Edition::BOTH.map(|edition| finest(edition, position, [(15 << 17) + 5, -4_096][piece as usize % 2]));
    for edition in numbers {
        for level in [0, 1, 4, 5, 10, 11, edition] {
            for position in positions {
                for layer in [-1, 1_887_436_800, 2_147_483_648, -2_147_483_649] {
                    run.space_write(edition, level, position, layer, 34, 1);
                    run.space_write(edition, level, position, layer, 6, 1);
                }
            }
        }
        for code in &codes {
            for length in 0..=32 {
                run.space_read(edition, &code[..length]);
            }
            for place in 0..32 {
                let mut code = *code;
                code[place] = cases::other_character(&mut run.random);
                run.space_read(edition, &code);
                run.space_read(edition, &code[..=place]);
            }
        }
    }
}

/// Layers with F at level 4, at level 5, at both and at neither, above and below ground: written at every level, and read in both editions at levels
/// 4, 5 and 10 as they are and with every other character at either place.
fn letter_f(run: &mut Run, piece: u64) {
    let position = cases::places_of_each_kind()[piece as usize];
    for ground in [0, -1 << 21] {
        for fields in [0xF0, 0x0F, 0xFF, 0xEE] {
            let layer = ground + (fields << 13) + run.random.between(0, (1 << 13) - 1);
            let code = finest(Edition::Theirs, position, layer);
            (1..=10).for_each(|level| run.space_write(2, level, position, layer, 32, 0));
            for (place, length) in [(14, 15), (14, 18), (17, 18), (14, 32), (17, 32)] {
                for byte in 0..=255 {
                    let mut code = code;
                    code[place] = byte;
                    run.space_read(1, &code[..length]);
                    run.space_read(2, &code[..length]);
                }
            }
        }
    }
}

/// Two neighbouring characters at once: the two height digits of level 1, and the plane characters of levels that have two.
fn two_characters(run: &mut Run, piece: u64) {
    let (kind, at) = (piece as usize / 6, piece as usize % 6);
    let (level, place) = [(1, 5), (2, 7), (4, 12), (5, 15), (7, 20), (10, 29)][at];
    let position = cases::places_of_each_kind()[2 * kind + at % 2];
    let code = finest(Edition::Ours, position, -999_999_999);
    each_two(&code[..LENGTHS[level - 1]], place, |code| run.space_read(1, code));
}

/// The same where edition 2 has other characters: the two height digits of level 1, and the last plane character with the height of levels 4 and 5.
fn two_characters_2(run: &mut Run, piece: u64) {
    let (kind, at) = (piece as usize / 3, piece as usize % 3);
    let (level, place) = [(1, 5), (4, 13), (5, 16)][at];
    let position = cases::places_of_each_kind()[4 * kind + at];
    let code = finest(Edition::Theirs, position, -999_999_999);
    each_two(&code[..LENGTHS[level - 1]], place, |code| run.space_read(2, code));
}

fn lengths(run: &mut Run, piece: u64) {
    let position = cases::places_of_each_kind()[piece as usize];
    for edition in [1, 2, ODD_EDITIONS[piece as usize % ODD_EDITIONS.len()]] {
        for start in [&finest(Edition::Theirs, position, piece as i64 - 8)[..], &[]] {
            each_length(start, &[b'0', b'1', b'F', b'N', b' ', 0, 255], |code| run.space_read(edition, code));
        }
    }
}

/// Written and read in its edition; now and then read in the other, or in none.
fn square(run: &mut Run, pick: fn(&mut Random) -> (i64, i64)) {
    let position = pick(&mut run.random);
    let level = run.random.between(1, 10);
    let edition = run.random.pick(&Edition::BOTH);
    let layer = cases::layer(&mut run.random, edition);
    let length = LENGTHS[level as usize - 1];
    let (line, at) = fit(run, length);
    run.space_write(edition as i64, level, position, layer, line, at);
    let asked = if run.random.one_in(4) { cases::edition(&mut run.random) } else { edition as i64 };
    read_about(run, &mut finest(edition, position, layer)[..length], |run, code| run.space_read(asked, code));
}

/// The texts of an edition, mostly read in it.
fn texts(run: &mut Run) {
    let edition = run.random.pick(&Edition::BOTH);
    let (mut code, length) = cases::space_text(&mut run.random, edition);
    let asked = if run.random.one_in(4) { cases::edition(&mut run.random) } else { edition as i64 };
    read_about(run, &mut code[..length], |run, code| run.space_read(asked, code));
}

fn refused(run: &mut Run) {
    let (level, longitude, latitude) = cases::odd_position(&mut run.random);
    let (edition, range) = (cases::edition(&mut run.random), run.random.pick(&Edition::BOTH));
    let layer = match run.random.below(2) {
        0 => outside(&mut run.random, range.layers()),
        _ => cases::layer(&mut run.random, range),
    };
    let (line, at) = fit(run, cases::length_of(level, &LENGTHS));
    run.space_write(edition, level, (longitude, latitude), layer, line, at);
}
