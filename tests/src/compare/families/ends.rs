//! The ends of the ranges of longitude and latitude (Wish 2 of document 02): one unit below, at and one above each, the f64 on either side of each,
//! all in pairs, with the other refusals beside them and with none.

use super::{fit, fixed, part, random, Family};
use crate::checks::Run;
use hailgully_tests::arcseconds::arcseconds;
use hailgully_tests::cases::{self, ends};
use hailgully_tests::plane::{square, within, write, LATITUDE, LENGTHS, LONGITUDE};
use hailgully_tests::space;
use std::ops::RangeInclusive;

pub fn families() -> Vec<Family> {
    vec![
        fixed("ends: plane codes, all levels", 12, planes),
        fixed("ends: space codes, all levels, both editions and none", 12, spaces),
        fixed("ends: readings by readings, and their codes", 16, readings),
        random("ends: random positions", 3, positions),
        random("ends: random readings, and their codes", 3, received),
    ]
}

/// Every pair of numbers around the ends, and each of them with the edges of all rows or columns.
fn planes(run: &mut Run, piece: u64) {
    let level = piece as i64;
    let (longitudes, latitudes) = (ends(LONGITUDE), ends(LATITUDE));
    let mut ask = |longitude, latitude| {
        run.plane_write(level, longitude, latitude, 24, 2);
        run.plane_write(level, longitude, latitude, 24, 21);
    };
    for &longitude in &longitudes {
        latitudes.iter().chain(&cases::edge_latitudes()).for_each(|&latitude| ask(longitude, latitude));
    }
    for longitude in cases::edge_longitudes() {
        latitudes.iter().for_each(|&latitude| ask(longitude, latitude));
    }
    let length = cases::length_of(level, &LENGTHS);
    for &longitude in longitudes.iter().filter(|&&longitude| within(longitude, LONGITUDE)) {
        for &latitude in latitudes.iter().filter(|&&latitude| within(latitude, LATITUDE)) {
            let (west, south) = square(longitude, latitude);
            run.plane_read(&write::finest(west, south)[..length]);
        }
    }
}

fn spaces(run: &mut Run, piece: u64) {
    let level = piece as i64;
    for edition in 0..=3 {
        for longitude in ends(LONGITUDE) {
            for latitude in ends(LATITUDE) {
                for layer in cases::end_layers() {
                    run.space_write(edition, level, (longitude, latitude), layer, 34, 1);
                    run.space_write(edition, level, (longitude, latitude), layer, 6, 1);
                }
            }
        }
    }
}

/// Readings around the ends, an ordinary one, and those that get 11, 2 or 3 for what they are: all pairs, and the codes of what is answered.
fn readings(run: &mut Run, piece: u64) {
    let mut list = cases::end_readings();
    list.extend([0.5, f64::NAN, f64::INFINITY, f64::NEG_INFINITY].map(f64::to_bits));
    for longitude in part(&list, piece, 16) {
        for &latitude in &list {
            receive(run, longitude, latitude, 1..=10);
        }
    }
}

/// A reading, and the codes of the units that it becomes.
fn receive(run: &mut Run, longitude: u64, latitude: u64, levels: RangeInclusive<i64>) {
    run.arcseconds(longitude, latitude);
    if let Ok((longitude, latitude)) = arcseconds(longitude, latitude) {
        let (longitude, latitude) = (i64::from(longitude), i64::from(latitude));
        for level in levels {
            run.plane_write(level, longitude, latitude, 20, 0);
            run.space_write(1, level, (longitude, latitude), -7, 32, 0);
            run.space_write(2, level, (longitude, latitude), -7, 32, 0);
        }
    }
}

/// A position of which a number is near an end of its range, or both are.
fn positions(run: &mut Run) {
    let (mut longitude, mut latitude) = cases::anywhere(&mut run.random);
    let which = run.random.below(3);
    if which != 0 {
        longitude = cases::near_end(&mut run.random, LONGITUDE);
    }
    if which != 1 {
        latitude = cases::near_end(&mut run.random, LATITUDE);
    }
    let (level, edition) = (run.random.between(1, 10), cases::edition(&mut run.random));
    let (line, at) = fit(run, LENGTHS[level as usize - 1]);
    run.plane_write(level, longitude, latitude, line, at);
    let range = run.random.pick(&space::Edition::BOTH);
    let layer = cases::layer(&mut run.random, range);
    let (line, at) = fit(run, space::LENGTHS[level as usize - 1]);
    run.space_write(edition, level, (longitude, latitude), layer, line, at);
}

fn received(run: &mut Run) {
    let [one, other] = [(); 2].map(|()| cases::near_end_reading(&mut run.random));
    let (any, level) = (cases::any_reading(&mut run.random), run.random.between(1, 10));
    receive(run, one, other, level..=level);
    receive(run, one, any, level..=level);
    receive(run, any, other, level..=level);
}
