//! Each region that the lists have, at each of its levels: both corners of every belt and disc cell of level 2, and of every cell into which a cap
//! is divided, at both poles; every cell of level 1.

use super::{fixed, Family};
use crate::checks::Run;
use hailgully_tests::book::{Kind, Request, Reservation};
use hailgully_tests::cases;
use hailgully_tests::places::plain::made;
use hailgully_tests::plane::listing::{self, Listed};
use hailgully_tests::plane::{wrap, write, Region, LENGTHS};
use hailgully_tests::space::{self, Edition};

pub fn families() -> Vec<Family> {
    vec![fixed("regions: cells around the poles", 2, poles), fixed("regions: cells of level 1", 60, first_level)]
}

fn poles(run: &mut Run, piece: u64) {
    let first = listing::first_level();
    let mut at = first[piece as usize * first.len() / 2];
    while at.level < 10 {
        let list = listing::children(&at);
        list.iter().for_each(|cell| corners(run, cell));
        at = *list.iter().find(|cell| cell.region == Region::Cap).expect("every cap has a cap");
    }
}

fn first_level(run: &mut Run, piece: u64) {
    listing::first_level().iter().skip(piece as usize).step_by(60).for_each(|cell| corners(run, cell));
}

/// The south-west and the north-east square of a cell, above and below ground, written, read, looked up in a place book and added to a book at its level
/// and all finer ones.
fn corners(run: &mut Run, cell: &Listed) {
    let north_east = (cell.west + cell.width - 1, cell.south + cell.height - 1);
    for ((eastward, latitude), layer) in [((cell.west, cell.south), 1_234_567_890), (north_east, -1_234_567_890)] {
        let (longitude, latitude) = (wrap(eastward), latitude);
        let free = [cases::noise(&mut run.random, 0)];
        let flat = write::finest(longitude, latitude);
        let tall = Edition::BOTH.map(|edition| space::finest(edition, (longitude, latitude), layer));
        for level in cell.level..=10 {
            let (length, tall_length) = (LENGTHS[level - 1], space::LENGTHS[level - 1]);
            run.plane_write(level as i64, longitude, latitude, 21, 1);
            run.plane_read(&flat[..length]);
            run.plane_box(&flat[..length]);
            for (edition, tall) in (1..).zip(&tall) {
                run.space_write(edition, level as i64, (longitude, latitude), layer, 33, 1);
                run.space_read(edition, &tall[..tall_length]);
            }
            place(run, &flat[..length]);
            Kind::COLUMNS.into_iter().for_each(|kind| add(run, kind, &flat[..length], &free));
            add(run, Kind::Space, &tall[0][..tall_length], &free);
        }
    }
}

fn add(run: &mut Run, kind: Kind, code: &[u8], book: &[Reservation]) {
    run.book_add_once(&Request::new(kind, code, 1, (2, 3)), book);
}

/// The code as a place's, which is looked up and led from.
fn place(run: &mut Run, code: &[u8]) {
    let book = made(&[cases::placed(b"here", code)]);
    run.place(b"here", &book);
    run.short_read(b"here-1A", &book, 20, 0);
}
