//! What plane codes hold (Wish 7 of document 02).

use super::{about, request, squares};
use crate::checks::Run;
use hailgully_tests::book::{Kind, Request, Reservation};
use hailgully_tests::cases::{self, Coded, MARKS};
use hailgully_tests::plane::{wrap, PlaneCell, SOUTH};

/// Both ends of edition 1, both sides of the ground, and one between each.
const LAYERS: [i64; 6] = [-1_887_436_800, -987_654_321, -1, 0, 123_456_789, 1_887_436_799];

/// The levels of the first code and of the second.
const LEVELS: [(usize, usize); 8] = [(1, 1), (1, 10), (10, 1), (4, 5), (10, 10), (7, 2), (2, 2), (9, 10)];

/// The codes of a square at a level: for each column, and for each layer.
fn codes(level: usize, square: (i64, i64)) -> Vec<Coded> {
    let columns = Kind::COLUMNS.map(|kind| cases::coded(kind, level, square, 0));
    columns.into_iter().chain(LAYERS.map(|layer| cases::coded(Kind::Space, level, square, layer))).collect()
}

/// A square's cell, its neighbours in the east and in the north.
fn neighbours((longitude, latitude): (i64, i64), cell: &PlaneCell) -> [(i64, i64); 3] {
    let east = i64::from(cell.west) + i64::from(cell.width);
    let north = i64::from(cell.south) + i64::from(cell.height);
    [(longitude, latitude), (wrap(east), latitude), (longitude, north.min(SOUTH.1))]
}

/// Every adding call after every other, over one cell and beside it; and after a record that was live before the wish.
pub fn pairs(run: &mut Run, piece: u64) {
    let square = squares()[piece as usize];
    let (level, other_level) = LEVELS[piece as usize % LEVELS.len()];
    let firsts = codes(level, square);
    let Some(about) = about(run, &request(&firsts[0], (0, 20))) else { return };
    let mut old = about.same();
    (old.cell.floor, old.cell.thickness) = (0, 1_887_436_800);
    for second in neighbours(square, &old.cell.plane).into_iter().flat_map(|square| codes(other_level, square)) {
        let request_after = request(&second, (19, 30));
        for first in &firsts {
            let free = cases::noise(&mut run.random, 0);
            let mut books = run.books(&[free; 3]);
            run.book_add(&Request { flight: 7, ..request(first, (0, 20)) }, &mut books);
            run.book_add(&request_after, &mut books);
        }
        for &live in &MARKS[1..] {
            let free = cases::noise(&mut run.random, 0);
            run.book_add_once(&request_after, &[free, Reservation { live, ..old }]);
        }
    }
}
