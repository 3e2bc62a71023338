//! Conflicts a second time, plainly, by what each record holds. No slip here.
//! Where two records share a number of an axis, the first number of one of them
//! is shared: from any shared one, going down (or west) in both, the first that
//! leaves one of the two is met. So only the two first numbers are tried.

use super::Reservation;
use crate::plane::TURN;
use std::collections::BTreeSet;

/// A first number and how many there are; around the globe where it turns.
#[derive(Clone, Copy)]
struct Named {
    first: i128,
    count: i128,
    turns: bool,
}

impl Named {
    fn holds(&self, number: i128) -> bool {
        let beyond = number - self.first;
        let beyond = if self.turns { beyond.rem_euclid(i128::from(TURN)) } else { beyond };
        0 <= beyond && beyond < self.count
    }
}

/// Longitudes, latitudes, layers and minutes of a record.
fn named(record: &Reservation) -> [Named; 4] {
    let cell = &record.cell;
    let line = |first: i128, count: i128| Named { first, count, turns: false };
    [
        Named { first: cell.plane.west.into(), count: cell.plane.width.into(), turns: true },
        line(cell.plane.south.into(), cell.plane.height.into()),
        line(cell.floor.into(), cell.thickness.into()),
        line(record.start.into(), i128::from(record.end) - i128::from(record.start)),
    ]
}

/// "Share a unit cube and a minute."
pub fn conflicts(one: &Reservation, other: &Reservation) -> bool {
    named(one).into_iter().zip(named(other)).all(|(one, other)| {
        let shared = |number| one.holds(number) && other.holds(number);
        shared(one.first) || shared(other.first)
    })
}

/// The first two live records that conflict.
pub fn first_conflict(book: &[Reservation]) -> Option<(usize, usize)> {
    let live: Vec<usize> = (0..book.len()).filter(|&at| book[at].live != 0).collect();
    let pairs = live.iter().flat_map(|&one| live.iter().filter(move |&&other| one < other).map(move |&other| (one, other)));
    pairs.into_iter().find(|&(one, other)| conflicts(&book[one], &book[other]))
}

/// The longitudes of an arc on a globe that is so few around, each for itself.
pub fn listed(west: i64, width: i64, turn: i64) -> BTreeSet<i64> {
    (0..width).map(|east| (west + east).rem_euclid(turn)).collect()
}
