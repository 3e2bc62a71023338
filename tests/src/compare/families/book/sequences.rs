//! Sequences of calls on one book.

use super::about_good;
use crate::checks::{Books, Run};
use hailgully_tests::book::{Request, Reservation, MOST};
use hailgully_tests::cases::{self, About, Coded, Random};

/// How many calls a sequence has.
const CALLS: usize = 2_500;

/// A book with nothing live: all zeros, or full of noise.
fn nothing_live(random: &mut Random, _: &[Coded], length: usize) -> Vec<Reservation> {
    let zeros = random.one_in(2);
    (0..length).map(|_| if zeros { Reservation::default() } else { cases::noise(random, 0) }).collect()
}

/// A book of records about the codes' cells and anything else.
fn odd_records(random: &mut Random, codes: &[Coded], length: usize) -> Vec<Reservation> {
    let cells = codes.iter().filter_map(|(kind, code)| kind.cell(code).ok());
    let abouts: Vec<About> = cells.map(|cell| About::new(cell, (2, 6))).collect();
    let one = |_| match random.below(4) {
        0 => cases::noise(random, 0),
        1 => cases::nothing(random, 3, 2),
        _ => match abouts.get(random.below(abouts.len() as u64) as usize) {
            Some(about) => about.some(random, 6),
            None => cases::noise(random, 0),
        },
    };
    (0..length).map(one).collect()
}

pub fn from_nothing_live(run: &mut Run) {
    sequence(run, nothing_live);
}

pub fn from_odd_records(run: &mut Run) {
    sequence(run, odd_records);
}

/// Thousands of calls on one book, by a few codes, flight numbers and minutes; all is compared after each. From a book with nothing live, each
/// record that is added is held against every other live one, and at the end all pairs are. Of a book of 0 or of 257 records every call is refused.
fn sequence(run: &mut Run, start: fn(&mut Random, &[Coded], usize) -> Vec<Reservation>) {
    let random = &mut run.random;
    let codes = cases::codes_about(random, 12);
    let length = random.pick(&[0, 1, 3, 5, 8, 12, 16, 24, 40, 100, MOST, MOST + 1]);
    let records = start(random, &codes, length);
    let from_nothing = records.iter().all(|record| record.live == 0);
    // From few minutes, so that most calls conflict, to so many that the book fills.
    let most = random.pick(&[4, 20, 400, 100_000]);
    let flights = length + 2;
    let releases = random.pick(&[2, 3, 8]);
    let mut books = run.books(&records);
    for _ in 0..CALLS {
        let before = run.tally.differences;
        let used = one_call(run, &mut books, &codes, (most, flights, releases));
        if let (true, Some(at)) = (from_nothing, used) {
            run.no_conflict_with(&books, at);
        }
        if run.tally.differences > before || run.over() {
            return;
        }
    }
    if from_nothing {
        run.no_conflict(&books);
    }
}

/// Start and end, mostly in this order, of so many minutes.
fn minutes(random: &mut Random, most: i64) -> (u32, u32) {
    let start = random.between(0, most) as u32;
    match random.below(12) {
        0 => (start, start),
        1 => (start, random.between(0, most) as u32),
        2 => (random.draw() as u32, u32::MAX - random.below(3) as u32),
        _ => (start, start + random.between(1, 1 + most / 8) as u32),
    }
}

/// One call of a sequence, with so many minutes and flight numbers, every so many a release; the place of a record that was added.
fn one_call(run: &mut Run, books: &mut Books, codes: &[Coded], (most, flights, releases): (i64, usize, u64)) -> Option<usize> {
    let random = &mut run.random;
    let flight = cases::flight(random, flights);
    if random.one_in(releases) {
        let known = books.own.get(random.below(books.own.len() as u64) as usize).map_or(flight, |record| record.flight);
        let flight = if random.one_in(3) { flight } else { known };
        run.book_release(flight, books);
        return None;
    }
    let (kind, code) = &codes[random.below(codes.len() as u64) as usize];
    let code = about_good(random, code.clone());
    let minutes = minutes(random, most);
    run.book_add(&Request::new(*kind, &code, flight, minutes), books)
}
