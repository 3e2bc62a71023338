//! Cases of the four calls of the book: single calls on books of every kind, (columns.rs) what plane codes hold, and (sequences.rs) thousands of calls
//! on one book.

mod columns;
mod sequences;

use super::{each_length, fixed, random, with_one_free, Family};
use crate::checks::Run;
use hailgully_tests::book::{Kind, Request, Reservation, MOST};
use hailgully_tests::cases::{self, About, Coded, Random, MARKS, MINUTES};
use hailgully_tests::plane::{DEGREE, WEST};

pub fn families() -> Vec<Family> {
    vec![
        fixed("book: records about a cell, axis by axis", 24, axes),
        fixed("book: lengths, free records and what they hide", 16, lengths),
        fixed("book: live marks and flight numbers", 16, marks),
        fixed("book: codes of lengths 0 to 60", 16, code_lengths),
        fixed("book: whole columns, columns from the ground up, and layers", 24, columns::pairs),
        random("book: random single calls", 3, singles),
        random("book: sequences from nothing live", 3, sequences::from_nothing_live),
        random("book: sequences from odd records", 3, sequences::from_odd_records),
    ]
}

/// Squares of each kind, and some beside 180°.
fn squares() -> Vec<(i64, i64)> {
    let mut list = cases::places_of_each_kind();
    for latitude in [31 * DEGREE, -1, 88 * DEGREE + 7, 89 * DEGREE + 7] {
        list.extend([(WEST.0, latitude), (WEST.1, latitude)]);
    }
    list
}

/// A request with a flight number that no record of the fixed families has.
fn request<'a>((kind, code): &'a Coded, minutes: (u32, u32)) -> Request<'a> {
    Request::new(*kind, code, 1_000_007, minutes)
}

/// Records about the request's cell and minutes. A code that the oracle refuses, as it may with a slip on, is asked by itself.
fn about(run: &mut Run, request: &Request) -> Option<About> {
    let cell = request.kind.cell(request.code);
    if cell.is_err() {
        run.book_add_once(request, &[Reservation::default()]);
    }
    cell.ok().map(|cell| About::new(cell, (request.start, request.end)))
}

/// One live record beside one that is not, about the cell of every level of a square.
fn axes(run: &mut Run, piece: u64) {
    let square = squares()[piece as usize];
    for kind in Kind::ALL {
        for level in 1..=10 {
            let layer = [0, -1, 1_887_436_799, -1_887_436_800, 12_345_678][(level + piece as usize) % 5];
            let code = cases::coded(kind, level, square, layer);
            let request = request(&code, MINUTES[(level + piece as usize) % MINUTES.len()]);
            let Some(about) = about(run, &request) else { continue };
            for record in about.each() {
                let free = cases::noise(&mut run.random, 0);
                run.book_add_once(&request, &[free, record]);
            }
        }
    }
}

/// Books of many lengths: the free records at every kind of place; with a conflict, with the flight number, with bad codes and minutes, and with none.
fn lengths(run: &mut Run, piece: u64) {
    let square = squares()[piece as usize];
    for kind in Kind::ALL {
        let code = cases::coded(kind, 1 + piece as usize % 10, square, piece as i64 - 8);
        let request = request(&code, MINUTES[piece as usize % MINUTES.len()]);
        let Some(about) = about(run, &request) else { continue };
        for length in [0, 1, 2, 3, MOST - 1, MOST, MOST + 1, if piece < 2 { 3_000 } else { MOST + 2 }] {
            for free in [None, Some(0), Some(length / 2), Some(length.saturating_sub(1))] {
                for conflict in [None, Some(0), Some(length / 3), Some(length.saturating_sub(1))] {
                    let mut book: Vec<Reservation> =
                        (0..length).map(|at| cases::nothing(&mut run.random, MARKS[1 + at % 4], at as u32)).collect();
                    let places = [(conflict, about.same()), (free, Reservation { live: 0, ..about.same() })];
                    for (at, record) in places.into_iter().filter_map(|(at, record)| at.map(|at| (at, record))) {
                        if let Some(place) = book.get_mut(at) {
                            *place = Reservation { flight: at as u32, ..record };
                        }
                    }
                    on_each_side(run, &request, &book);
                }
            }
        }
    }
}

/// The request, the request with each thing that is refused, and releases. Of the bad characters x is garbled, and V misplaced.
fn on_each_side(run: &mut Run, request: &Request, book: &[Reservation]) {
    let last = book.len().saturating_sub(1) as u32;
    let mut bad = request.code.to_vec();
    let short = &request.code[..request.code.len() - 1];
    let (start, end) = (request.start, request.end);
    for (flight, character) in [(request.flight, b'x'), (0, b'x'), (last, b'V')] {
        bad[2] = character;
        let bad_short = &bad[..bad.len() - 1];
        for code in [request.code, &bad, short, bad_short] {
            run.book_add_once(&Request { code, flight, ..*request }, book);
            run.book_add_once(&Request { code, flight, start: end, end: start, ..*request }, book);
        }
        run.book_add_once(&Request { flight, end: start, ..*request }, book);
        run.book_release_once(flight, book);
    }
}

/// Three records with every mark: of one flight number, in conflict with the request or not, two of them the same.
fn marks(run: &mut Run, piece: u64) {
    let square = squares()[piece as usize];
    let code = cases::coded(Kind::ALL[piece as usize % 3], 1 + piece as usize % 10, square, -5);
    let request = request(&code, (10, 20));
    let Some(about) = about(run, &request) else { return };
    for first in MARKS {
        for second in MARKS {
            for third in MARKS {
                for flights in [[1, 1, 1], [2, 1, 1], [1, 2, 1], [1, 1, request.flight], [request.flight; 3], [1 << 16 | 1, 1, 0]] {
                    let mut book = [first, second, third].map(|live| Reservation { live, ..about.same() });
                    book.iter_mut().zip(flights).for_each(|(record, flight)| record.flight = flight);
                    run.book_add_once(&request, &book);
                    for flight in [0, 1, 1 << 16 | 1, request.flight] {
                        run.book_release_once(flight, &book);
                    }
                    book.iter_mut().for_each(|record| (record.start, record.end) = (20, 30));
                    book[1].start = 19;
                    run.book_add_once(&request, &book);
                    run.book_add_once(&Request { flight: 1, ..request }, &book);
                }
            }
        }
    }
}

fn code_lengths(run: &mut Run, piece: u64) {
    let square = squares()[piece as usize];
    let book = with_one_free(&mut run.random);
    for kind in Kind::ALL {
        let (_, code) = cases::coded(kind, 10, square, 7);
        each_length(&code, b"07AFN -\0", |code| {
            run.book_add_once(&Request::new(kind, code, 5, (0, 9)), &book);
            run.book_add_once(&Request::new(kind, code, 1, (9, 9)), &book);
        });
    }
}

/// A code, now and then damaged or of another length.
fn about_good(random: &mut Random, mut code: Vec<u8>) -> Vec<u8> {
    match random.below(24) {
        0 => cases::damage(random, &mut code),
        1 => code.truncate(random.below(33) as usize),
        2 => {
            cases::damage(random, &mut code);
            code.pop();
        }
        _ => {}
    }
    code
}

/// Books of records about the request's cell.
fn singles(run: &mut Run) {
    let (kind, code) = cases::codes_about(&mut run.random, 1).remove(0);
    let (start, end) = run.random.pick(&MINUTES);
    let good = Request::new(kind, &code, cases::flight(&mut run.random, 9), (start, end));
    let Some(about) = about(run, &good) else { return };
    for _ in 0..8 {
        let random = &mut run.random;
        let length = match random.below(100) {
            0 => random.between(MOST as i64 - 1, MOST as i64 + 1),
            1 => random.between(MOST as i64 + 1, 3_000),
            2..12 => random.between(8, 40),
            _ => random.between(0, 6),
        };
        let all_live = random.one_in(4);
        let book: Vec<Reservation> = (0..length)
            .map(|_| {
                let record = if random.one_in(4) { cases::nothing(random, 1, 8) } else { about.some(random, 30) };
                Reservation { live: if all_live { record.live.max(1) } else { record.live }, ..record }
            })
            .collect();
        let code = about_good(&mut run.random, code.clone());
        let (start, end) = if run.random.one_in(12) { (end, start) } else { (start, end) };
        run.book_add_once(&Request { code: &code, start, end, ..good }, &book);
        let flight = cases::flight(&mut run.random, 30);
        run.book_release_once(flight, &book);
    }
}
