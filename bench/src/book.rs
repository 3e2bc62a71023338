//! The reservation book: adding to a book of 256 records, and releasing its last one. Each call walks the whole book: either every record is live,
//! which is refused (17), or all but the last, which is used; and nothing that is asked for is in conflict, but in the one row that says so.

use crate::book_inputs::{self as books, ground_ours, plane_ours, space_ours, Ask, Book, Ours, LAST};
use crate::inputs::{many, Code, Dice, Position};
use crate::plain;
use crate::table::{Pass, Row};
use hailgully_raw::{lent as ffi, HgBooked, HgReservation};
use std::hint::black_box;

const BAR: Option<f64> = Some(1.25);
// one walk serves adding and releasing (docs/DECISIONS.md, "Speed")
const RELEASE_BAR: Option<f64> = Some(1.5);

type Plain = fn(&Ask, &mut [HgReservation]) -> Result<usize, plain::Refusal>;

fn plane_plain(a: &Ask, book: &mut [HgReservation]) -> Result<usize, plain::Refusal> {
    plain::book::add_plane(a.code.text(), a.flight, a.start, a.end, book)
}

fn ground_plain(a: &Ask, book: &mut [HgReservation]) -> Result<usize, plain::Refusal> {
    plain::book::add_ground(a.code.text(), a.flight, a.start, a.end, book)
}

fn space_plain(a: &Ask, book: &mut [HgReservation]) -> Result<usize, plain::Refusal> {
    plain::book::add_space(a.code.text(), a.flight, a.start, a.end, book)
}

fn release_ours(a: &Ask, book: &mut [HgReservation]) -> HgBooked {
    ffi::book_release(a.flight, book)
}

fn release_plain(a: &Ask, book: &mut [HgReservation]) -> Result<usize, plain::Refusal> {
    plain::book::release(a.flight, book)
}

/// A call for each of the asked, on a book of the pass's own. A call changes the last record at most, and its live mark is set back, so that each call
/// finds the same records live.
fn pass<T>(asks: &'static [Ask], book: &[HgReservation], call: impl Fn(&Ask, &mut [HgReservation]) -> T + 'static) -> Pass {
    let mut book = book.to_vec();
    let mark = book[LAST].live;
    Box::new(move || {
        for a in asks {
            black_box(&call(a, black_box(&mut book[..])));
            book[LAST].live = mark;
        }
    })
}

fn same_one(a: &Ask, book: &[HgReservation], ours: Ours, other: Plain) {
    let (mut one, mut two) = (book.to_vec(), book.to_vec());
    let (ours, other) = (ours(a, &mut one), other(a, &mut two));
    plain::same(&ours.refusal, other, |at| assert_eq!(ours.at, at as u64));
    assert_eq!(one, two);
}

/// The plain functions agree with the library on books of odd records, of any length, on records beside what is asked for, and on spoilt codes.
fn same_odd(dice: &mut Dice) {
    for _ in 0..10_000 {
        let length = match dice.between(0, 99) {
            n @ 0..3 => 255 + n as usize,
            n => n as usize % 12,
        };
        let mut book: Book = std::iter::repeat_with(|| books::odd(dice)).take(length).collect();
        if length > 100 {
            book.iter_mut().for_each(|r| (r.flight, r.thickness) = (r.flight + 40, r.thickness * u32::from(dice.next().is_multiple_of(8))));
        }
        let level = dice.between(1, 10);
        let p = Position { layer: dice.between(-500, 500), ..Position::ordinary(dice, level) };
        let (flight, start, end) = (dice.between(0, 40) as u32, dice.between(0, 300) as u32, dice.between(0, 300) as u32);
        let plane: (Code, Ours, Plain) = (Code::plane(&p), plane_ours, plane_plain);
        for (code, ours, other) in [plane, (plane.0, ground_ours, ground_plain), (Code::space(&p), space_ours, space_plain)] {
            let a = Ask { code, flight, start, end };
            same_one(&a, &book, ours, other);
            same_one(&Ask { code: code.spoilt(dice), ..a }, &book, ours, other);
            if start < end {
                let beside = HgReservation { flight: flight + 1, ..books::beside(dice, books::record(&a, ours)) };
                same_one(&a, &[beside], ours, other);
            }
            same_one(&a, &book, release_ours, release_plain);
        }
    }
}

/// Some of what is asked gets the same answer from both.
fn same(asks: &[Ask], book: &Book, ours: Ours, other: Plain) {
    asks.iter().take(256).for_each(|a| same_one(a, book, ours, other));
}

/// Adding by plane code to the book with every record live, and with the last one free.
fn plane_rows(kind: &str, (book, asks): (Book, &'static [Ask])) -> [Row; 2] {
    [(format!("full book, {kind}"), book.clone()), (format!("book add, {kind}"), books::one_free(&book))].map(|(name, book)| {
        same(asks, &book, plane_ours, plane_plain);
        Row::plain(name, pass(asks, &book, plane_ours), pass(asks, &book, plane_plain), BAR)
    })
}

pub fn rows(dice: &mut Dice) -> Vec<Row> {
    same_odd(dice);
    let board = books::board(dice);
    let free = books::one_free(&board);
    let (mixed, spaces) =
        (books::of_the_board(dice, &board, Code::plane, plane_ours), books::of_the_board(dice, &board, Code::space, space_ours));
    let conflict = books::in_conflict(dice, &board);
    let last = many(|| Ask { flight: LAST as u32, ..mixed[0] });
    same(mixed, &free, ground_ours, ground_plain);
    same(spaces, &free, space_ours, space_plain);
    same(conflict, &board, plane_ours, plane_plain);
    same(last, &board, release_ours, release_plain);
    let mut rows = Vec::new();
    rows.extend(plane_rows("minutes apart", books::minutes_apart(dice)));
    rows.extend(plane_rows("squares apart", books::squares_apart(dice)));
    rows.extend(plane_rows("longitudes apart", books::longitudes_apart(dice)));
    rows.extend(plane_rows("mixed", (board.clone(), mixed)));
    // what is free over all layers is free from the ground up
    rows.push(Row::plain("book add, ground, mixed", pass(mixed, &free, ground_ours), pass(mixed, &free, ground_plain), BAR));
    rows.push(Row::plain("book add, space code, mixed", pass(spaces, &free, space_ours), pass(spaces, &free, space_plain), BAR));
    rows.push(Row::plain("book add, the first in conflict", pass(conflict, &board, plane_ours), pass(conflict, &board, plane_plain), BAR));
    rows.push(Row::plain("book release, the last", pass(last, &board, release_ours), pass(last, &board, release_plain), RELEASE_BAR));
    rows
}
