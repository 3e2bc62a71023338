//! Books of 256 records that are timed, and what is asked of them; and odd records, which the plain functions are tried on.

use crate::inputs::{many, Code, Dice, Position};
use hailgully_raw::{lent as ffi, HgBooked, HgReservation};

const MOST: usize = 256;
pub const LAST: usize = MOST - 1;
const DAY: i64 = 1440;

pub type Book = Vec<HgReservation>;
pub type Ours = fn(&Ask, &mut [HgReservation]) -> HgBooked;

#[derive(Clone, Copy)]
pub struct Ask {
    pub code: Code,
    pub flight: u32,
    pub start: u32,
    pub end: u32,
}

pub fn plane_ours(a: &Ask, book: &mut [HgReservation]) -> HgBooked {
    ffi::book_add_plane(a.code.text(), a.flight, a.start, a.end, book)
}

pub fn ground_ours(a: &Ask, book: &mut [HgReservation]) -> HgBooked {
    ffi::book_add_ground(a.code.text(), a.flight, a.start, a.end, book)
}

pub fn space_ours(a: &Ask, book: &mut [HgReservation]) -> HgBooked {
    ffi::book_add_space(a.code.text(), a.flight, a.start, a.end, book)
}

/// A position within so many units of a tower, at one of the lower layers.
fn near(dice: &mut Dice, level: i64, units: i64) -> Position {
    let (east, north) = (dice.between(-units, units), dice.between(-units, units));
    Position { edition: 1, level, longitude: 857_549_557 + east, latitude: 294_861_578 + north, layer: dice.between(0, 8_191) }
}

/// Some minutes from the first of `of` on, up to its last.
fn minutes(dice: &mut Dice, of: (i64, i64)) -> (u32, u32) {
    let start = dice.between(of.0, of.1 - 15);
    let end = dice.between(start + 15, of.1.min(start + 180));
    (start as u32, end as u32)
}

fn ask(code: Code, flight: usize, (start, end): (u32, u32)) -> Ask {
    Ask { code, flight: flight as u32, start, end }
}

/// The record that adding to an empty book leaves there.
pub fn record(a: &Ask, call: Ours) -> HgReservation {
    let mut book = [HgReservation::default()];
    assert_eq!(call(a, &mut book), HgBooked::default());
    book[0]
}

/// 256 live records, of flights 0 to 255.
fn book(make: impl FnMut(usize) -> HgReservation) -> Book {
    (0..MOST).map(make).collect()
}

/// What is asked of a full book, and gets this refusal there: 17 where nothing is in conflict.
fn asks(book: &Book, refusal: u32, call: Ours, mut make: impl FnMut() -> Ask) -> &'static [Ask] {
    let mut book = book.clone();
    let mut one = || std::iter::repeat_with(&mut make).take(1000).find(|a| call(a, &mut book).refusal.number == refusal);
    many(|| one().expect("something that gets the refusal"))
}

/// The book with its last record free.
pub fn one_free(book: &Book) -> Book {
    let mut book = book.clone();
    book[LAST].live = 0;
    book
}

/// Records that share no minute with what is asked.
pub fn minutes_apart(dice: &mut Dice) -> (Book, &'static [Ask]) {
    let book = book(|flight| {
        let level = dice.between(5, 8);
        record(&ask(Code::plane(&near(dice, level, 61_440)), flight, minutes(dice, (DAY / 2, DAY))), plane_ours)
    });
    let asks = asks(&book, 17, plane_ours, || ask(Code::plane(&near(dice, 10, 61_440)), MOST, minutes(dice, (0, DAY / 2))));
    (book, asks)
}

/// Records that share every minute and layer with what is asked, and no square: other latitudes in all but a few.
pub fn squares_apart(dice: &mut Dice) -> (Book, &'static [Ask]) {
    let book = book(|flight| record(&ask(Code::plane(&near(dice, 7, 61_440)), flight, (0, DAY as u32)), plane_ours));
    let asks = asks(&book, 17, plane_ours, || ask(Code::plane(&near(dice, 10, 61_440)), MOST, minutes(dice, (0, DAY))));
    (book, asks)
}

/// Records that share every minute, layer and latitude with what is asked, and no longitude.
pub fn longitudes_apart(dice: &mut Dice) -> (Book, &'static [Ask]) {
    let row = |dice: &mut Dice, level| Position { latitude: 294_861_578, ..near(dice, level, 7_372_800) };
    let book = book(|flight| record(&ask(Code::plane(&row(dice, 7)), flight, (0, DAY as u32)), plane_ours));
    let asks = asks(&book, 17, plane_ours, || ask(Code::plane(&row(dice, 10)), MOST, minutes(dice, (0, DAY))));
    (book, asks)
}

/// A board's day: plane and space codes of levels 5 to 8 in one minute of arc, at all hours.
pub fn board(dice: &mut Dice) -> Book {
    book(|flight| {
        let level = dice.between(5, 8);
        let (p, when) = (near(dice, level, 61_440), minutes(dice, (0, DAY)));
        if dice.next().is_multiple_of(2) {
            record(&ask(Code::plane(&p), flight, when), plane_ours)
        } else {
            record(&ask(Code::space(&p), flight, when), space_ours)
        }
    })
}

/// What a board asks for, as codes of one kind, with nothing in conflict.
pub fn of_the_board(dice: &mut Dice, board: &Book, code: fn(&Position) -> Code, call: Ours) -> &'static [Ask] {
    asks(board, 17, call, || ask(code(&near(dice, 10, 61_440)), MOST, minutes(dice, (0, DAY))))
}

/// What is asked for lies in the board's first record.
pub fn in_conflict(dice: &mut Dice, board: &Book) -> &'static [Ask] {
    let first = board[0];
    asks(board, 16, plane_ours, || {
        let (east, north) = (dice.between(0, first.width as i64 - 1), dice.between(0, first.height as i64 - 1));
        let p = Position { longitude: first.west as i64 + east, latitude: first.south as i64 + north, ..near(dice, 10, 0) };
        ask(Code::plane(&p), MOST, (first.start, first.end))
    })
}

/// A record with numbers of every kind, in range or not.
pub fn odd(dice: &mut Dice) -> HgReservation {
    let corner = |dice: &mut Dice| match dice.between(0, 5) {
        0 => i32::MIN,
        1 => i32::MAX,
        2 => dice.between(-1_327_104_002, -1_327_103_998) as i32,
        3 => dice.between(1_327_103_998, 1_327_104_002) as i32,
        4 => dice.between(-500, 500) as i32,
        _ => dice.next() as i32,
    };
    let size = |dice: &mut Dice| match dice.between(0, 5) {
        0 => 0,
        1 => u32::MAX,
        2 => dice.between(2_654_207_998, 2_654_208_002) as u32,
        3 => dice.between(0, 100_000) as u32,
        4 => 1,
        _ => dice.next() as u32,
    };
    HgReservation {
        live: [0, 1, 1, 2, u32::MAX][dice.between(0, 4) as usize],
        flight: dice.between(0, 40) as u32,
        level: dice.next() as u32,
        west: corner(dice),
        south: corner(dice),
        width: size(dice),
        height: size(dice),
        floor: corner(dice),
        thickness: size(dice),
        start: dice.between(0, 300) as u32,
        end: dice.between(0, 300) as u32,
    }
}

/// The record moved along one side by its own size, or by one more or less, so that it touches where it was, or just does not, or shares the last of
/// it; or with no width. One that is moved up or down gets a hundred layers: below all layers there is no room for as many.
pub fn beside(dice: &mut Dice, r: HgReservation) -> HgReservation {
    let (more, way) = (dice.between(-1, 1), 1 - 2 * dice.between(0, 1));
    let by = |size: u32| way * (size as i64 + more);
    let minutes = by(r.end - r.start);
    match dice.between(0, 4) {
        0 => HgReservation { west: (r.west as i64 + by(r.width)) as i32, ..r },
        1 => HgReservation { south: (r.south as i64 + by(r.height)) as i32, ..r },
        2 => HgReservation { floor: (r.floor as i64 + by(if way > 0 { r.thickness } else { 100 })) as i32, thickness: 100, ..r },
        3 => HgReservation { width: 0, ..r },
        _ => HgReservation { start: (r.start as i64 + minutes) as u32, end: (r.end as i64 + minutes) as u32, ..r },
    }
}
