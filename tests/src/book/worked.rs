//! Wishes 3 and 7 of document 02 in worked cases, asked of the oracle, with the
//! numbers of Wish 5. The cells are those of document 01: N31A is 0° to 6° east,
//! 0° to 4° north.

mod columns;

use super::{plain, release, Kind, Request, Reservation, MOST};
use crate::cases::{nothing, Random};
use crate::plane::write::finest;
use crate::refusals::Refusal;

type Given = Result<usize, Refusal>;

fn refused(number: u32, place: u64) -> Given {
    Err(Refusal { number, ordinal: 1, place })
}

fn add(kind: Kind, code: &str, flight: u32, (start, end): (u32, u32), book: &mut [Reservation]) -> Given {
    let before = book.to_vec();
    let (given, applying) = Request::new(kind, code.as_bytes(), flight, (start, end)).add(book);
    assert_eq!(given.is_ok(), applying.is_empty());
    assert!(given.is_ok() || book == before);
    given
}

fn plane(code: &str, flight: u32, minutes: (u32, u32), book: &mut [Reservation]) -> Given {
    add(Kind::Plane, code, flight, minutes, book)
}

fn ground(code: &str, flight: u32, minutes: (u32, u32), book: &mut [Reservation]) -> Given {
    add(Kind::Ground, code, flight, minutes, book)
}

fn space(code: &str, flight: u32, minutes: (u32, u32), book: &mut [Reservation]) -> Given {
    add(Kind::Space, code, flight, minutes, book)
}

#[test]
fn a_day() {
    let mut book = [Reservation::default(); 4];
    assert_eq!(plane("N31A", 7, (60, 120), &mut book), Ok(0));
    let first = book[0];
    assert_eq!((first.live, first.flight, first.start, first.end), (1, 7, 60, 120));
    assert_eq!((first.cell.plane.level, first.cell.plane.width, first.cell.plane.height), (1, 44_236_800, 29_491_200));
    assert_eq!((first.cell.floor, first.cell.thickness), (-1_887_436_800, 3_774_873_600));
    // "The end not included": the next flight begins when this one ends.
    assert_eq!(plane("N31A", 8, (120, 121), &mut book), Ok(1));
    assert_eq!(plane("N31A00", 9, (119, 121), &mut book), refused(16, 0));
    assert_eq!(plane("N31A00", 9, (120, 200), &mut book), refused(16, 1));
    assert_eq!(plane("N32A", 9, (0, 200), &mut book), Ok(2));
    // Below ground a plane code holds its cell too, and no other one.
    assert_eq!(space("N131A63", 10, (60, 120), &mut book), refused(16, 0));
    assert_eq!(space("N131B63", 10, (60, 120), &mut book), Ok(3));
    assert_eq!(space("N031A00", 11, (60, 61), &mut book), refused(16, 0));
    assert_eq!(plane("N30A", 11, (0, 1), &mut book), refused(17, 0));
    assert_eq!(release(7, &mut book).0, Ok(0));
    assert_eq!(book[0], Reservation { live: 0, ..first });
    assert_eq!(release(7, &mut book).0, refused(18, 0));
    assert_eq!(space("N031A00", 11, (60, 61), &mut book), Ok(0));
    assert_eq!(plain::first_conflict(&book), None);
}

#[test]
fn refusals_in_order() {
    for column in [plane, ground] {
        let mut random = Random::new(3);
        let mut live: Vec<Reservation> = (0..=MOST).map(|at| nothing(&mut random, 2, at as u32)).collect();
        assert_eq!(column("n31A0", 3, (1, 1), &mut live), refused(19, 0));
        assert_eq!(release(999, &mut live).0, refused(19, 0));
        let book = &mut live[..MOST];
        assert_eq!(column("n31A0", 3, (1, 1), book), refused(6, 0));
        assert_eq!(column("N00A", 3, (1, 1), book), refused(20, 3));
        assert_eq!(column("N00-", 3, (1, 1), book), refused(7, 3));
        assert_eq!(space("N031A0000000F", 3, (1, 1), book), refused(6, 0));
        assert_eq!(space("N031A000000000F", 3, (1, 1), book), refused(20, 14));
        assert_eq!(space("N031A000000000f", 3, (1, 1), book), refused(7, 14));
        assert_eq!(column("N31A", 3, (1, 1), book), refused(14, 0));
        assert_eq!(column("N31A", 3, (u32::MAX, 0), book), refused(14, 0));
        assert_eq!(column("N31A", 3, (1, 2), book), refused(15, 0));
        assert_eq!(column("N31A", 999, (1, 2), book), refused(17, 0));
        book[200].live = 0;
        assert_eq!(release(200, book).0, refused(18, 0));
        assert_eq!(column("N31A", 200, (1, 2), book), Ok(200));
        assert_eq!(column("N31A", 999, (1, 2), book), refused(16, 200));
        assert_eq!(column("N31A", 200, (1, 2), book), refused(15, 0));
        assert_eq!(column("N31A", 1, (1, 2), &mut []), refused(17, 0));
        assert_eq!(release(1, &mut []).0, refused(18, 0));
    }
}

#[test]
fn around_the_globe() {
    let mut book = [Reservation::default(); 3];
    // Disc cell 02 runs from 120° to 240° east, straight through 180°; belt cell 21 is 180° to 240°.
    assert_eq!(plane("N00002", 1, (0, 9), &mut book), Ok(0));
    assert_eq!(plane("N00021", 2, (0, 9), &mut book), Ok(1));
    assert_eq!(plane("N000", 3, (8, 9), &mut book), refused(16, 0));
    assert_eq!(plane("N000000", 3, (8, 9), &mut book), Ok(2));
    // Lent records: 180° exactly and a turn away from it, and a width past a turn.
    let one = |west, width| {
        let mut record = Reservation { live: 9, flight: 1, start: 0, end: 9, ..Reservation::default() };
        (record.cell.plane.west, record.cell.plane.width) = (west, width);
        (record.cell.plane.south, record.cell.plane.height) = (i32::MIN, u32::MAX);
        (record.cell.floor, record.cell.thickness) = (-1, 2);
        record
    };
    for (west, width, given) in [
        (1_327_104_000, 1, refused(16, 0)),
        (1_327_103_999, 1, Ok(1)),
        (-1_327_104_001, 1, Ok(1)),
        (-1_327_104_001, 2, refused(16, 0)),
        (5, 2_654_208_000, refused(16, 0)),
        (5, 2_654_208_001, refused(16, 0)),
        (5, 0, Ok(1)),
        (-1_327_103_999, 2_654_207_999, Ok(1)),
        (-1_327_103_999, 2_654_208_000, refused(16, 0)),
    ] {
        let mut book = [one(west, width), Reservation::default()];
        let code = finest(-1_327_104_000, 0);
        assert_eq!(plane(std::str::from_utf8(&code).unwrap(), 2, (0, 1), &mut book), given, "{west} {width}");
    }
}
