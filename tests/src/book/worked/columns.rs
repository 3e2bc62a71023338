//! Wish 7: "A plane code holds the whole column." The layers of edition 1 are 128
//! times 29,491,200: N131A00 is the lowest cell over N31A, N131A63 the one just
//! below ground, N031A00 the one just above it and N031A63 the highest.

use super::*;
use crate::cases::MARKS;

/// The layers -1,887,436,800, -1, 0 and 1,887,436,799 over N31A's south-west
/// corner.
const LOWEST: &str = "N131A000000000000000000000000000";
const UNDER: &str = "N131A630070100E00E01007007007007";
const OVER: &str = "N031A000000000000000000000000000";
const HIGHEST: &str = "N031A630070100E00E01007007007007";

const BELOW_GROUND: [&str; 4] = ["N131A00", "N131A63", LOWEST, UNDER];
const ABOVE_GROUND: [&str; 4] = ["N031A00", "N031A63", OVER, HIGHEST];

const NIGHT: (u32, u32) = (60, 120);

type Adder = fn(&str, u32, (u32, u32), &mut [Reservation]) -> Given;

/// Two codes, in both orders, behind a record of another cell: what the second of
/// them gets.
fn both_orders(one: (Adder, &str), other: (Adder, &str), given: Given) {
    for ((first, code), (second, with)) in [(one, other), (other, one)] {
        let mut book = [Reservation::default(); 4];
        assert_eq!(plane("N32A", 1, NIGHT, &mut book), Ok(0));
        assert_eq!(first(code, 2, NIGHT, &mut book), Ok(1));
        assert_eq!(second(with, 3, NIGHT, &mut book), given, "{code}, {with}");
    }
}

/// "Every layer from -1,887,436,800 up."
#[test]
fn whole() {
    let mut book = [Reservation::default(); 2];
    assert_eq!(plane("N31A00", 7, NIGHT, &mut book), Ok(0));
    assert_eq!((book[0].cell.floor, book[0].cell.thickness), (-1_887_436_800, 3_774_873_600));
    for code in BELOW_GROUND.into_iter().chain(ABOVE_GROUND) {
        both_orders((plane, "N31A"), (space, code), refused(16, 1));
        both_orders((plane, "N30A"), (space, code), Ok(2));
        both_orders((plane, "N31B"), (space, code), Ok(2));
    }
    both_orders((plane, "N31A"), (plane, "N31A00"), refused(16, 1));
}

/// "The old meaning": layers 0 to 1,887,436,799.
#[test]
fn from_the_ground_up() {
    let mut book = [Reservation::default(); 2];
    assert_eq!(ground("N31A00", 7, NIGHT, &mut book), Ok(0));
    assert_eq!((book[0].cell.floor, book[0].cell.thickness), (0, 1_887_436_800));
    for (below, above) in BELOW_GROUND.into_iter().zip(ABOVE_GROUND) {
        both_orders((ground, "N31A"), (space, below), Ok(2));
        both_orders((ground, "N31A"), (space, above), refused(16, 1));
    }
    both_orders((ground, "N31A"), (plane, "N31A00"), refused(16, 1));
    both_orders((plane, "N31A"), (ground, "N31A00"), refused(16, 1));
    both_orders((ground, "N31A"), (ground, "N31A00"), refused(16, 1));
    both_orders((ground, "N31A"), (plane, "N30A"), Ok(2));
}

/// A live record over all longitudes and latitudes with these layers, and what
/// each call gets beside it.
fn beside(live: u32, (floor, thickness): (i32, u32), asked: &[((Adder, &str), bool)]) {
    let mut record = Reservation { live, flight: 9, start: 0, end: u32::MAX, ..Reservation::default() };
    (record.cell.plane.width, record.cell.plane.south, record.cell.plane.height) = (u32::MAX, i32::MIN, u32::MAX);
    (record.cell.floor, record.cell.thickness) = (floor, thickness);
    for &((call, code), conflicts) in asked {
        let mut book = [Reservation::default(), record];
        assert_eq!(call(code, 2, NIGHT, &mut book), if conflicts { refused(16, 1) } else { Ok(0) }, "{code} {floor} {thickness}");
        assert_eq!(book[1], record);
    }
}

/// "Records already live are taken as they stand": one that a plane code made
/// before the wish leaves what is below ground free.
#[test]
fn live_before() {
    for live in &MARKS[1..] {
        let columns: [(Adder, &str); 2] = [(plane, "N31A"), (ground, "N31A")];
        beside(*live, (0, 1_887_436_800), &columns.map(|column| (column, true)));
        beside(*live, (0, 1_887_436_800), &BELOW_GROUND.map(|code| ((space as Adder, code), false)));
        beside(*live, (0, 1_887_436_800), &ABOVE_GROUND.map(|code| ((space as Adder, code), true)));
    }
}

/// Lent records at both ends of both columns, with sums past 32 bits: whether the
/// whole column and the one from the ground up conflict with them.
#[test]
fn lent() {
    for (layers, whole, from_ground) in [
        // From the lowest number up to -1,887,436,801 and to the layer above it, to -1 and to 0, and to 2,147,483,646.
        ((i32::MIN, 260_046_848), false, false),
        ((i32::MIN, 260_046_849), true, false),
        ((i32::MIN, 2_147_483_648), true, false),
        ((i32::MIN, 2_147_483_649), true, true),
        ((i32::MIN, u32::MAX), true, true),
        ((-1_887_436_801, 1), false, false),
        ((-1_887_436_801, 2), true, false),
        ((-1_887_436_800, 0), false, false),
        ((-1_887_436_800, 1), true, false),
        ((-1_887_436_800, 1_887_436_800), true, false),
        ((-1_887_436_800, 1_887_436_801), true, true),
        ((-1_887_436_800, 3_774_873_600), true, true),
        ((-1, 1), true, false),
        ((-1, u32::MAX), true, true),
        ((0, 1), true, true),
        ((0, u32::MAX), true, true),
        // From the highest layer, and from the number above it: sums of 32 bits would end at -1,887,436,800, 0 and just above these.
        ((1_887_436_799, 0), false, false),
        ((1_887_436_799, 1), true, true),
        ((1_887_436_799, u32::MAX), true, true),
        ((1_887_436_800, 1), false, false),
        ((1_887_436_800, 520_093_696), false, false),
        ((1_887_436_800, 520_093_697), false, false),
        ((1_887_436_800, 2_407_530_496), false, false),
        ((1_887_436_800, 2_407_530_497), false, false),
        ((1_887_436_800, u32::MAX), false, false),
        ((i32::MAX, u32::MAX), false, false),
    ] {
        beside(1, layers, &[((plane, "N31A"), whole), ((ground, "N31A"), from_ground)]);
    }
}
