//! Lengths, places and editions that would be taken for others if they were cut to fewer bits, or took a sign: for every call, around 2^7 to 2^32;
//! lengths of books and of place books too.

use super::{fixed, Family};
use crate::checks::Run;
use hailgully_tests::book::{Kind, Request, Reservation};
use hailgully_tests::cases;
use hailgully_tests::places::plain::made;
use hailgully_tests::plane::{write, LENGTHS};
use hailgully_tests::space::{self, Edition};

/// Memory of 2^31 bytes and more is lent only where it may be: untouched pages cost a machine nothing, and an emulator gigabytes.
pub fn families(huge: bool) -> Vec<Family> {
    let mut families = vec![
        fixed("long: editions", 16, editions),
        fixed("long: books", SMALL.len() as u64, books),
        fixed("long: names, short codes and place books", SMALL.len() as u64, |run, piece| places(run, around(&SMALL, piece))),
    ];
    if huge {
        families.push(fixed("long: huge books", HUGE.len() as u64, huge_books));
        families.push(fixed("long: huge names, short codes and place books", HUGE.len() as u64, |run, piece| {
            places(run, around(&HUGE, piece))
        }));
    }
    families.push(fixed("long: lines and codes", 16 * SMALL.len() as u64, |run, piece| lines_and_codes(run, around(&SMALL, piece))));
    if huge {
        families.push(fixed("long: huge lines and codes", HUGE.len() as u64, |run, piece| lines_and_codes(run, around(&HUGE, piece))));
    }
    families
}

/// The first two of them are those at which a cut to 8 bits, or to a signed number of 8 bits, shows; and so on.
const SMALL: [u32; 4] = [7, 8, 15, 16];
const HUGE: [u32; 2] = [31, 32];

/// A number and a square.
type Around = (usize, (i64, i64));

/// Around what number a piece goes, and at which square.
fn around(bits: &[u32], piece: u64) -> Around {
    let (at, square) = (piece as usize % bits.len(), piece as usize / bits.len());
    (1 << bits[at], cases::places_of_each_kind()[square])
}

/// Both in turn, so that a fault of either is met soon.
fn lines_and_codes(run: &mut Run, around: Around) {
    lines(run, around);
    codes(run, around);
}

/// Books of a little more than the number of records, which would be good ones if it were cut off.
fn books(run: &mut Run, piece: u64) {
    let (near, square) = around(&SMALL, piece);
    let book: Vec<Reservation> = (0..near + 3).map(|at| cases::nothing(&mut run.random, at as u32 % 2, 1)).collect();
    for kind in Kind::ALL {
        let (_, code) = cases::coded(kind, 10, square, -7);
        run.book_add_once(&Request::new(kind, &code, 2, (3, 4)), &book);
    }
    run.book_release_once(1, &book);
}

fn huge_books(run: &mut Run, piece: u64) {
    let (near, (longitude, latitude)) = around(&HUGE, piece);
    run.huge_book(&write::finest(longitude, latitude), near + 3);
}

/// Names, short codes and place books longer by the number, which would be good ones if it were cut off; short codes whose last bytes are far behind
/// their first, and lines.
fn places(run: &mut Run, (near, (longitude, latitude)): Around) {
    let base = &write::finest(longitude, latitude)[..LENGTHS[4]];
    let book = made(&[cases::placed(b"mast", base)]);
    for by in (1..=if near <= 1 << 16 { 3 } else { 1 }).map(|times| times * near) {
        let fill = b"0-"[by / near % 2];
        let long = longer(&book, by, fill);
        run.place(b"mast", &long);
        run.short_read(b"mast-1A", &long, 24, 0);
        run.place(&longer(b"mast", by, fill), &book);
        let mut code = longer(b"mast-1A", by, fill);
        run.short_read(&code, &book, 24, 0);
        for end in [b"-1A", b"-V-", b"?-V"] {
            let start = code.len() - 3;
            code[start..].copy_from_slice(end);
            run.short_read(&code, &book, 24, 0);
        }
    }
    rooms(near, base.len(), |length, at| run.short_read(b"mast-1A", &book, length, at));
}

/// Lines with just enough room, or one byte less, at places around the number; lines of a little more than the number; places near 2^64.
fn rooms(near: usize, need: usize, mut ask: impl FnMut(usize, usize)) {
    for at in [near - need, near - 1, near, near + 1, near + 30] {
        ask(at + need, at);
        ask(at + need - 1, at);
    }
    for at in [0, usize::MAX, usize::MAX - need, usize::MAX - need + 1, near << 31, 1 << 63] {
        ask(near + 1, at);
    }
}

fn lines(run: &mut Run, (near, (longitude, latitude)): Around) {
    for (level, need) in (1..).zip(LENGTHS) {
        rooms(near, need, |length, at| run.plane_write(level, longitude, latitude, length, at));
    }
    for (level, need) in (1..).zip(space::LENGTHS) {
        rooms(near, need, |length, at| {
            for edition in [1, 2] {
                run.space_write(edition, level, (longitude, latitude), -7, length, at);
            }
        });
    }
    let (base, target) = (write::finest(5, 5), write::finest(5, -3));
    for need in &LENGTHS[4..] {
        let (base, target) = (&base[..*need], &target[..*need]);
        let code = [base, b"-1A"].concat();
        rooms(near, need + 3, |length, at| run.reference_write(base, target, length, at));
        rooms(near, *need, |length, at| run.reference_read(&code, length, at));
    }
}

fn editions(run: &mut Run, piece: u64) {
    let square = cases::places_of_each_kind()[piece as usize];
    let tall = space::finest(Edition::Ours, square, -7);
    for edition in cases::extremes((1, 2)).into_iter().chain(cases::ODD_EDITIONS) {
        for (level, length) in (1..).zip(space::LENGTHS) {
            run.space_write(edition, level, square, -7, 32, 0);
            run.space_read(edition, &tall[..length]);
        }
    }
}

/// A code that goes on for so many bytes more: zeros, and where memory is not huge anything.
fn longer(code: &[u8], by: usize, fill: u8) -> Vec<u8> {
    let mut long = vec![0; code.len() + by];
    if by <= 1 << 18 {
        long.fill(fill);
    }
    long[..code.len()].copy_from_slice(code);
    long
}

fn codes(run: &mut Run, (near, square): Around) {
    let times = if near <= 1 << 16 { 3 } else { 1 };
    let (flat, tall) = (write::finest(square.0, square.1), space::finest(Edition::Ours, square, -7));
    let base = write::finest(5, 5);
    let free = [cases::noise(&mut run.random, 0)];
    for by in (1..=times).map(|times| times * near) {
        let fill = b"0-"[by / near % 2];
        for (&length, tall_length) in LENGTHS.iter().zip(space::LENGTHS) {
            let long = longer(&flat[..length], by, fill);
            run.plane_read(&long);
            run.plane_box(&long);
            for kind in Kind::COLUMNS {
                run.book_add_once(&Request::new(kind, &long, 2, (3, 4)), &free);
            }
            let long = longer(&tall[..tall_length], by, fill);
            run.space_read(1, &long);
            run.space_read(2, &long);
            run.book_add_once(&Request::new(Kind::Space, &long, 2, (3, 4)), &free);
            run.reference_read(&longer(&[&base[..length], b"-1A"].concat(), by, fill), 24, 0);
            let long = longer(&base[..length], by, fill);
            run.reference_write(&long, &base[..11], 24, 0);
            run.reference_write(&base[..11], &long, 24, 0);
            run.reference_write(&long, &long, 24, 0);
        }
    }
}
