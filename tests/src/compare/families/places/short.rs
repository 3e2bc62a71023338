//! Short codes.

use super::any_list;
use crate::checks::Run;
use crate::families::{each_change, each_room, fit, fixed, part, random, Family};
use hailgully_tests::cases::{self, placed, small_places};
use hailgully_tests::places::plain::{made, Entry};
use hailgully_tests::plane::{write::finest, LENGTHS, POLAR_INDEX};
use hailgully_tests::reference::OFFSETS;

pub fn families() -> Vec<Family> {
    vec![
        fixed("short codes: every byte at every place", 6, every_byte),
        fixed("short codes: every three of good and bad characters", 6, three),
        fixed("short codes: all offsets from every kind of square", 20, offsets),
        fixed("short codes: lengths, and names with hyphens", 6, lengths),
        fixed("short codes: lines and places around the fit", 6, lines),
        fixed("short codes: every refusal with every other", 1, together),
        random("short codes: random", 3, shorts),
    ]
}

/// Names of each kind to begin a short code with, and a book: of a good base, of one below level 5, of a polar one and of one at 88°; absent; odd.
fn starts() -> (Vec<Entry>, Vec<&'static [u8]>) {
    let list = vec![
        placed(b"a", b"N50J475492E"),
        placed(b"ab", b"N31A"),
        placed(b"b", b"N0000000000"),
        placed(b"c", b"N31V075A9EE"),
        placed(b"d", b"S31V075A9EE37777"),
    ];
    (list, vec![b"a", b"ab", b"b", b"c", b"d", b"absent", b"", b"-", b"a-b", b"a-10", b"?"])
}

fn every_byte(run: &mut Run, piece: u64) {
    let (list, starts) = starts();
    let book = made(&list);
    for start in part(&starts, piece, 6) {
        each_change(&[start, b"-10"].concat(), |code| {
            run.short_read(code, &book, 20, 0);
            run.short_read(code, &book[1..], 20, 0);
            run.short_read(code, &book, 3, 0);
        });
    }
}

/// Good ones, garbled ones, misplaced ones, and a hyphen at each of the last three places.
fn three(run: &mut Run, piece: u64) {
    let (list, starts) = starts();
    let book = made(&list);
    let kinds = b"-07G8HVWg?\0\xff";
    for start in part(&starts, piece, 6) {
        for &hyphen in kinds {
            for &east in kinds {
                for &north in kinds {
                    run.short_read(&[start, &[hyphen, east, north]].concat(), &book, 20, 0);
                }
            }
        }
    }
}

/// Squares of each kind and beside 88°, at all levels.
fn offsets(run: &mut Run, piece: u64) {
    let mut squares = cases::places_of_each_kind();
    squares.extend([POLAR_INDEX - 1, -POLAR_INDEX, POLAR_INDEX - 20_000, 0].map(|latitude| (-1, latitude)));
    let (longitude, latitude) = squares[piece as usize];
    let code = finest(longitude, latitude);
    for (level, length) in (1..=10).zip(LENGTHS) {
        let book = made(&[placed(b"here", &code[..length]), placed(b"there", b"N31A")]);
        // Below level 5, and near a pole, few of them.
        let offsets = if level < 5 || (2..16).contains(&piece) { &b"G07"[..] } else { OFFSETS };
        for &east in offsets {
            for &north in offsets {
                run.short_read(&[b'h', b'e', b'r', b'e', b'-', east, north], &book, 22, 1);
            }
        }
    }
}

/// Every length of codes about a book's names; of three bytes and fewer also with bad characters.
fn lengths(run: &mut Run, piece: u64) {
    let list = &small_places()[piece as usize + 1];
    let book = made(list);
    for code in [
        &b"-10"[..],
        b"+10",
        b"V10",
        b"-8?",
        b"-?8",
        b"---",
        b"???",
        b"",
        b"-",
        b"--",
        b"10",
        b"a-10",
        b"--10",
        b"?-10",
        b"-10-10",
        b"\0-10",
    ] {
        run.short_read(code, &book, 20, 0);
        run.short_read(code, &book[1..], 20, 0);
        run.short_read(code, &[0, 0], 20, 0);
    }
    for name in cases::names_about(list) {
        for more in [&b"-10"[..], b"-1", b"-", b"-10-10", b"-100", b"--10", b"0-10", b"+10", b"-H0"] {
            run.short_read(&[&name, more].concat(), &book, 20, 0);
        }
    }
}

/// Of levels 5 to 10.
fn lines(run: &mut Run, piece: u64) {
    let code = &finest(5, 5)[..LENGTHS[4 + piece as usize]];
    let edge = &finest(5, POLAR_INDEX - 1)[..code.len()];
    let book = made(&[placed(b"a", code), placed(b"b", edge), placed(b"c", &code[..4])]);
    each_room(code.len() + 3, |length, at| {
        run.short_read(b"a-1A", &book, length, at);
        for code in [&b"b-01"[..], b"c-1A", b"d-1A", b"a-8A", b"-1A"] {
            if length % 7 == 4 {
                run.short_read(code, &book, length, at);
            }
        }
    });
}

/// Books good and bad, names, ends of codes and rooms: all with all.
fn together(run: &mut Run, _: u64) {
    let (list, starts) = starts();
    let good = made(&list);
    let unordered: Vec<Entry> = list.iter().rev().cloned().collect();
    for book in [&good[..], &made(&unordered), &[&good[..], b"0"].concat(), &good[..good.len() - 1], b"", b"\0"] {
        for start in &starts {
            for end in [&b"-10"[..], b"-01", b"-0A", b"+10", b"V10", b"-?0", b"-80", b"-1?", b"-1V", b"-8?", b"-?8", b"", b"-1"] {
                for (length, at) in [(20, 0), (20, 10), (10, 0), (3, 0), (0, 0), (20, 21), (20, usize::MAX)] {
                    run.short_read(&[*start, end].concat(), book, length, at);
                }
            }
        }
    }
}

/// One that is about good, with room that is about enough.
pub fn ask(run: &mut Run, list: &[Entry], book: &[u8]) {
    let code = cases::short_code(&mut run.random, list);
    let need = run.random.pick(&LENGTHS);
    let (line, at) = fit(run, need);
    run.short_read(&code, book, line, at);
}

fn shorts(run: &mut Run) {
    let list = any_list(run);
    let book = if run.random.one_in(6) { cases::spoiled(&mut run.random, &list) } else { made(&list) };
    for _ in 0..10 {
        ask(run, &list, &book);
    }
}
