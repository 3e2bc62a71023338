//! Garbled or misplaced (Wish 5 of document 02), for every call that reads a code: every byte at every place of codes of every length and every kind
//! of cell; and two bad characters at every pair of places, of which the first decides.

use super::{each_change, fixed, with_one_free, Family};
use crate::checks::{Books, Run};
use hailgully_tests::book::{Kind, Request};
use hailgully_tests::cases;
use hailgully_tests::plane::{write::finest, LENGTHS, SOUTH};
use hailgully_tests::space::{self, Edition};

pub fn families() -> Vec<Family> {
    let readers = READERS.len() as u64;
    vec![
        fixed("characters: every byte at every place, every reader", SQUARES * readers, every_byte),
        fixed("characters: two bad ones, every pair of places, every reader", SQUARES * readers, two_bad),
        fixed("characters: bad ones in base and target", SQUARES, in_both),
    ]
}

/// What reads a code; of the reference writer each of the two that it reads.
#[derive(Clone, Copy, PartialEq, Eq)]
enum Reader {
    Plane,
    PlaneBox,
    Space(Edition),
    Reference,
    Base,
    Target,
    Add(Kind),
}

use Reader::*;

const READERS: &[Reader] = &[
    Plane,
    PlaneBox,
    Space(Edition::Ours),
    Space(Edition::Theirs),
    Reference,
    Base,
    Target,
    Add(Kind::Plane),
    Add(Kind::Ground),
    Add(Kind::Space),
];

/// Of the places of each kind: an ordinary square, a belt cell, a disc cell, a ring around a cap, and the pole itself, each in the north and in the
/// south.
const KINDS: &[usize] = &[0, 1, 4, 7, 8, 9, 12, 11, 14, 15];

/// These, and two that the seed picks.
const SQUARES: u64 = KINDS.len() as u64 + 2;

fn position(run: &mut Run, square: usize) -> (i64, i64) {
    match KINDS.get(square) {
        Some(&kind) => cases::places_of_each_kind()[kind],
        None if square == KINDS.len() => (cases::random_longitude(&mut run.random), run.random.between(SOUTH.0, SOUTH.1)),
        None => cases::polar(&mut run.random),
    }
}

impl Reader {
    fn tall(self) -> bool {
        matches!(self, Space(_) | Add(Kind::Space))
    }

    /// The codes of a square at all levels; a reference code has its hyphen, M and N. Heights begin with 63, after which no more is allowed, or
    /// with 0 and a digit that is not allowed after 6, or otherwise.
    fn codes(self, run: &mut Run, square: usize) -> Vec<Vec<u8>> {
        let (longitude, latitude) = position(run, square);
        let layer = [-1, 230_000_000, -999_999_999][square % 3];
        let edition = if self == Space(Edition::Theirs) { Edition::Theirs } else { Edition::Ours };
        let (flat, tall) = (finest(longitude, latitude), space::finest(edition, (longitude, latitude), layer));
        let cut = |length: usize| match self {
            Reference => [&flat[..length], b"-2F"].concat(),
            _ if self.tall() => tall[..length].to_vec(),
            _ => flat[..length].to_vec(),
        };
        if self.tall() { space::LENGTHS } else { LENGTHS }.map(cut).to_vec()
    }

    /// A bad character of each kind for a place of a code: garbled, misplaced, and a hyphen, which its own place alone allows. V is misplaced
    /// everywhere but at a row letter's place, and there every digit is.
    fn bad(self, code: &[u8], place: usize) -> [u8; 3] {
        let letter = place == 3 + usize::from(self.tall()) && code[place] != b'0';
        [b'?', if letter { b'0' } else { b'V' }, b'-']
    }

    /// Asks for a code that was made of a good one; the book has a free record.
    fn ask(self, run: &mut Run, code: &[u8], good: &[u8], books: &mut Books) {
        match self {
            Plane => run.plane_read(code),
            PlaneBox => run.plane_box(code),
            Space(edition) => run.space_read(edition as i64, code),
            Reference => run.reference_read(code, 24, 1),
            Base => run.reference_write(code, good, 24, 1),
            Target => run.reference_write(good, code, 24, 1),
            Add(kind) => {
                if run.book_add(&Request::new(kind, code, 5, (0, 9)), books).is_some() {
                    run.book_release(5, books);
                }
            }
        }
    }
}

/// The square and the reader of a piece, and a book.
fn of_piece(run: &mut Run, piece: u64) -> (usize, Reader, Books) {
    let records = with_one_free(&mut run.random);
    (piece as usize / READERS.len(), READERS[piece as usize % READERS.len()], run.books(&records))
}

fn every_byte(run: &mut Run, piece: u64) {
    let (square, reader, mut books) = of_piece(run, piece);
    for good in reader.codes(run, square) {
        each_change(&good, |code| reader.ask(run, code, &good, &mut books));
    }
}

/// Of the longest code, and of one of another level.
fn two_bad(run: &mut Run, piece: u64) {
    let (square, reader, mut books) = of_piece(run, piece);
    let codes = reader.codes(run, square);
    for good in [&codes[9], &codes[square % 9]] {
        for second in 0..good.len() {
            for first in 0..second {
                for (one, other) in pairs(reader.bad(good, first), reader.bad(good, second)) {
                    let mut code = good.clone();
                    (code[first], code[second]) = (one, other);
                    reader.ask(run, &code, good, &mut books);
                }
            }
        }
    }
}

/// Of the longest base, and of one of another level.
fn in_both(run: &mut Run, piece: u64) {
    let codes = Base.codes(run, piece as usize);
    let target = &codes[9 - piece as usize % 10];
    for base in [&codes[9], &codes[piece as usize % 9]] {
        for first in 0..base.len() {
            for second in 0..target.len() {
                for (one, other) in pairs(Base.bad(base, first), Base.bad(target, second)) {
                    let (mut base, mut target) = (base.clone(), target.clone());
                    (base[first], target[second]) = (one, other);
                    run.reference_write(&base, &target, 24, 1);
                }
            }
        }
    }
}

/// Every kind with every kind.
fn pairs(one: [u8; 3], other: [u8; 3]) -> impl Iterator<Item = (u8, u8)> {
    one.into_iter().flat_map(move |one| other.into_iter().map(move |other| (one, other)))
}
