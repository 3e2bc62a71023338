//! The families of cases of each part of the library, and what they share. A fixed family has a number of pieces that are done whole; a random
//! one is done round by round.

use crate::checks::Run;
use hailgully_tests::book::Reservation;
use hailgully_tests::cases::{self, Random};

mod arcseconds;
mod book;
mod characters;
mod ends;
mod long;
mod own;
mod places;
mod plane;
mod reference;
mod regions;
mod space;

pub enum Kind {
    /// So many pieces; the function does one of them.
    Fixed(u64, fn(&mut Run, u64)),
    /// A share of the random cases; the function does one round.
    Random(u64, fn(&mut Run)),
    /// The quick oracle against the lists, so many rounds in all.
    Own(u64, fn(&mut Run)),
}

pub struct Family {
    pub name: &'static str,
    pub kind: Kind,
}

/// All of them; those that lend memory of 2^31 bytes and more only where it may be huge.
pub fn all(huge: bool) -> Vec<Family> {
    [
        own::families(),
        long::families(huge),
        places::families(),
        regions::families(),
        ends::families(),
        characters::families(),
        plane::families(),
        space::families(),
        reference::families(),
        arcseconds::families(),
        book::families(),
    ]
    .into_iter()
    .flatten()
    .collect()
}

fn fixed(name: &'static str, pieces: u64, piece: fn(&mut Run, u64)) -> Family {
    Family { name, kind: Kind::Fixed(pieces, piece) }
}

fn random(name: &'static str, share: u64, round: fn(&mut Run)) -> Family {
    Family { name, kind: Kind::Random(share, round) }
}

/// Those things of a list that one of several pieces does.
fn part<T: Clone>(list: &[T], piece: u64, pieces: usize) -> impl Iterator<Item = T> + '_ {
    list.iter().skip(piece as usize).step_by(pieces).cloned()
}

/// A line length and a place in it: mostly with room for `need` bytes, often just so or one byte short, sometimes past the end or near 2^64.
fn fit(run: &mut Run, need: usize) -> (usize, usize) {
    let random = &mut run.random;
    let at = random.below(24) as usize;
    match random.below(12) {
        0 => (at + need, at),
        1 => (at + need - 1, at),
        2 => (at, at + random.below(3) as usize),
        3 => (random.below(60) as usize, usize::MAX - random.below(40) as usize),
        4 => (random.below(60) as usize, random.draw() as usize),
        _ => (at + need + random.below(10) as usize, at),
    }
}

/// Line lengths up to the most, by places up to a little more, and by those that would wrap or be cut to something small.
fn each_room(most: usize, mut ask: impl FnMut(usize, usize)) {
    let mut places: Vec<usize> = (0..=most + 2).chain((0..=34).map(|back| usize::MAX - back)).collect();
    for bits in [8, 16, 31, 32, 63] {
        places.extend([(1 << bits) - 1, 1 << bits, (1 << bits) + 1]);
    }
    for length in 0..=most {
        for &at in &places {
            ask(length, at);
        }
    }
}

/// Every byte at every place of a code.
fn each_change(code: &[u8], mut ask: impl FnMut(&[u8])) {
    let mut changed = code.to_vec();
    for place in 0..code.len() {
        for byte in 0..=255 {
            changed[place] = byte;
            ask(&changed);
        }
        changed[place] = code[place];
    }
}

/// Every two bytes at a place and the next.
fn each_two(code: &[u8], place: usize, mut ask: impl FnMut(&[u8])) {
    let mut changed = code.to_vec();
    for first in 0..=255 {
        for second in 0..=255 {
            changed[place] = first;
            changed[place + 1] = second;
            ask(&changed);
        }
    }
}

/// Lengths 0 to 60 of a code that goes on with each of the fills.
fn each_length(code: &[u8], fills: &[u8], mut ask: impl FnMut(&[u8])) {
    for &fill in fills {
        let mut long = [fill; 60];
        long[..code.len()].copy_from_slice(code);
        for length in 0..=60 {
            ask(&long[..length]);
        }
    }
}

/// A book with a free record between two live ones, which name nothing.
fn with_one_free(random: &mut Random) -> [Reservation; 3] {
    [1, 0, 2].map(|live| cases::nothing(random, live, live))
}

/// Reads a code; often also with a character changed, and now and then at another length, 0 to 60.
fn read_about(run: &mut Run, code: &mut [u8], read: impl Fn(&mut Run, &[u8])) {
    read(run, code);
    if run.random.one_in(3) {
        cases::damage(&mut run.random, code);
        read(run, code);
    }
    if run.random.one_in(12) {
        let mut bytes = [b'0'; 60];
        bytes[..code.len()].copy_from_slice(code);
        if run.random.one_in(2) {
            bytes[code.len()..].fill_with(|| run.random.draw() as u8);
        }
        let length = run.random.below(61) as usize;
        read(run, &bytes[..length]);
    }
}
