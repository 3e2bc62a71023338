//! Place books, good and bad, and what to ask of them: names and short codes.

use super::{anywhere, damage, other_character, random_longitude, Random};
use crate::places::plain::{made, Entry};
use crate::places::NAME_MOST;
use crate::plane::{write::finest, LENGTHS, POLAR_INDEX};
use crate::reference::OFFSETS;
use std::collections::BTreeMap;

/// An entry of this name and code.
pub fn placed(name: &[u8], code: &[u8]) -> Entry {
    (name.to_vec(), code.to_vec())
}

/// Small lists of entries that make good books: of none to five; names that
/// begin alike, that differ in case, with every kind of byte, and like codes.
pub fn small_places() -> Vec<Vec<Entry>> {
    let long = [b'n'; NAME_MOST];
    vec![
        vec![],
        vec![placed(b"mast", b"N50J475492E")],
        vec![placed(b"a", b"N31A"), placed(b"ab", b"N000")],
        vec![placed(b"A", b"N31V075A9EE3"), placed(b"Ab", b"N000001"), placed(b"a", b"S30A0000000")],
        vec![
            placed(b"\0", b"N31A"),
            placed(b"\0\0", b"S31V00"),
            placed(b"\x7f", b"N31A000"),
            placed(b"\x80", b"N31A00000"),
            placed(b"\xff", b"N36J93078B3101524314"),
        ],
        vec![
            placed(b"0", b"N31A"),
            placed(b"00", b"N31A00"),
            placed(b"10", b"S00033"),
            placed(b"9", b"N50J475492E"),
            placed(b"N31A", b"N31A"),
        ],
        vec![placed(&long[1..], b"N31A"), placed(&long, b"N01A0000000"), placed(b"o", b"S000")],
    ]
}

/// A good name: of few letters, so that names are often the same or begin
/// alike; now and then of about 64 bytes.
fn name(random: &mut Random) -> Vec<u8> {
    let length = if random.one_in(16) { NAME_MOST - random.below(3) as usize } else { random.between(1, 3) as usize };
    let alike = random.one_in(2);
    (0..length).map(|_| random.pick(if alike { b"ab" } else { b"abAB019N\0\x7f\x80\xff" })).collect()
}

/// A name that is in no book: empty, too long, or with a hyphen.
fn odd_name(random: &mut Random) -> Vec<u8> {
    let mut name = name(random);
    match random.below(4) {
        0 => name.clear(),
        1 => name.resize(NAME_MOST + random.between(1, 3) as usize, b'a'),
        _ => {
            let at = random.below(name.len() as u64) as usize;
            name[at] = b'-';
        }
    }
    name
}

/// A code for a place: anywhere, and mostly one that a short code can lead from;
/// often a few cells from 88°.
fn code(random: &mut Random) -> Vec<u8> {
    let least = if random.one_in(3) { 1 } else { 5 };
    let level = random.between(least, 10) as usize;
    let (longitude, latitude) = match random.below(4) {
        0 => anywhere(random),
        1 => (random_longitude(random), POLAR_INDEX - random.pick(&[1, 9, 500, 30_000])),
        _ => super::ordinary(random),
    };
    let latitude = if random.one_in(2) { latitude } else { -1 - latitude };
    finest(longitude, latitude)[..LENGTHS[level - 1]].to_vec()
}

/// So many entries that make a good book, or a few less.
pub fn place_list(random: &mut Random, count: usize) -> Vec<Entry> {
    let map: BTreeMap<_, _> = (0..count).map(|_| (name(random), code(random))).collect();
    map.into_iter().collect()
}

/// So many entries that make a book of so many bytes, good if both may be.
pub fn filled_places(random: &mut Random, count: usize, bytes: usize) -> Vec<Entry> {
    // So many bytes for each need the longest codes.
    let long = 70 * count < bytes;
    let mut list: Vec<Entry> = (0..count)
        .map(|at| {
            let code = code(random);
            let level_10 = finest(at as i64, at as i64).to_vec();
            (format!("{at:04}").into_bytes(), if long { level_10 } else { code })
        })
        .collect();
    let mut left = bytes - made(&list).len();
    for (at, (name, _)) in list.iter_mut().enumerate() {
        let more = left.div_ceil(count - at);
        name.extend((0..more).map(|_| random.pick(b"abc\0\xff")));
        left -= more;
    }
    list
}

/// A book whose bodies lie in this order, each behind so many other bytes, and
/// whose contents say where.
pub fn laid_out(list: &[Entry], order: &[usize], gaps: &[usize]) -> Vec<u8> {
    let (mut bodies, mut book) = (Vec::new(), made(list));
    book.truncate(2 + 4 * list.len());
    for (&which, &gap) in order.iter().zip(gaps) {
        let (name, code) = &list[which];
        bodies.resize(bodies.len() + gap, b'g');
        let start = (book.len() + bodies.len()) as u16;
        book[2 + 4 * which..4 + 4 * which].copy_from_slice(&start.to_be_bytes());
        bodies.extend(name.iter().chain(code));
    }
    book.extend(bodies);
    book
}

/// A book of two entries of which the second's name is the end of the first's
/// code, and both lie on the same bytes there.
pub fn overlapping(first: &[u8], code: &[u8], shared: usize, second: &[u8]) -> Vec<u8> {
    let name = &code[code.len() - shared..];
    let mut book = made(&[placed(first, code), placed(name, second)]);
    let start = 10 + first.len() + code.len();
    book.drain(start..start + shared);
    book[7] -= shared as u8;
    book
}

/// A book that has something wrong, or comes out good after all.
pub fn spoiled(random: &mut Random, list: &[Entry]) -> Vec<u8> {
    let (mut list, mut book) = (list.to_vec(), made(list));
    let at = random.below(list.len() as u64) as usize;
    let next = (at + 1).min(list.len().saturating_sub(1));
    let order: Vec<usize> = (0..list.len()).collect();
    match random.below(13) {
        0 => damage(random, &mut book),
        1 => book.truncate(random.below(book.len() as u64) as usize),
        2 => book.extend((0..random.between(1, 5)).map(|_| other_character(random))),
        3 => wrong_field(random, &mut book, list.len()),
        _ if list.is_empty() => book[1] = 1,
        4 => {
            let gaps: Vec<usize> = order.iter().map(|_| usize::from(random.one_in(3))).collect();
            book = laid_out(&list, &order, &gaps);
        }
        5 => book = laid_out(&list, &order.iter().rev().copied().collect::<Vec<_>>(), &vec![0; list.len()]),
        6 => other_offsets(&mut book, list.len(), random.one_in(2)),
        7 => {
            let (first, second, shared) = (name(random), code(random), random.between(1, 3) as usize);
            book = overlapping(&first, &list[at].1, shared, &second);
        }
        other => {
            match other {
                8 => list.swap(at, next),
                9 => list.insert(at, placed(&list[at].0, &list[next].1)),
                10 => list[at].0 = odd_name(random),
                11 => cut_elsewhere(random, &mut list, at),
                _ => damage(random, &mut list[at].1),
            }
            book = made(&list);
        }
    }
    book
}

/// The same bodies with a cut one byte further on: between a name and its code,
/// or between a code and the next name.
fn cut_elsewhere(random: &mut Random, list: &mut [Entry], at: usize) {
    match list[at..].split_first_mut() {
        Some(((_, code), [(name, _), ..])) if random.one_in(2) => code.extend(name.drain(..1)),
        Some(((name, code), _)) => name.extend(code.drain(..1)),
        None => {}
    }
}

/// One of the fields one up or down: the count, or of an entry the offset, the
/// name's length or the code's.
fn wrong_field(random: &mut Random, book: &mut [u8], entries: usize) {
    let place = random.below(2 + 4 * entries as u64) as usize;
    book[place] = book[place].wrapping_add(random.pick(&[1, 255]));
}

/// Offsets from the bodies' start, or with the lower byte first as the count.
fn other_offsets(book: &mut [u8], entries: usize, lower_first: bool) {
    let contents = 2 + 4 * entries;
    for entry in book[2..contents].chunks_exact_mut(4) {
        let offset = u16::from_be_bytes([entry[0], entry[1]]);
        let other = if lower_first { offset.to_le_bytes() } else { offset.wrapping_sub(contents as u16).to_be_bytes() };
        entry[..2].copy_from_slice(&other);
    }
    if lower_first {
        book.swap(0, 1);
    }
}

/// Names about those of a book: each, what is just below and above it, what it
/// begins with, what goes on from it, its other case; and what no book has.
pub fn names_about(list: &[Entry]) -> Vec<Vec<u8>> {
    let mut names = vec![vec![], b"-".to_vec(), b"-10".to_vec(), vec![b'n'; NAME_MOST + 1], vec![b'n'; 256], vec![0], vec![255; NAME_MOST]];
    for (name, code) in list {
        let Some((last, start)) = name.split_last() else { continue };
        let with = |byte: u8| [start, &[byte]].concat();
        let on = |more: &[u8]| [name, more].concat();
        let other_case = name.iter().map(|byte| byte ^ if byte.is_ascii_alphabetic() { 32 } else { 0 });
        names.extend([name.clone(), start.to_vec(), with(last.wrapping_sub(1)), with(last.wrapping_add(1)), other_case.collect()]);
        names.extend([on(b"\0"), on(b"a"), on(b"-"), on(b"-10"), on(code), code.clone(), on(&[b'n'; NAME_MOST])]);
    }
    names
}

/// A name to ask of a book: mostly one of its own, or about one.
pub fn asked_name(random: &mut Random, list: &[Entry]) -> Vec<u8> {
    let at = random.below(list.len() as u64) as usize;
    match (random.below(12), list.get(at)) {
        (0, _) => odd_name(random),
        (1 | 2, _) | (6.., None) => name(random),
        (3..6, _) => {
            let names = names_about(list.get(at..=at).unwrap_or(&[]));
            names[random.below(names.len() as u64) as usize].clone()
        }
        (_, Some((name, _))) => name.clone(),
    }
}

/// A short code to ask of a book: mostly a good one; now and then its end alone.
pub fn short_code(random: &mut Random, list: &[Entry]) -> Vec<u8> {
    let mut end = [b'-', random.pick(OFFSETS), random.pick(OFFSETS)];
    for character in &mut end {
        if random.one_in(12) {
            *character = other_character(random);
        }
    }
    let mut code = asked_name(random, list);
    code.extend(end);
    let kept = if random.one_in(12) { code.len().min(random.below(5) as usize) } else { code.len() };
    code.split_off(code.len() - kept)
}
