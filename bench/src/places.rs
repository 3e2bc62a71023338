//! Place books of 1,000 names and of 10: a name is looked up, and a short code is read. Each call checks the whole book.

use crate::inputs::{Code, Dice, Position};
use crate::plain;
use crate::table::{Pass, Row};
use hailgully_raw::lent as ffi;
use std::collections::BTreeMap;
use std::hint::black_box;

const BAR: Option<f64> = Some(1.25);
/// How many names are asked for in a pass.
const CALLS: usize = 64;

type Names = BTreeMap<Vec<u8>, Code>;

/// A mast's name or a place's.
fn name(dice: &mut Dice) -> Vec<u8> {
    if dice.next().is_multiple_of(2) {
        return format!("mast {:05}", dice.between(0, 99_999)).into_bytes();
    }
    let length = dice.between(4, 20) as usize;
    std::iter::repeat_with(|| dice.between(97, 122) as u8).take(length).collect()
}

/// So many names with ordinary plane codes of levels 5 to 10.
fn names(dice: &mut Dice, count: usize) -> Names {
    let mut names = Names::new();
    while names.len() < count {
        let level = dice.between(5, 10);
        names.insert(name(dice), Code::plane(&Position::ordinary(dice, level)));
    }
    names
}

fn book(names: &Names) -> Vec<u8> {
    let mut bytes = (names.len() as u16).to_be_bytes().to_vec();
    let mut at = 2 + 4 * names.len();
    for (name, code) in names {
        bytes.extend((at as u16).to_be_bytes());
        bytes.extend([name.len() as u8, code.text().len() as u8]);
        at += name.len() + code.text().len();
    }
    names.iter().for_each(|(name, code)| bytes.extend([name, code.text()].concat()));
    bytes
}

/// Short codes by names of the book, in no order.
fn asked(dice: &mut Dice, names: &Names) -> Vec<Vec<u8>> {
    let all: Vec<&Vec<u8>> = names.keys().collect();
    let mut digit = || b"01234567ABCDEFG"[dice.next() as usize % 15];
    let offsets: Vec<[u8; 3]> = (0..CALLS).map(|_| [b'-', digit(), digit()]).collect();
    offsets.iter().map(|offset| [&all[dice.next() as usize % all.len()][..], offset].concat()).collect()
}

fn same_one(code: &[u8], places: &[u8]) {
    let name = &code[..code.len().saturating_sub(3)];
    let ours = ffi::place_part(name, places);
    plain::same(&ours.refusal, plain::places::find(name, places), |p| {
        assert_eq!((ours.start, ours.name_length, ours.code_length), (p.start as u64, p.name as u64, p.code as u64))
    });
    assert_eq!(ffi::place_find(name, places), ours.refusal);
    let (mut one, mut two) = ([7; 28], [7; 28]);
    let ours = ffi::short_read(code, places, &mut one, 2);
    let other = plain::places::follow(code, places, &mut two, 2);
    plain::same(&ours.refusal, other, |n| assert_eq!((ours.length, one), (n as u64, two)));
}

/// The plain functions agree with the library on these codes, on spoilt ones and on spoilt books.
fn same(dice: &mut Dice, codes: &[Vec<u8>], places: &[u8]) {
    for code in codes {
        same_one(code, places);
        same_one(&spoilt(dice, code), places);
        same_one(code, &spoilt(dice, places));
    }
}

/// One byte is another, or the last ones are missing.
fn spoilt(dice: &mut Dice, bytes: &[u8]) -> Vec<u8> {
    let mut bytes = bytes.to_vec();
    match dice.between(0, bytes.len() as i64) as usize {
        place if place == bytes.len() => bytes.truncate(place / 2),
        place => bytes[place] = dice.next() as u8,
    }
    bytes
}

fn pass<T>(codes: &'static [Vec<u8>], places: &'static [u8], call: impl Fn(&[u8], &[u8]) -> T + 'static) -> Pass {
    Box::new(move || {
        for code in codes {
            black_box(&call(code, black_box(places)));
        }
    })
}

fn row(dice: &mut Dice, count: usize) -> [Row; 3] {
    let names = names(dice, count);
    let (codes, places): (&'static [_], &'static [_]) = (asked(dice, &names).leak(), book(&names).leak());
    same(dice, codes, places);
    let find = pass(codes, places, |code, places| ffi::place_find(&code[..code.len() - 3], places));
    let part = pass(codes, places, |code, places| ffi::place_part(&code[..code.len() - 3], places));
    let find_plain = || pass(codes, places, |code, places| plain::places::find(&code[..code.len() - 3], places));
    let read = pass(codes, places, |code, places| ffi::short_read(code, places, &mut [0; 20], 0));
    let read_plain = pass(codes, places, |code, places| plain::places::follow(code, places, &mut [0; 20], 0));
    [
        Row::plain(format!("place find, {count} names"), find, find_plain(), BAR).of(CALLS),
        Row::plain(format!("place part, {count} names"), part, find_plain(), BAR).of(CALLS),
        Row::plain(format!("short read, {count} names"), read, read_plain, BAR).of(CALLS),
    ]
}

pub fn rows(dice: &mut Dice) -> Vec<Row> {
    [1_000, 10].into_iter().flat_map(|count| row(dice, count)).collect()
}
