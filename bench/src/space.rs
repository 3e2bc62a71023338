//! Space codes: written and read, over ordinary positions and all layers of both editions.

use crate::inputs::{each, many, Code, Dice, Position};
use crate::plain;
use crate::table::{Pass, Row};
use hailgully_raw::lent as ffi;
use std::hint::black_box;

fn write_ours(at: &'static [Position]) -> Pass {
    let mut line = [0u8; 36];
    Box::new(move || {
        for p in at {
            let (line, at) = (black_box(&mut line[..]), black_box(2));
            black_box(&ffi::space_write(p.edition, p.level, p.longitude, p.latitude, p.layer, line, at));
        }
    })
}

fn write_plain(at: &'static [Position]) -> Pass {
    let mut line = [0u8; 36];
    Box::new(move || {
        for p in at {
            let (line, at) = (black_box(&mut line[..]), black_box(2));
            black_box(&plain::space::write(p.edition, p.level, p.longitude, p.latitude, p.layer, line, at));
        }
    })
}

fn read_ours(edition: i64, codes: &'static [Code]) -> Pass {
    Box::new(move || {
        for c in codes {
            black_box(&ffi::space_read(black_box(edition), c.text()));
        }
    })
}

fn read_plain(edition: i64, codes: &'static [Code]) -> Pass {
    Box::new(move || {
        for c in codes {
            black_box(&plain::space::read(black_box(edition), c.text()));
        }
    })
}

fn same_write(p: &Position, line: usize, at: usize) {
    let (mut one, mut two) = ([7u8; 36], [7u8; 36]);
    let ours = ffi::space_write(p.edition, p.level, p.longitude, p.latitude, p.layer, &mut one[..line], at);
    let other = plain::space::write(p.edition, p.level, p.longitude, p.latitude, p.layer, &mut two[..line], at);
    plain::same(&ours.refusal, other, |n| {
        assert_eq!(ours.length, n as u64);
        assert_eq!(one, two);
    });
}

fn same_read(edition: i64, c: &Code) {
    let ours = ffi::space_read(edition, c.text());
    let plane = plain::plane::Cell { level: ours.level, west: ours.west, south: ours.south, width: ours.width, height: ours.height };
    let cell = plain::space::Cell { plane, floor: ours.floor, thickness: ours.thickness };
    plain::same(&ours.refusal, plain::space::read(edition, c.text()), |other| assert_eq!(cell, other));
}

/// The plain functions agree with the library on the inputs that are timed, at the ends of the ranges, and on spoilt ones.
fn same(dice: &mut Dice, at: &[Position], codes: &[Code]) {
    for p in at.iter().take(100).flat_map(|p| p.at_ends()) {
        same_write(&p, 36, 2);
        same_write(&p, 9, 2);
    }
    for (p, c) in at.iter().zip(codes) {
        same_write(p, 36, 2);
        same_write(p, dice.between(0, 36) as usize, dice.between(0, 37) as usize);
        same_write(&Position { level: dice.between(-1, 12), ..*p }, 36, 2);
        same_write(&Position { longitude: 2 * p.longitude, latitude: 2 * p.latitude, ..*p }, 36, 2);
        same_write(&Position { layer: 2 * p.layer, ..*p }, 36, 2);
        same_write(&Position { edition: dice.between(-1, 4), level: dice.between(0, 10), ..*p }, 36, 2);
        same_read(p.edition, c);
        same_read(dice.between(0, 3), c);
        same_read(p.edition, &c.spoilt(dice));
    }
}

pub fn rows(dice: &mut Dice) -> Vec<Row> {
    let mut rows = Vec::new();
    for level in [10, 5, 1] {
        let at = many(|| Position::ordinary(dice, level));
        let codes = each(at, Code::space);
        same(dice, at, codes);
        let bar = if level == 10 { Some(1.15) } else { None };
        rows.push(Row::plain(format!("space write, level {level}"), write_ours(at), write_plain(at), bar));
        rows.push(Row::plain(format!("space read, level {level}"), read_ours(1, codes), read_plain(1, codes), bar));
        if level > 1 {
            rows.extend(edition_2(dice, level, at, codes));
        }
    }
    rows
}

/// Edition 2 beside plain Rust, and no more than a tenth over edition 1.
fn edition_2(dice: &mut Dice, level: i64, ones: &'static [Position], one_codes: &'static [Code]) -> Vec<Row> {
    let mut squares = ones.iter();
    let at = many(|| squares.next().expect("as many squares").in_edition_2(dice));
    let codes = each(at, Code::space);
    same(dice, at, codes);
    let (write, read) = (format!("space write, edition 2, level {level}"), format!("space read, edition 2, level {level}"));
    let (write_over, read_over) = (format!("edition 2 space write, level {level}"), format!("edition 2 space read, level {level}"));
    vec![
        Row::plain(write, write_ours(at), write_plain(at), None),
        Row::plain(read, read_ours(2, codes), read_plain(2, codes), None),
        Row::new(write_over, write_ours(at), vec![write_ours(ones)], "our edition 1", Some(1.1)),
        Row::new(read_over, read_ours(2, codes), vec![read_ours(1, one_codes)], "our edition 1", Some(1.1)),
    ]
}
