//! Plane codes: written, read, and read as a box in arc-seconds.

use crate::inputs::{each, many, Code, Dice, Position};
use crate::plain;
use crate::table::{Pass, Row};
use hailgully_raw::lent as ffi;
use std::hint::black_box;

pub fn write_ours(at: &'static [Position]) -> Pass {
    let mut line = [0u8; 24];
    Box::new(move || {
        for p in at {
            black_box(&ffi::plane_write(p.level, p.longitude, p.latitude, black_box(&mut line[..]), black_box(2)));
        }
    })
}

fn write_plain(at: &'static [Position]) -> Pass {
    let mut line = [0u8; 24];
    Box::new(move || {
        for p in at {
            black_box(&plain::plane::plane_write(p.level, p.longitude, p.latitude, black_box(&mut line[..]), black_box(2)));
        }
    })
}

pub fn read_ours(codes: &'static [Code]) -> Pass {
    Box::new(move || {
        for c in codes {
            black_box(&ffi::plane_read(c.text()));
        }
    })
}

fn read_plain(codes: &'static [Code]) -> Pass {
    Box::new(move || {
        for c in codes {
            black_box(&plain::plane::plane_read(c.text()));
        }
    })
}

fn read_tight(codes: &'static [Code]) -> Pass {
    Box::new(move || {
        for c in codes {
            black_box(&plain::tight::read(c.text()));
        }
    })
}

fn box_ours(codes: &'static [Code]) -> Pass {
    Box::new(move || {
        for c in codes {
            black_box(&ffi::plane_box(c.text()));
        }
    })
}

fn box_plain(codes: &'static [Code]) -> Pass {
    Box::new(move || {
        for c in codes {
            black_box(&plain::plane::plane_box(c.text()));
        }
    })
}

fn same_write(p: &Position, line: usize, at: usize) {
    let (mut one, mut two) = ([7u8; 24], [7u8; 24]);
    let ours = ffi::plane_write(p.level, p.longitude, p.latitude, &mut one[..line], at);
    let other = plain::plane::plane_write(p.level, p.longitude, p.latitude, &mut two[..line], at);
    plain::same(&ours.refusal, other, |n| {
        assert_eq!(ours.length, n as u64);
        assert_eq!(one, two);
    });
}

fn same_read(c: &Code) {
    let ours = ffi::plane_read(c.text());
    let cell = plain::plane::Cell { level: ours.level, west: ours.west, south: ours.south, width: ours.width, height: ours.height };
    plain::same(&ours.refusal, plain::plane::plane_read(c.text()), |other| assert_eq!(cell, other));
    plain::same(&ours.refusal, plain::tight::read(c.text()), |other| assert_eq!(cell, other));
    let ours = ffi::plane_box(c.text());
    let cell = plain::plane::Box { west: ours.west, south: ours.south, width: ours.width, height: ours.height };
    plain::same(&ours.refusal, plain::plane::plane_box(c.text()), |other| assert_eq!(cell, other));
}

/// The plain functions agree with the library on the inputs that are timed, at the ends of the ranges, and on spoilt ones.
fn same(dice: &mut Dice, at: &[Position], codes: &[Code]) {
    for p in at.iter().take(100).flat_map(|p| p.at_ends()) {
        same_write(&p, 24, 2);
        same_write(&p, 8, 2);
    }
    for (p, c) in at.iter().zip(codes) {
        same_write(p, 24, 2);
        same_write(p, dice.between(0, 24) as usize, dice.between(0, 25) as usize);
        same_write(&Position { level: dice.between(-1, 12), ..*p }, 24, 2);
        same_write(&Position { longitude: 2 * p.longitude, latitude: 2 * p.latitude, ..*p }, 24, 2);
        same_read(c);
        same_read(&c.spoilt(dice));
    }
}

pub fn rows(dice: &mut Dice) -> Vec<Row> {
    let ten = many(|| Position::ordinary(dice, 10));
    let ten_codes = each(ten, Code::plane);
    let mut rows = Vec::new();
    for level in [10, 5, 1] {
        let at = each(ten, |p| Position { level, ..*p });
        let codes = each(at, Code::plane);
        same(dice, at, codes);
        let bar = (level == 10).then_some(1.25);
        rows.push(Row::plain(format!("plane write, level {level}"), write_ours(at), write_plain(at), bar));
        rows.push(Row::plain(format!("plane read, level {level}"), read_ours(codes), read_plain(codes), bar));
        let tight = format!("plane read, level {level}, tight");
        rows.push(Row::new(tight, read_ours(codes), vec![read_tight(codes)], "tight Rust", None));
    }
    rows.push(Row::plain("plane box, level 10", box_ours(ten_codes), box_plain(ten_codes), Some(1.5)));
    rows.extend(coarser(ten, ten_codes));
    rows.extend(polar(dice, ten, ten_codes));
    rows
}

/// No coarser level is slower than level 10.
fn coarser(ten: &'static [Position], ten_codes: &'static [Code]) -> Vec<Row> {
    let mut rows = Vec::new();
    for level in (1..10).rev() {
        let at = each(ten, |p| Position { level, ..*p });
        let codes = each(at, Code::plane);
        let write = format!("coarser plane write, level {level}");
        rows.push(Row::new(write, write_ours(at), vec![write_ours(ten)], "our level 10", Some(1.0)));
        let read = format!("coarser plane read, level {level}");
        rows.push(Row::new(read, read_ours(codes), vec![read_ours(ten_codes)], "our level 10", Some(1.0)));
    }
    rows
}

fn polar(dice: &mut Dice, ten: &'static [Position], ten_codes: &'static [Code]) -> Vec<Row> {
    let at = many(|| Position::polar(dice, 10));
    let codes = each(at, Code::plane);
    vec![
        Row::new("polar plane write, level 10", write_ours(at), vec![write_ours(ten)], "our ordinary", Some(3.0)),
        Row::new("polar plane read, level 10", read_ours(codes), vec![read_ours(ten_codes)], "our ordinary", Some(3.0)),
    ]
}
