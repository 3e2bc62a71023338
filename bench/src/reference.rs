//! Reference codes, levels 5 to 10 mixed. They are held against one plane read and one plane write of ours on the same bases, and against plain
//! functions.

use crate::inputs::{each, many, Code, Dice, Position};
use crate::plain::plane::WIDTHS;
use crate::table::{Pass, Row};
use crate::{plain, plane};
use hailgully_raw::lent as ffi;
use std::hint::black_box;

#[derive(Clone, Copy)]
struct Step {
    from: Position,
    east: i64,
    north: i64,
    base: Code,
    target: Code,
    code: Code,
}

/// From level 5 on a cell is as high as it is wide.
fn moved(p: &Position, east: i64, north: i64) -> Position {
    let size = WIDTHS[p.level as usize] as i64;
    let turned = p.longitude + east * size + 1_327_104_000;
    Position { longitude: turned.rem_euclid(2_654_208_000) - 1_327_104_000, latitude: p.latitude + north * size, ..*p }
}

fn step(dice: &mut Dice) -> Step {
    let level = dice.between(5, 10);
    let from = Position::ordinary(dice, level);
    let (east, north) = (dice.between(-7, 7), dice.between(-7, 7));
    let base = Code::plane(&from);
    let target = Code::plane(&moved(&from, east, north));
    let code = Code::written(|line| ffi::reference_write(base.text(), target.text(), line, 0));
    Step { from, east, north, base, target, code }
}

fn offset(v: i64) -> u8 {
    (if v < 0 { 64 - v } else { 48 + v }) as u8
}

/// The library leads from base to target and back, with the offsets that the positions were given.
fn same(steps: &[Step]) {
    for s in steps {
        let mut text = s.base.text().to_vec();
        text.extend([b'-', offset(s.east), offset(s.north)]);
        assert_eq!(s.code.text(), text);
        let back = Code::written(|line| ffi::reference_read(s.code.text(), line, 0));
        assert_eq!(back.text(), s.target.text());
    }
}

/// The plain functions agree with the library on these codes, with the line's first `line` bytes lent from `at` on.
fn same_plain(base: &Code, target: &Code, code: &Code, line: usize, at: usize) {
    let (mut one, mut two) = ([7u8; 28], [7u8; 28]);
    let ours = ffi::reference_write(base.text(), target.text(), &mut one[..line], at);
    let other = plain::reference::write(base.text(), target.text(), &mut two[..line], at);
    plain::same(&ours.refusal, other, |n| assert_eq!((ours.length, one), (n as u64, two)));
    let (mut one, mut two) = ([7u8; 28], [7u8; 28]);
    let ours = ffi::reference_read(code.text(), &mut one[..line], at);
    let other = plain::reference::follow(code.text(), &mut two[..line], at);
    plain::same(&ours.refusal, other, |n| assert_eq!((ours.length, one), (n as u64, two)));
}

/// The same on the steps that are timed, on spoilt ones, and on bases and targets that do not belong together.
fn same_other(dice: &mut Dice, steps: &[Step]) {
    for (s, t) in steps.iter().zip(steps.iter().rev()) {
        same_plain(&s.base, &s.target, &s.code, 28, 2);
        same_plain(&s.base, &s.target, &s.code, dice.between(0, 28) as usize, dice.between(0, 29) as usize);
        same_plain(&s.base.spoilt(dice), &s.target, &s.code.spoilt(dice), 28, 2);
        same_plain(&s.base, &s.target.spoilt(dice), &s.code.spoilt(dice), 28, 2);
        same_plain(&s.base, &t.target, &s.code.spoilt(dice), 28, 2);
        let coarse = Code::plane(&Position { level: dice.between(1, 10), ..s.from });
        same_plain(&coarse, &s.target, &coarse, 28, 2);
    }
}

fn write_ours(steps: &'static [Step]) -> Pass {
    let mut line = [0u8; 28];
    Box::new(move || {
        for s in steps {
            black_box(&ffi::reference_write(s.base.text(), s.target.text(), black_box(&mut line[..]), black_box(2)));
        }
    })
}

fn read_ours(codes: &'static [Code]) -> Pass {
    let mut line = [0u8; 28];
    Box::new(move || {
        for c in codes {
            black_box(&ffi::reference_read(c.text(), black_box(&mut line[..]), black_box(2)));
        }
    })
}

fn write_plain(steps: &'static [Step]) -> Pass {
    let mut line = [0u8; 28];
    Box::new(move || {
        for s in steps {
            black_box(&plain::reference::write(s.base.text(), s.target.text(), black_box(&mut line[..]), black_box(2)));
        }
    })
}

fn read_plain(codes: &'static [Code]) -> Pass {
    let mut line = [0u8; 28];
    Box::new(move || {
        for c in codes {
            black_box(&plain::reference::follow(c.text(), black_box(&mut line[..]), black_box(2)));
        }
    })
}

pub fn rows(dice: &mut Dice) -> Vec<Row> {
    let steps = many(|| step(dice));
    same(steps);
    same_other(dice, steps);
    let bases = each(steps, |s| s.base);
    let at = each(steps, |s| s.from);
    let codes = each(steps, |s| s.code);
    let sum = || vec![plane::read_ours(bases), plane::write_ours(at)];
    vec![
        Row::new("reference write, levels 5 to 10", write_ours(steps), sum(), "our plane read + write", Some(3.0)),
        Row::new("reference read, levels 5 to 10", read_ours(codes), sum(), "our plane read + write", Some(3.0)),
        Row::plain("reference write, plain", write_ours(steps), write_plain(steps), None),
        Row::plain("reference read, plain", read_ours(codes), read_plain(codes), None),
    ]
}
