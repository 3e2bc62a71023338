//! One case of each call of reference codes.

use super::plane::unread;
use super::{bad_character, show, Run};
use crate::calls::{applying, Applying, Call};
use crate::library;
use hailgully_tests::plane::{self, PlaneCell};
use hailgully_tests::reference;

/// Which of 8, 12 and 5 apply to a reference code in reading, with so many bytes for what it leads to.
pub fn led(code: &[u8], room: usize) -> Applying {
    let base = &code[..code.len().saturating_sub(3)];
    let eight = plane::read(base).as_ref().is_ok_and(reference::unfit);
    let twelve = reference::parts(code).is_ok_and(|(base, _, north)| reference::reaches_pole(&base, north));
    applying(&[(8, eight), (12, twelve), (5, plane::level_of(base.len()).is_some() && room < base.len())])
}

/// Which of 8, 9 and 10 apply to two codes.
fn between(base: Option<PlaneCell>, target: Option<PlaneCell>) -> Applying {
    let unfit = |cell: &Option<PlaneCell>| cell.as_ref().is_some_and(reference::unfit);
    let eight = applying(&[(8, unfit(&base) || unfit(&target))]);
    let (Some(from), Some(to)) = (base, target) else { return eight };
    let far = reference::offsets(&from, &to).is_none() && (from.level == to.level || apart(&from, &to));
    eight | applying(&[(9, from.level != to.level), (10, far)])
}

/// Cells of two levels that lie more than seven cells of either size apart.
fn apart(one: &PlaneCell, other: &PlaneCell) -> bool {
    let height = i64::from(one.height.max(other.height));
    let width = i64::from(one.width.max(other.width));
    let north = (i64::from(one.south) - i64::from(other.south)).abs();
    let east = (i64::from(one.west) - i64::from(other.west)).abs();
    north > 8 * height || east.min(plane::TURN - east) > 8 * width
}

impl Run {
    pub fn reference_write(&mut self, base: &[u8], target: &[u8], length: usize, at: usize) {
        if self.over() {
            return;
        }
        let call = Call::ReferenceWrite;
        let told = || format!("{call} {} to {} line of {length} at {at}", show(base), show(target));
        let (mut first, mut second) = (self.hold(base), self.hold(target));
        let own = self.writer(
            length,
            |line| reference::write(base, target, line, at),
            |line| library::hg_reference_write(first.lent.bytes(), second.lent.bytes(), line, at),
            told,
        );
        self.kept(&first, told);
        self.kept(&second, told);
        let (from, to) = (plane::read(base), plane::read(target));
        let codes = unread(base, from.err()) | unread(target, to.err()).of_the_second();
        let short = plane::level_of(base.len()).is_some() && length.saturating_sub(at) < base.len() + 3;
        self.count(call, codes | between(from.ok(), to.ok()) | applying(&[(5, short)]), own.err());
        if own.is_ok() {
            self.accepted(call, base);
        }
    }

    pub fn reference_read(&mut self, code: &[u8], length: usize, at: usize) {
        if self.over() {
            return;
        }
        let call = Call::ReferenceRead;
        let told = || format!("{call} {} line of {length} at {at}", show(code));
        let mut held = self.hold(code);
        let own = self.writer(
            length,
            |line| reference::read(code, line, at),
            |line| library::hg_reference_read(held.lent.bytes(), line, at),
            told,
        );
        self.kept(&held, told);
        let base = &code[..code.len().saturating_sub(3)];
        let six = plane::level_of(base.len()).is_none();
        let bad = if six { plane::bad(base) } else { reference::parts(code).err() };
        let later = led(code, length.saturating_sub(at));
        self.count(call, applying(&[(6, six)]) | bad_character(bad) | later, own.err());
        if own.is_ok() {
            self.accepted(call, base);
        }
    }
}
