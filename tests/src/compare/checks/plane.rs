//! One case of each call of plane codes.

use super::{bad_character, show, Run};
use crate::calls::{applying, Applying, Call};
use crate::library;
use hailgully_tests::plane::{self, square, within, write::finest, LATITUDE, LENGTHS, LONGITUDE};
use hailgully_tests::refusals::Refusal;

/// Which of 6, 7 and 20 apply to a plane code, given its refusal.
pub fn unread(code: &[u8], own: Option<Refusal>) -> Applying {
    let six = plane::level_of(code.len()).is_none();
    applying(&[(6, six)]) | bad_character(if six { plane::bad(code) } else { own })
}

impl Run {
    pub fn plane_write(&mut self, level: i64, east: i64, north: i64, length: usize, at: usize) {
        if self.over() {
            return;
        }
        let call = Call::PlaneWrite;
        let own = self.writer(
            length,
            |line| plane::write(level, east, north, line, at),
            |line| library::hg_plane_write(level, east, north, line, at),
            || format!("{call} level {level} longitude {east} latitude {north} line of {length} at {at}"),
        );
        let known = within(level, (1, 10));
        let short = known && length.saturating_sub(at) < LENGTHS[(level - 1) as usize];
        let apply = applying(&[(1, !known), (2, !within(east, LONGITUDE)), (3, !within(north, LATITUDE)), (5, short)]);
        self.count(call, apply, own.err());
        if let Ok(length) = own {
            let (west, south) = square(east, north);
            self.accepted(call, &finest(west, south)[..length]);
        }
    }

    pub fn plane_read(&mut self, code: &[u8]) {
        if self.over() {
            return;
        }
        let (call, own) = (Call::PlaneRead, plane::read(code));
        self.reader(code, own, library::hg_plane_read, || format!("{call} {}", show(code)));
        self.count(call, unread(code, own.err()), own.err());
        if own.is_ok() {
            self.accepted(call, code);
        }
    }
}
