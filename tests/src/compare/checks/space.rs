//! One case of each call of space codes.

use super::{bad_character, show, Run};
use crate::calls::{applying, Call, Row};
use crate::{library, regions};
use hailgully_tests::plane::{self, square, within, write::finest, LATITUDE, LENGTHS, LONGITUDE};
use hailgully_tests::space::{self, Edition};

/// The editions under which a case is counted: its own, or both where its number names none and 13 may hide what either has.
fn editions(edition: i64) -> impl Iterator<Item = Edition> {
    let neither = !within(edition, (1, 2));
    Edition::BOTH.into_iter().filter(move |row| neither || *row as i64 == edition)
}

impl Run {
    pub fn space_write(&mut self, edition: i64, level: i64, (east, north): (i64, i64), layer: i64, length: usize, at: usize) {
        if self.over() {
            return;
        }
        let call = Call::SpaceWrite;
        let own = self.writer(
            length,
            |line| space::write(edition, level, east, north, layer, line, at),
            |line| library::hg_space_write(edition, level, east, north, layer, line, at),
            || {
                let asked = format!("{call} edition {edition} level {level} longitude {east} latitude {north} layer {layer}");
                format!("{asked} line of {length} at {at}")
            },
        );
        let known = within(level, (1, 10));
        let short = known && length.saturating_sub(at) < space::LENGTHS[(level - 1) as usize];
        let apply = applying(&[(1, !known), (2, !within(east, LONGITUDE)), (3, !within(north, LATITUDE)), (5, short)]);
        for row in editions(edition) {
            let of_edition = applying(&[(13, row as i64 != edition), (4, !within(layer, row.layers()))]);
            self.count((call, row), apply | of_edition, own.err());
            if own.is_ok() {
                let (west, south) = square(east, north);
                self.accepted_space((call, row), &finest(west, south)[..LENGTHS[level as usize - 1]], layer < 0);
            }
        }
    }

    pub fn space_read(&mut self, edition: i64, code: &[u8]) {
        if self.over() {
            return;
        }
        let (call, own) = (Call::SpaceRead, space::read(edition, code));
        let library = |code: &mut [u8]| library::hg_space_read(edition, code);
        self.reader(code, own, library, || format!("{call} edition {edition} {}", show(code)));
        let six = space::level_of(code.len()).is_none();
        for row in editions(edition) {
            let other = row as i64 != edition;
            let bad = if six || other { space::bad(row, code) } else { own.err() };
            self.count((call, row), applying(&[(13, other), (6, six)]) | bad_character(bad), own.err());
            if let Ok(cell) = own {
                let (flat, length) = space::plane_part(code);
                self.accepted_space((call, row), &flat[..length], cell.floor < 0);
            }
        }
    }

    /// Counts where an accepted space code lies, by its plane part and its sign.
    pub fn accepted_space(&mut self, row: impl Into<Row>, flat: &[u8], below_ground: bool) {
        let row = row.into();
        self.accepted(row, flat);
        if let Some(level) = plane::level_of(flat.len()) {
            self.tally.row(row).accepted(regions::sign_slot(below_ground, level as usize));
        }
    }
}
