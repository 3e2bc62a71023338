//! The calls that add to the book: what kind of code each takes, and which layers
//! it then holds.

use crate::plane;
use crate::refusals::Refusal;
use crate::slips;
use crate::space::{self, Edition, SpaceCell};

/// "One call adds by plane code and another by space code of edition 1"; and "the
/// ground-vehicle planner needs the old meaning" of a plane code, "so a separate
/// call keeps it".
#[derive(Clone, Copy, Debug, PartialEq, Eq)]
pub enum Kind {
    Plane,
    Ground,
    Space,
}

impl Kind {
    pub const ALL: [Kind; 3] = [Kind::Plane, Kind::Ground, Kind::Space];
    /// Those that add by plane code, and so hold a column.
    pub const COLUMNS: [Kind; 2] = [Kind::Plane, Kind::Ground];

    /// Refusals 6, 7 or 20.
    pub fn cell(self, code: &[u8]) -> Result<SpaceCell, Refusal> {
        let edition = if slips::on(slips::BOOK_OF_EDITION_2) { 2 } else { 1 };
        match self.column() {
            Some((floor, thickness)) => plane::read(code).map(|plane| SpaceCell { plane, floor, thickness }),
            None => space::read(edition, code),
        }
    }

    /// The refusal of the first bad character, whatever the length.
    pub fn bad(self, code: &[u8]) -> Option<Refusal> {
        match self {
            Kind::Plane | Kind::Ground => plane::bad(code),
            Kind::Space => space::bad(Edition::Ours, code),
        }
    }

    /// Floor and thickness of what a plane code stands for; a space code has its
    /// own. "Every layer from -1,887,436,800 up", and by the old meaning "layers 0
    /// to 1,887,436,799": both end with the last layer that edition 1 has.
    pub fn column(self) -> Option<(i32, u32)> {
        let (least, greatest) = Edition::Ours.layers();
        let (least, greatest) = match (self, slips::current()) {
            (Kind::Plane, slips::COLUMN_LACKS_HIGHEST) => (least, greatest - 1),
            (Kind::Plane, slips::COLUMN_LACKS_LOWEST) => (least + 1, greatest),
            (Kind::Plane, slips::COLUMN_FROM_GROUND) => (0, greatest),
            (Kind::Plane, slips::COLUMN_WITHOUT_END) => (least, i64::from(i32::MAX)),
            (Kind::Plane, slips::COLUMN_OF_31_BITS) => (least, least + i64::from(i32::MAX) - 1),
            (Kind::Ground, slips::GROUND_WHOLE) => (least, greatest),
            (Kind::Ground, slips::GROUND_LACKS_HIGHEST) => (0, greatest - 1),
            (Kind::Ground, slips::GROUND_LACKS_LOWEST) => (1, greatest),
            (Kind::Plane, _) => (least, greatest),
            (Kind::Ground, _) => (0, greatest),
            (Kind::Space, _) => return None,
        };
        Some((least as i32, (greatest - least + 1) as u32))
    }
}
