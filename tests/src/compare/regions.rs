//! The regions of the grid, by the characters of an accepted code, so that a run can count at which of them, and at which levels, a call was
//! asked: hemispheres and quarters, each belt cell, each disc cell of levels 2 and 3, each cap, each ring around a cap.

use crate::calls::Call;
use hailgully_tests::plane::{level_of, LENGTHS};

/// Where a call must be asked.
#[derive(Clone, Copy, PartialEq, Eq)]
pub enum Regions {
    /// It is given no place on the grid.
    None,
    /// By codes that can be reference codes: ordinary ones, levels 5 to 10.
    Ordinary,
    Every,
    /// By space codes, also above and below ground.
    WithSigns,
}

// Of each hemisphere, in this order.
const EAST: usize = 0;
const WEST: usize = 1;
const POLE: usize = 2;
const BELT: usize = 3;
const DISC: usize = BELT + 12;
const CAP: usize = DISC + 3;
/// Where the rings around the caps begin, by the level of the division, 3 to 10. A ring is a row; of levels 3 and 6, which have one row, each of
/// its cells is counted.
const RINGS: [usize; 9] = {
    let sizes = [3, 14, 14, 2, 7, 7, 7, 7];
    let mut starts = [CAP + 1; 9];
    let mut at = 0;
    while at < sizes.len() {
        starts[at + 1] = starts[at] + sizes[at];
        at += 1;
    }
    starts
};
const HALF: usize = RINGS[8];
/// Regions of both hemispheres by ten levels; then, for space codes, both signs by ten levels.
const SIGNS: usize = 2 * HALF * 10;
pub const SLOTS: usize = SIGNS + 20;

fn digit(character: u8) -> usize {
    match character {
        b'0'..=b'9' => usize::from(character - b'0'),
        _ => usize::from(character - b'A') + 10,
    }
}

/// The region of an accepted plane code, in its hemisphere.
fn region(code: &[u8]) -> usize {
    if &code[1..4] != b"000" {
        return if code[1..3] >= b"31"[..] { EAST } else { WEST };
    }
    if code.len() == LENGTHS[0] {
        return POLE;
    }
    match (digit(code[4]), digit(code[5])) {
        (0, 0) => {}
        (0, second) => return DISC + second - 1,
        (first, second) => return BELT + 4 * (first - 1) + second,
    }
    for (ends, start) in LENGTHS[1..].windows(2).zip(RINGS) {
        let Some(added) = code.get(ends[0]..ends[1]) else { break };
        let last = digit(added[added.len() - 1]);
        match ends[1] {
            _ if added.iter().all(|&character| character == b'0') => {}
            12 => return start + last - 2,
            _ => return start + last - 1,
        }
    }
    CAP
}

/// Where an accepted plane code is counted.
pub fn slot(code: &[u8]) -> usize {
    let level = level_of(code.len()).expect("an accepted code") as usize;
    let half = if code[0] == b'N' { 0 } else { HALF };
    (half + region(code)) * 10 + level - 1
}

/// Where the sign of an accepted space code is counted.
pub fn sign_slot(below_ground: bool, level: usize) -> usize {
    SIGNS + 10 * usize::from(below_ground) + level - 1
}

/// The levels at which a region has codes.
fn levels(region: usize) -> std::ops::RangeInclusive<usize> {
    match region {
        EAST | WEST => 1..=10,
        POLE => 1..=1,
        BELT..=CAP => 2..=10,
        _ => RINGS[..8].iter().filter(|&&start| start <= region).count() + 2..=10,
    }
}

fn name(slot: usize) -> String {
    let level = slot % 10 + 1;
    if slot >= SIGNS {
        return format!("{} ground, level {level}", if slot < SIGNS + 10 { "above" } else { "below" });
    }
    let side = if slot / 10 < HALF { "north" } else { "south" };
    let region = slot / 10 % HALF;
    let words = match region {
        EAST => "ordinary, east".to_string(),
        WEST => "ordinary, west".to_string(),
        POLE => "the pole's level 1".to_string(),
        CAP => "the cap".to_string(),
        BELT..DISC => format!("belt cell {}{}", (region - BELT) / 4 + 1, (region - BELT) % 4),
        DISC..CAP => format!("disc cell 0{}", region - DISC + 1),
        _ => {
            let level = *levels(region).start();
            format!("ring {} of the cap's level {level}", region - RINGS[level - 3] + 1)
        }
    };
    format!("{side}, {words}, level {level}")
}

/// What a call must be asked, by slot and name.
pub fn wanted(call: Call) -> Vec<(usize, String)> {
    let all = (0..SLOTS).filter(|&slot| {
        let (region, level) = (slot / 10 % HALF, slot % 10 + 1);
        match call.regions() {
            Regions::None => false,
            regions if slot >= SIGNS => regions == Regions::WithSigns,
            Regions::Ordinary => region <= WEST && level >= 5,
            Regions::Every | Regions::WithSigns => levels(region).contains(&level),
        }
    });
    all.map(|slot| (slot, name(slot))).collect()
}
