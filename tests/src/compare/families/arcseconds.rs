//! Cases of the arc-second readings and of the box.

use super::{each_length, fixed, part, random, read_about, Family};
use crate::checks::Run;
use hailgully_tests::cases;
use hailgully_tests::plane::{write::finest, LENGTHS};

pub fn families() -> Vec<Family> {
    vec![
        fixed("arcseconds: odd readings by odd readings", 16, odd),
        fixed("arcseconds: all powers of two", 16, powers),
        fixed("box: lengths 0 to 60", 16, lengths),
        random("arcseconds: random readings", 4, readings),
        random("box: random codes, read back", 3, boxes),
    ]
}

fn odd(run: &mut Run, piece: u64) {
    let list = cases::odd_readings();
    for longitude in part(&list, piece, 16) {
        for &latitude in &list {
            run.arcseconds(longitude, latitude);
        }
    }
}

/// Every power of two, subnormal too, and its neighbours, of both signs.
fn powers(run: &mut Run, piece: u64) {
    for power in (0..2098).filter(|power| power % 16 == piece) {
        // 2 to the -1074 and up to -1023 are single bits of the fraction.
        let bits = if power < 52 { 1u64 << power } else { (power - 51) << 52 };
        for near in [bits - 1, bits, bits + 1] {
            for sign in [0, 1 << 63] {
                let reading = near | sign;
                for other in [0u64, 1 << 63, 0x7ff8 << 48, 0x7ff0 << 48, reading] {
                    run.arcseconds(reading, other);
                    run.arcseconds(other, reading);
                }
            }
        }
    }
}

fn lengths(run: &mut Run, piece: u64) {
    let (longitude, latitude) = cases::places_of_each_kind()[piece as usize];
    each_length(&finest(longitude, latitude), &[b'0', b'A', b'N', 0], |code| run.plane_box(code));
}

fn readings(run: &mut Run) {
    let longitude = cases::any_reading(&mut run.random);
    let latitude = cases::any_reading(&mut run.random);
    run.arcseconds(longitude, latitude);
    run.arcseconds(longitude, 0);
    run.arcseconds(0, latitude);
}

fn boxes(run: &mut Run) {
    let (longitude, latitude) = cases::anywhere(&mut run.random);
    let length = run.random.pick(&LENGTHS);
    read_about(run, &mut finest(longitude, latitude)[..length], Run::plane_box);
}
