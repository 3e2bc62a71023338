//! The cases of document 01, "Positions to check", and those of Wishes 1 and 2
//! of document 02, asked of the oracle, with the numbers of Wish 5.

use crate::arcseconds::{arcseconds, over_2048, plane_box};
use crate::cases::{self, Random};
use crate::plane::{self, listing, PlaneCell, LENGTHS, TURN};
use crate::refusals::{refusal, Refusal};
use crate::space::{self, Edition};
use crate::{layers, lines, reference};

fn plane_code(longitude: i64, latitude: i64, level: i64) -> String {
    let mut line = [0; 20];
    let length = plane::write(level, longitude, latitude, &mut line, 0).unwrap();
    let (listed, cell) = listing::code(level as usize, longitude, latitude);
    assert_eq!(listed, line[..length]);
    assert_eq!(plane::read(&line[..length]), Ok(cell));
    assert_eq!(listing::read(&line[..length]), Ok(cell));
    String::from_utf8(listed).unwrap()
}

fn space_code(edition: Edition, longitude: i64, latitude: i64, layer: i64, level: i64) -> String {
    let mut line = [0; 32];
    let length = space::write(edition as i64, level, longitude, latitude, layer, &mut line, 0).unwrap();
    String::from_utf8(line[..length].to_vec()).unwrap()
}

fn target(code: &str) -> String {
    let mut line = [0; 20];
    let length = reference::read(code.as_bytes(), &mut line, 0).unwrap();
    String::from_utf8(line[..length].to_vec()).unwrap()
}

fn zeros(start: &str) -> String {
    format!("{start}{}", "0".repeat(16))
}

#[test]
fn p1_to_p3() {
    assert_eq!(plane_code(0, 0, 10), zeros("N31A"));
    assert_eq!(plane_code(-1, 0, 10), zeros("N30A"));
    assert_eq!(plane_code(0, -1, 10), zeros("S31A"));
}

#[test]
fn p4_to_p6() {
    assert_eq!(plane_code(857_549_557, 294_861_578, 8), "N50J47539B825534");
    assert_eq!(plane_code(-44_236_800, 0, 2), "N30AB0");
    assert_eq!(plane_code(-44_236_801, 0, 2), "N29A00");
}

#[test]
fn p7() {
    assert_eq!(plane_code(0, 648_806_399, 1), "N31V");
    assert_eq!(plane_code(0, 648_806_400, 1), "N000");
    assert_eq!(plane_code(0, -648_806_400, 1), "S31V");
    assert_eq!(plane_code(0, -648_806_401, 1), "S000");
}

#[test]
fn p8_to_p10() {
    assert_eq!(plane_code(-1, 648_806_400, 2), "N00030");
    assert_eq!(plane_code(884_736_000, 648_806_400, 2), "N00020");
    assert_eq!(plane_code(-1_327_104_000, 648_806_400, 2), "N00021");
    assert_eq!(plane_code(0, 656_179_200, 3), "N000012");
    assert_eq!(plane_code(0, 659_865_600, 3), "N000001");
    assert_eq!(plane_code(-1, 663_551_999, 10), zeros("N000"));
}

#[test]
fn p11_and_p12() {
    let cell = PlaneCell { level: 10, west: 255_316_321, south: 277_488_284, width: 1, height: 1 };
    let code = "N36J93078B3101524314";
    assert_eq!(plane::read(code.as_bytes()), Ok(cell));
    assert_eq!(plane_code(255_316_321, 277_488_284, 10), code);
    let tall = "N036J0093000780B3010010520430140";
    for edition in Edition::BOTH {
        assert_eq!(space_code(edition, 255_316_321, 277_488_284, 0, 10), tall);
        let read = space::read(edition as i64, tall.as_bytes()).unwrap();
        assert_eq!((read.plane, read.floor, read.thickness), (cell, 0, 1));
        assert_eq!(space_code(edition, 0, 0, -1, 1), "N131A63");
    }
    assert_eq!(space_code(Edition::Ours, 0, 0, 1_843_199, 4), "N031A000000000E");
}

/// The height characters at (0, 0), level 10, from codes that have only zeros
/// for the rest of the plane.
fn heights(edition: Edition, layer: i64) -> String {
    let code = space_code(edition, 0, 0, layer, 10);
    let places = [1, 5, 6, 9, 11, 14, 17, 19, 22, 25, 28, 31];
    places.map(|place| char::from(code.as_bytes()[place])).iter().collect()
}

#[test]
fn layers_by_bits() {
    let theirs = |layer| heights(Edition::Theirs, layer);
    assert_eq!(theirs(0), "000000000000");
    assert_eq!(theirs(2_147_483_647), "06371FF17777");
    assert_eq!(theirs(-1), "16371FF17777");
    assert_eq!(theirs(-2_147_483_648), "100000000000");
    assert_eq!(theirs(1_887_436_800), "056200000000");
    assert_eq!(theirs(-1_887_436_801), "10751FF17777");
    // The lowest bit of each field, and F at each of its two places.
    assert_eq!(theirs(0x0262_3249), "001111111111");
    assert_eq!(theirs(15 << 17), "00000F000000");
    assert_eq!(theirs(15 << 13), "000000F00000");
    assert_eq!(heights(Edition::Ours, -1), "16371EE17777");
    assert_eq!(heights(Edition::Ours, 15 << 17), "000011000000");
}

/// A code's floor and thickness.
fn layers_of(edition: i64, code: &str) -> (i32, u32) {
    let cell = space::read(edition, code.as_bytes()).unwrap();
    (cell.floor, cell.thickness)
}

#[test]
fn layers_of_editions() {
    assert_eq!(layers_of(1, "N131A63"), (-29_491_200, 29_491_200));
    assert_eq!(layers_of(2, "N131A63"), (-33_554_432, 33_554_432));
    assert_eq!(layers_of(2, "N131A00"), (-2_147_483_648, 33_554_432));
    assert_eq!(layers_of(2, "N031A000000000F"), (15 << 17, 1 << 17));
    assert_eq!(space::read(1, b"N031A000000000F"), Err(misplaced(14)));
    assert_eq!(layers_of(2, "S131A630070100F00F"), (-8_192, 8_192));
    assert_eq!(space::read(1, b"S131A630070100E00F"), Err(misplaced(17)));
    assert_eq!(space::read(2, b"N031A000000000G"), Err(misplaced(14)));
    // F is a digit at levels 4 and 5 alone, and only of the height.
    assert_eq!(space::read(2, b"N031A0000F"), Err(misplaced(9)));
    assert_eq!(space::read(2, b"N031A0000000F00"), Err(misplaced(12)));
    assert_eq!(space::read(2, b"N131A64"), Err(misplaced(6)));
}

#[test]
fn editions() {
    let mut line = [7; 32];
    let mut write = |edition, level, longitude, layer| space::write(edition, level, longitude, 0, layer, &mut line, 0);
    for edition in cases::ODD_EDITIONS {
        assert_eq!(write(edition, 1, 0, 0), Err(refusal(13)));
        assert_eq!(write(edition, 1, 1_327_104_001, 1 << 40), Err(refusal(13)));
        assert_eq!(write(edition, 0, 0, 0), Err(refusal(1)));
        assert_eq!(space::read(edition, b"N131A63"), Err(refusal(13)));
        assert_eq!(space::read(edition, b""), Err(refusal(13)));
        assert_eq!(space::read(edition, b"n131A63"), Err(refusal(13)));
    }
    for (edition, least, greatest) in [(1, -1_887_436_800, 1_887_436_799), (2, -2_147_483_648, 2_147_483_647)] {
        assert_eq!(write(edition, 10, 0, least - 1), Err(refusal(4)));
        assert_eq!(write(edition, 10, 0, least), Ok(32));
        assert_eq!(write(edition, 10, 0, greatest), Ok(32));
        assert_eq!(write(edition, 10, 0, greatest + 1), Err(refusal(4)));
    }
}

#[test]
fn p13() {
    assert_eq!(target("N50J475492E-10"), "N50J475493E");
    assert_eq!(target("N31A0000000-0A"), "S31A0000000");
    assert_eq!(target("N30A0000000-10"), "N31A0000000");
}

fn garbled(place: u64) -> Refusal {
    Refusal { place, ..refusal(7) }
}

fn misplaced(place: u64) -> Refusal {
    Refusal { place, ..refusal(20) }
}

#[test]
fn run_cases() {
    assert_eq!(plane::read(b"N00A"), Err(misplaced(3)));
    assert_eq!(plane::read(b"N61A"), Err(misplaced(2)));
    assert_eq!(plane::read(b"n31A"), Err(garbled(0)));
    assert_eq!(plane::read(b"N70A"), Err(misplaced(1)));
    assert_eq!(plane::read(b"N31W"), Err(garbled(3)));
    assert_eq!(plane::read(b""), Err(refusal(6)));
    // "Row 0 with a column other than 0 gets 7 at the row character": 20, as 0 is a code character.
    assert_eq!(plane::read(b"N00000010"), Err(misplaced(8)));
    assert_eq!(plane::read(b"S00000000001"), Err(misplaced(11)));
    assert_eq!(space::read(1, b"N131A64"), Err(misplaced(6)));
    assert_eq!(space::read(1, b"N131A70"), Err(misplaced(5)));
    assert_eq!(space::read(1, b"N231A00"), Err(misplaced(1)));
    let mut line = [7; 30];
    assert_eq!(reference::read(b"N31A-10", &mut line, 0), Err(refusal(8)));
    assert_eq!(reference::read(b"N31A0000000-H0", &mut line, 0), Err(misplaced(12)));
    assert_eq!(line, [7; 30]);
}

/// What both writers answer for a position: a refusal, or the plane code of its
/// level, which is also the plane part of both editions' space codes.
fn answered(longitude: i64, latitude: i64, level: i64) -> Result<String, Refusal> {
    let mut line = [0; 20];
    let plane = plane::write(level, longitude, latitude, &mut line, 0).map(|length| line[..length].to_vec());
    for edition in Edition::BOTH {
        let mut tall = [0; 32];
        let space = space::write(edition as i64, level, longitude, latitude, -1, &mut tall, 0).map(|length| {
            let (flat, length) = space::plane_part(&tall[..length]);
            flat[..length].to_vec()
        });
        assert_eq!(space, plane);
    }
    plane.map(|code| String::from_utf8(code).unwrap())
}

/// Wish 2, "The pole itself and 180° exactly", in place of the Run case of
/// longitude 1,327,104,000.
#[test]
fn pole_and_180() {
    for level in 1..=10 {
        for latitude in [0, -1, 294_861_578, 648_806_399, 648_806_400, 656_179_200, 663_551_999, -648_806_400, -663_552_000] {
            assert_eq!(answered(1_327_104_000, latitude, level), Ok(plane_code(-1_327_104_000, latitude, level)));
            assert_eq!(answered(1_327_104_001, latitude, level), Err(refusal(2)));
            assert_eq!(answered(-1_327_104_001, latitude, level), Err(refusal(2)));
        }
        for longitude in [0, -1, 857_549_557, 1_327_103_999, -1_327_104_000] {
            assert_eq!(answered(longitude, 663_552_000, level), Ok(plane_code(longitude, 663_551_999, level)));
            assert_eq!(answered(longitude, 663_552_001, level), Err(refusal(3)));
            assert_eq!(answered(longitude, -663_552_001, level), Err(refusal(3)));
        }
        assert_eq!(answered(1_327_104_000, 663_552_000, level), Ok(plane_code(-1_327_104_000, 663_551_999, level)));
        assert_eq!(answered(1_327_104_001, 663_552_001, level), Err(refusal(2)));
    }
    assert_eq!(answered(1_327_104_000, 0, 1).unwrap(), "N01A");
    assert_eq!(answered(1_327_104_000, 0, 2).unwrap(), "N01AB0");
    assert_eq!(answered(1_327_104_000, 648_806_400, 2).unwrap(), "N00021");
    assert_eq!(answered(5, 663_552_000, 10).unwrap(), zeros("N000"));
    assert_eq!(plane::read(b"N01A").unwrap().west, -1_327_104_000);
}

#[test]
fn lines_of_the_program() {
    let output = b"1 0 0 44236800 29491200\nrefused 7 0\nrefused 6 0\n";
    assert_eq!(lines::answers(b"N31A\nn31A\n\n"), output);
    assert_eq!(lines::answers(b"N00A\nN61A\nN31-"), b"refused 20 3\nrefused 20 2\nrefused 7 3\n");
    assert_eq!(lines::answers(b""), b"");
    assert_eq!(lines::answers(b"\n"), b"refused 6 0\n");
    assert_eq!(lines::answers(b"N31A"), &output[..24]);
    assert_eq!(lines::answers(&[b'N'; 21]), b"refused 6 0\n");
}

#[test]
fn readings() {
    let of = |longitude: f64, latitude: f64| arcseconds(longitude.to_bits(), latitude.to_bits());
    assert_eq!(of(0.0, -0.0), Ok((0, 0)));
    assert_eq!(of(-1.0 / 2048.0, -1e-300), Ok((-1, -1)));
    assert_eq!(of(-1.0 / 2048.0 - 1e-9, 1.0), Ok((-2, 2048)));
    assert_eq!(of(f64::INFINITY, f64::NAN), Err(refusal(11)));
    assert_eq!(of(648_000.0, f64::INFINITY), Err(refusal(3)));
    // Each of the four edges: at it, and the f64 on either side of it.
    assert_eq!(of(648_000.0, 324_000.0), Ok((1_327_104_000, 663_552_000)));
    assert_eq!(of(-648_000.0, -324_000.0), Ok((-1_327_104_000, -663_552_000)));
    assert_eq!(of(648_000f64.next_down(), 324_000f64.next_down()), Ok((1_327_103_999, 663_551_999)));
    assert_eq!(of((-648_000f64).next_up(), (-324_000f64).next_up()), Ok((-1_327_104_000, -663_552_000)));
    assert_eq!(of(648_000f64.next_up(), 0.0), Err(refusal(2)));
    assert_eq!(of((-648_000f64).next_down(), 0.0), Err(refusal(2)));
    assert_eq!(of(0.0, 324_000f64.next_up()), Err(refusal(3)));
    assert_eq!(of(0.0, (-324_000f64).next_down()), Err(refusal(3)));
    assert_eq!(of(648_000f64.next_up(), 324_000f64.next_up()), Err(refusal(2)));
    assert_eq!(of(f64::MAX, f64::MIN), Err(refusal(2)));
    let zone = plane_box(b"N30A").unwrap().map(f64::from_bits);
    assert_eq!(zone, [-21_600.0, 0.0, 21_600.0, 14_400.0]);
    let mut random = Random::new(5);
    for _ in 0..100_000 {
        let units = random.between(-TURN / 2, TURN);
        assert_eq!(f64::from_bits(over_2048(units)), units as f64 / 2048.0);
        // The floor by the bits against the f64's own floor, which is exact
        // here: 2048 times a reading only moves its power of two.
        let reading = f64::from_bits(cases::any_reading(&mut random));
        let floor = (reading * 2048.0).floor();
        let own = of(reading, 0.0).map(|units| f64::from(units.0));
        if (-648_000.0..=648_000.0).contains(&reading) {
            assert_eq!(own, Ok(floor), "{reading:e}");
        } else {
            assert!(own.is_err(), "{reading:e}");
        }
    }
}

/// The lists divide: the cells of a list do not overlap and fill the cell.
#[test]
fn lists_divide() {
    let area = |cell: &listing::Listed| i128::from(cell.width) * i128::from(cell.height);
    let first = listing::first_level();
    assert_eq!(first.len(), 2 * (1 + 60 * 22));
    assert_eq!(first.iter().map(area).sum::<i128>(), i128::from(TURN) * i128::from(TURN / 2));
    let mut random = Random::new(7);
    for round in 0..300 {
        let mut at = match round % 3 {
            0 => first[0],
            1 => first[1321],
            _ => random.pick(first),
        };
        while at.level < 10 {
            let list = listing::children(&at);
            assert_eq!(list.iter().map(area).sum::<i128>(), area(&at));
            for (place, one) in list.iter().enumerate() {
                for other in &list[..place] {
                    assert_ne!(one.text(), other.text());
                    let apart = one.west + one.width <= other.west
                        || other.west + other.width <= one.west
                        || one.south + one.height <= other.south
                        || other.south + other.height <= one.south;
                    assert!(apart);
                }
            }
            at = if random.one_in(2) { list[list.len() / 2] } else { random.pick(&list) };
            let cap = list.iter().find(|cell| cell.region == plane::Region::Cap);
            if let (Some(cap), true) = (cap, random.one_in(2)) {
                at = *cap;
            }
        }
    }
}

/// The quick oracle against the lists.
#[test]
fn quick_is_listing() {
    let mut random = Random::new(11);
    for _ in 0..20_000 {
        let (longitude, latitude) = cases::anywhere(&mut random);
        let level = random.between(1, 10);
        let mut code = plane_code(longitude, latitude, level).into_bytes();
        cases::damage(&mut random, &mut code);
        assert_eq!(plane::read(&code), listing::read(&code));
        let code = cases::listed_code(&mut random, level as usize);
        assert_eq!(plane::read(&code), listing::read(&code));
        assert!(LENGTHS.contains(&code.len()));
    }
}

/// What the space writer writes lies in the cell that the reader reads.
#[test]
fn space_round_trip() {
    let mut random = Random::new(13);
    for edition in (0..50_000).map(|round| Edition::BOTH[round % 2]) {
        let (longitude, latitude) = cases::near_edge(&mut random);
        let layer = cases::layer(&mut random, edition);
        let level = random.between(1, 10);
        let code = space_code(edition, longitude, latitude, layer, level);
        let cell = space::read(edition as i64, code.as_bytes()).unwrap();
        let floor = i64::from(cell.floor);
        assert!(floor <= layer && layer < floor + i64::from(cell.thickness));
        assert_eq!(floor.rem_euclid(i64::from(cell.thickness)), 0);
        assert_eq!(cell.plane, listing::code(level as usize, longitude, latitude).1);
        let plain = layers::height_cell(edition, level as usize, layer);
        assert_eq!((floor, i64::from(cell.thickness)), (plain.floor, plain.thickness));
    }
}

/// Each offset written is read back as the same target.
#[test]
fn reference_round_trip() {
    let mut random = Random::new(17);
    for _ in 0..20_000 {
        let (longitude, latitude) = cases::ordinary(&mut random);
        let level = random.between(5, 10);
        let base = plane_code(longitude, latitude, level);
        let cell = plane::read(base.as_bytes()).unwrap();
        let east = random.between(-7, 7);
        let north = random.between(-7, 7);
        let there = plane::wrap(longitude + east * i64::from(cell.width));
        let up = latitude + north * i64::from(cell.height);
        if plane::outward(up) >= plane::POLAR_INDEX {
            continue;
        }
        let goal = plane_code(there, up, level);
        let mut line = [0; 23];
        let length = reference::write(base.as_bytes(), goal.as_bytes(), &mut line, 0).unwrap();
        assert_eq!(target(std::str::from_utf8(&line[..length]).unwrap()), goal);
    }
}
