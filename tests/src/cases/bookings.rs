//! Records of the book: about a cell and minutes, and odd ones; and codes that
//! touch, nest and overlap.

use super::{anywhere, layer, near_edge, polar, random_longitude, Random};
use crate::book::{Kind, Reservation};
use crate::plane::{self, wrap, PlaneCell, LENGTHS, SOUTH, TURN, WEST};
use crate::space::{self, Edition, SpaceCell};

/// Live marks of every kind; any but 0 is live.
pub const MARKS: [u32; 5] = [0, 1, 2, 1 << 31, u32::MAX];

/// Starts and ends of requests.
pub const MINUTES: [(u32, u32); 5] = [(10, 20), (0, 1), (u32::MAX - 1, u32::MAX), (0, u32::MAX), ((1 << 31) - 1, (1 << 31) + 1)];

/// A flight number of a few; some of them are others if they are cut to fewer
/// bits.
pub fn flight(random: &mut Random, most: usize) -> u32 {
    let low = random.below(most as u64 + 1) as u32;
    if random.one_in(6) {
        low | random.pick(&[1 << 8, 1 << 16, 1 << 31])
    } else {
        low
    }
}

/// Those that a record can hold, of a first number and a count.
fn held(list: Vec<(i64, i64)>) -> Vec<(i32, u32)> {
    list.into_iter().filter_map(|(first, count)| Some((i32::try_from(first).ok()?, u32::try_from(count).ok()?))).collect()
}

/// Ranges about a range: apart by one, touching and sharing one on either side,
/// inside it, around it, of no size, and as long as numbers go.
fn about(first: i64, count: i64) -> Vec<(i64, i64)> {
    let (end, least, greatest) = (first + count, i64::from(i32::MIN), i64::from(i32::MAX));
    let most = i64::from(u32::MAX);
    let mut list = vec![(first, count), (first - 1, count + 2), (first + count / 2, 1)];
    for size in [1, 2, count] {
        list.extend([-1, 0, 1].map(|by| (end + by, size)));
        list.extend([-1, 0, 1].map(|by| (first - size + by, size)));
    }
    for at in [first, end - 1, end, first - 1, least, greatest, 0, -1] {
        list.extend([0, 1, 1 << 31, most - 1, most].map(|size| (at, size)));
    }
    // To the first number from far below, and back to it by a sum that wraps at 32 bits.
    list.extend([-1, 0, 1].map(|by| (least, first - least + by)));
    list.extend([-1, 0, 1].map(|by| (end, (1 << 32) - count + by)));
    list
}

/// The same of longitudes, which turn: a turn further, past 180°, and about as
/// wide as a turn.
fn about_longitudes(west: i64, width: i64) -> Vec<(i64, i64)> {
    let mut list = about(west, width);
    for size in [TURN - width - 1, TURN - width, TURN - width + 1, TURN - 1, TURN, TURN + 1, 2 * i64::from(i32::MAX) + 1] {
        list.extend([-1, 0, 1].map(|by| (west + width + by, size)));
        list.extend([(i64::from(i32::MIN), size), (i64::from(i32::MAX), size), (west, size)]);
    }
    for edge in [TURN / 2, TURN / 2 - 1] {
        list.extend([1, 2, 100].map(|size| (edge, size)));
    }
    let turned: Vec<_> = list.iter().flat_map(|&(first, count)| [(first + TURN, count), (first - TURN, count)]).collect();
    list.extend(turned);
    list
}

/// Starts and ends about others: apart, touching, sharing one minute, all, and
/// none because the start is not before the end.
fn about_minutes((start, end): (u32, u32)) -> Vec<(u32, u32)> {
    let (start, end, most) = (i64::from(start), i64::from(end), i64::from(u32::MAX));
    let mut list = vec![(start, end), (start - 1, end + 1), (0, most), (most, 0), (end, start), (end - 1, start + 1), (most, most)];
    list.extend([-1, 0, 1].map(|by| (end + by, end + by + 1)));
    list.extend([-1, 0, 1].map(|by| (start + by - 1, start + by)));
    list.extend([-1, 0, 1].map(|by| (end + by, most)));
    list.extend([-1, 0, 1].map(|by| (0, start + by)));
    list.extend([start - 1, start, start + 1, end - 1, end].map(|at| (at, at)));
    list.extend([(end + 1, start), (end, start - 1), (start + 1, start - 1)]);
    list.into_iter().filter_map(|(start, end)| Some((start.try_into().ok()?, end.try_into().ok()?))).collect()
}

/// Records about a cell and minutes, axis by axis; both columns of plane codes are
/// among their layers.
pub struct About {
    cell: SpaceCell,
    minutes: (u32, u32),
    longitudes: Vec<(i32, u32)>,
    latitudes: Vec<(i32, u32)>,
    layers: Vec<(i32, u32)>,
    times: Vec<(u32, u32)>,
}

impl About {
    pub fn new(cell: SpaceCell, minutes: (u32, u32)) -> About {
        let SpaceCell { plane: PlaneCell { west, south, width, height, .. }, floor, thickness } = cell;
        let columns = Kind::COLUMNS.into_iter().filter_map(Kind::column);
        About {
            cell,
            minutes,
            longitudes: held(about_longitudes(west.into(), width.into())),
            latitudes: held(about(south.into(), height.into())),
            layers: held(about(floor.into(), thickness.into())).into_iter().chain(columns).collect(),
            times: about_minutes(minutes),
        }
    }

    /// A live record of the cell itself.
    pub fn same(&self) -> Reservation {
        let (start, end) = self.minutes;
        Reservation { live: 1, flight: 7, cell: self.cell, start, end, ..Reservation::default() }
    }

    /// Live records that differ from it on one axis.
    pub fn each(&self) -> Vec<Reservation> {
        let same = self.same();
        let longitudes = self.longitudes.iter().map(|&longitudes| with_longitudes(same, longitudes));
        let latitudes = self.latitudes.iter().map(|&latitudes| with_latitudes(same, latitudes));
        let layers = self.layers.iter().map(|&layers| with_layers(same, layers));
        let times = self.times.iter().map(|&(start, end)| Reservation { start, end, ..same });
        longitudes.chain(latitudes).chain(layers).chain(times).collect()
    }

    /// A record that shares much with it; its mark and flight number are any.
    pub fn some(&self, random: &mut Random, flights: usize) -> Reservation {
        let mut record = self.same();
        if random.one_in(2) {
            record = with_longitudes(record, random.pick(&self.longitudes));
        }
        if random.one_in(3) {
            record = with_latitudes(record, random.pick(&self.latitudes));
        }
        if random.one_in(3) {
            record = with_layers(record, random.pick(&self.layers));
        }
        if random.one_in(3) {
            (record.start, record.end) = random.pick(&self.times);
        }
        record.cell.plane.level = if random.one_in(2) { random.draw() as u32 } else { record.cell.plane.level };
        record.live = random.pick(&MARKS);
        record.flight = flight(random, flights);
        record
    }
}

fn with_longitudes(mut record: Reservation, (west, width): (i32, u32)) -> Reservation {
    (record.cell.plane.west, record.cell.plane.width) = (west, width);
    record
}

fn with_latitudes(mut record: Reservation, (south, height): (i32, u32)) -> Reservation {
    (record.cell.plane.south, record.cell.plane.height) = (south, height);
    record
}

fn with_layers(mut record: Reservation, (floor, thickness): (i32, u32)) -> Reservation {
    (record.cell.floor, record.cell.thickness) = (floor, thickness);
    record
}

/// A record of random numbers with this mark.
pub fn noise(random: &mut Random, live: u32) -> Reservation {
    Reservation::drawn(live, || random.draw() as u32)
}

/// A live record that names nothing, and so conflicts with none: of no width, no
/// height, no thickness or no minute.
pub fn nothing(random: &mut Random, live: u32, flight: u32) -> Reservation {
    let mut record = Reservation { flight, ..noise(random, live) };
    match random.below(4) {
        0 => record.cell.plane.width = 0,
        1 => record.cell.plane.height = 0,
        2 => record.cell.thickness = 0,
        _ => record.end = record.end.min(record.start),
    }
    record
}

/// A code, and the call that is to add by it.
pub type Coded = (Kind, Vec<u8>);

/// The code of a square and layer at a level.
pub fn coded(kind: Kind, level: usize, (longitude, latitude): (i64, i64), layer: i64) -> Coded {
    let code = match kind {
        Kind::Plane | Kind::Ground => plane::write::finest(longitude, latitude)[..LENGTHS[level - 1]].to_vec(),
        Kind::Space => space::finest(Edition::Ours, (longitude, latitude), layer)[..space::LENGTHS[level - 1]].to_vec(),
    };
    (kind, code)
}

/// Squares beside 180°.
pub fn beside_180(random: &mut Random) -> (i64, i64) {
    let latitude = if random.one_in(3) { polar(random).1 } else { random.between(SOUTH.0, SOUTH.1) };
    (random.pick(&[WEST.0, WEST.1]), latitude)
}

/// A few codes of cells at, beside, above and below one square, of at most three
/// levels, so that they touch, nest and overlap; half of them are space codes.
pub fn codes_about(random: &mut Random, count: usize) -> Vec<Coded> {
    let (longitude, latitude) = match random.below(5) {
        0 => beside_180(random),
        1 => polar(random),
        2 => near_edge(random),
        3 => (random_longitude(random), random.pick(&[SOUTH.0, SOUTH.1])),
        _ => anywhere(random),
    };
    let high = match random.below(3) {
        0 => random.pick(&[-1, 0, 1]),
        1 => random.pick(&[1_887_436_799, -1_887_436_800]),
        _ => layer(random, Edition::Ours),
    };
    let levels = [(); 3].map(|()| random.between(1, 10) as usize);
    let (least, greatest) = Edition::Ours.layers();
    let mut list = Vec::new();
    for _ in 0..count {
        let level = random.pick(&levels);
        let kind = random.pick(&[Kind::Plane, Kind::Ground, Kind::Space, Kind::Space]);
        let (_, code) = coded(Kind::Space, level, (longitude, latitude), high);
        let sizes = space::read(1, &code).map_or([1; 3], |cell| [cell.plane.width, cell.plane.height, cell.thickness]);
        let [east, north, up] = sizes.map(|size| random.between(-1, 1) * i64::from(size));
        let square = (wrap(longitude + east), (latitude + north).clamp(SOUTH.0, SOUTH.1));
        list.push(coded(kind, level, square, (high + up).clamp(least, greatest)));
    }
    list
}
