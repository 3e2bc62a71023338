//! Before the quick oracle is trusted: it against the lists, edition 2 against the layer's binary digits written out, conflicts against what each
//! record holds, and place books against the bytes that their entries make.

use super::{Family, Kind};
use crate::checks::{show, Run};
use hailgully_tests::arcseconds::arcseconds;
use hailgully_tests::book::{self, plain};
use hailgully_tests::cases::{self, About, MINUTES};
use hailgully_tests::layers::height_cell;
use hailgully_tests::places;
use hailgully_tests::places::plain::{agrees, loosely, made};
use hailgully_tests::plane::{self, listing, LENGTHS, POLAR_INDEX};
use hailgully_tests::reference::{self, OFFSETS};
use hailgully_tests::space::{self, Edition};

pub fn families() -> Vec<Family> {
    let own = |name, rounds, round| Family { name, kind: Kind::Own(rounds, round) };
    vec![
        own("own check: plane codes against the lists", 200_000, planes),
        own("own check: 180 and 90 degrees against the lists", 20_000, ends),
        own("own check: space codes against the lists", 20_000, |run| spaces(run, Edition::Ours)),
        own("own check: space codes of edition 2 against binary digits", 20_000, |run| spaces(run, Edition::Theirs)),
        own("own check: reference codes against steps", 40_000, steps),
        own("own check: conflicts against what records hold", 40_000, conflicts),
        own("own check: longitudes of a small globe, listed", 40_000, small_globe),
        own("own check: place books by offsets against bytes made again", 10_000, books_of_places),
    ]
}

/// Tells a difference within the oracle, if `well` is false.
fn own(run: &mut Run, well: bool, told: impl FnOnce() -> String) {
    run.tally.own_checks += 1;
    if !well {
        run.tally.difference(|| format!("the oracle itself: {}", told()));
    }
}

fn planes(run: &mut Run) {
    let (longitude, latitude) = cases::anywhere(&mut run.random);
    let level = run.random.between(1, 10) as usize;
    let length = LENGTHS[level - 1];
    let mut code = plane::write::finest(longitude, latitude);
    let (listed, cell) = listing::code(level, longitude, latitude);
    own(run, listed == code[..length], || {
        let (one, other) = (show(&listed), show(&code[..length]));
        format!("level {level} {longitude} {latitude}: {other}, by the lists {one}")
    });
    same_reading(run, &listed, Some(cell));
    cases::damage(&mut run.random, &mut code[..length]);
    same_reading(run, &code[..length], None);
    let (code, length) = cases::walked_code(&mut run.random);
    same_reading(run, &code[..length], None);
}

fn same_reading(run: &mut Run, code: &[u8], cell: Option<plane::PlaneCell>) {
    let (quick, listed) = (plane::read(code), listing::read(code));
    let well = quick == listed && cell.is_none_or(|cell| quick == Ok(cell));
    own(run, well, || {
        let code = show(code);
        format!("{code}: {quick:?}, by the lists {listed:?}, {cell:?}")
    });
}

/// Both upper ends of the ranges, in units and as readings, against the squares that Wish 2 names for them, by the lists.
fn ends(run: &mut Run) {
    let (longitude, latitude) = cases::anywhere(&mut run.random);
    let level = run.random.between(1, 10);
    for ((longitude, latitude), (west, south)) in [
        ((1_327_104_000, latitude), (-1_327_104_000, latitude)),
        ((longitude, 663_552_000), (longitude, 663_551_999)),
        ((1_327_104_000, 663_552_000), (-1_327_104_000, 663_551_999)),
    ] {
        let mut line = [0; 20];
        let written = plane::write(level, longitude, latitude, &mut line, 0);
        let (listed, _) = listing::code(level as usize, west, south);
        own(run, written == Ok(listed.len()) && line[..listed.len()] == listed, || {
            let (one, other) = (show(&listed), show(&line));
            format!("level {level} {longitude} {latitude}: {written:?} {other}, by the lists {one}")
        });
        let [east, north] = [longitude, latitude].map(|units| (units as f64 / 2048.0).to_bits());
        let read = arcseconds(east, north);
        own(run, read == Ok((longitude as i32, latitude as i32)), || format!("reading of {longitude} {latitude}: {read:?}"));
    }
}

/// The space code put together from the listed plane code and the plain
/// height characters: "N or S, the sign, then for each level its plane
/// characters followed by its height character or characters".
fn spaces(run: &mut Run, edition: Edition) {
    let (longitude, latitude) = cases::anywhere(&mut run.random);
    let layer = cases::layer(&mut run.random, edition);
    let level = run.random.between(1, 10) as usize;
    let (flat, cell) = listing::code(level, longitude, latitude);
    let high = height_cell(edition, level, layer);
    let heights = high.text.as_bytes();
    let mut code = vec![flat[0], heights[0]];
    let (mut seen, mut used) = (1, 1);
    for (at, &length) in LENGTHS[..level].iter().enumerate() {
        code.extend_from_slice(&flat[seen..length]);
        let next = if at == 0 { 3 } else { used + 1 };
        code.extend_from_slice(&heights[used..next]);
        (seen, used) = (length, next);
    }
    let mut line = [0; 32];
    let written = space::write(edition as i64, level as i64, longitude, latitude, layer, &mut line, 0);
    let well = written == Ok(code.len()) && line[..code.len()] == code;
    own(run, well, || {
        let (one, other) = (show(&line), show(&code));
        format!("{edition:?} level {level} {longitude} {latitude} {layer}: {one}, plainly {other}")
    });
    let read = space::read(edition as i64, &code);
    let well =
        read.is_ok_and(|read| read.plane == cell && i64::from(read.floor) == high.floor && i64::from(read.thickness) == high.thickness);
    own(run, well, || format!("{}: {read:?}", show(&code)));
    // Of a bad character: misplaced, if the lists have it somewhere.
    cases::damage(&mut run.random, &mut code);
    if let Err(bad) = space::read(edition as i64, &code) {
        let listed = if listing::belongs(code[bad.place as usize]) { 20 } else { 7 };
        own(run, bad.number == listed, || format!("{}: {bad:?}, by the lists {listed}", show(&code)));
    }
}

/// A reference read, done by walking cell by cell: from a square over the
/// cell's edge to the next cell's square, by the lists.
fn steps(run: &mut Run) {
    let (longitude, latitude) = cases::anywhere(&mut run.random);
    if plane::outward(latitude) >= POLAR_INDEX {
        return;
    }
    let level = run.random.between(5, 10) as usize;
    let (base, cell) = listing::code(level, longitude, latitude);
    let east = run.random.below(15) as usize;
    let north = run.random.below(15) as usize;
    let mut code = base.clone();
    code.extend_from_slice(&[b'-', OFFSETS[east], OFFSETS[north]]);
    let (mut west, mut south) = (i64::from(cell.west), i64::from(cell.south));
    for _ in 0..east.abs_diff(7) {
        let step = if east > 7 { 1 } else { -1 };
        west = plane::wrap(west + step * i64::from(cell.width));
    }
    for _ in 0..north.abs_diff(7) {
        let step = if north > 7 { 1 } else { -1 };
        south += step * i64::from(cell.height);
    }
    let (target, reached) = listing::code(level, west, south);
    let mut line = [0; 20];
    let read = reference::read(&code, &mut line, 0);
    if plane::polar(&reached) {
        let well = read.is_err_and(|refusal| refusal.number == 12);
        return own(run, well, || format!("{}: {read:?}, not 12", show(&code)));
    }
    let well = read == Ok(target.len()) && line[..target.len()] == target;
    own(run, well, || {
        let (code, one, other) = (show(&code), show(&line), show(&target));
        format!("{code}: {one}, by steps {other}")
    });
    let mut line = [0; 23];
    let written = reference::write(&base, &target, &mut line, 0);
    let well = written == Ok(code.len()) && line[..code.len()] == code;
    own(run, well, || format!("{}: {written:?}", show(&code)));
}

/// Records about one cell, each with the cell and with the next.
fn conflicts(run: &mut Run) {
    let (kind, code) = cases::codes_about(&mut run.random, 1).remove(0);
    let minutes = run.random.pick(&MINUTES);
    let Ok(cell) = kind.cell(&code) else { return own(run, false, || format!("{} is refused", show(&code))) };
    let about = About::new(cell, minutes);
    let mut last = about.same();
    for _ in 0..8 {
        let next = about.some(&mut run.random, 9);
        for other in [last, about.same()] {
            let (quick, plain) = (next.conflicts(&other), plain::conflicts(&next, &other));
            own(run, quick == plain && quick == other.conflicts(&next), || format!("{next:?} and {other:?}: {quick}, plainly {plain}"));
        }
        last = next;
    }
}

/// Two arcs of a globe of few longitudes share one exactly when the lists of their longitudes do.
fn small_globe(run: &mut Run) {
    let turn = run.random.between(1, 20);
    let mut arc = || (run.random.between(-3 * turn, 3 * turn), run.random.between(0, 3 * turn));
    let (one, other) = (arc(), arc());
    let [quick, again] = [one, other].map(|(west, width)| book::pieces(west, width, turn));
    let [listed, with] = [one, other].map(|(west, width)| plain::listed(west, width, turn));
    let (quick, plain) = (book::pieces_meet(&quick, &again), !listed.is_disjoint(&with));
    own(run, quick == plain, || format!("arcs {one:?} and {other:?} of {turn}: {quick}, listed {plain}"));
}

/// A place book is well formed exactly when its list is good and makes the same bytes again; each entry has its part.
fn books_of_places(run: &mut Run) {
    let count = run.random.below(8) as usize;
    let list = cases::place_list(&mut run.random, count);
    for book in [made(&list), cases::spoiled(&mut run.random, &list), cases::spoiled(&mut run.random, &list)] {
        let parts = places::entries(&book).iter().flatten().all(|entry| {
            let body = [&entry.name[..], &entry.code].concat();
            book[entry.start..].starts_with(&body) && loosely(&entry.name, &book) == Some(&entry.code)
        });
        own(run, parts && agrees(&book), || format!("place book {}", show(&book)));
    }
}
