//! Cases of the place book: books of every size, with each field wrong, with bodies, names and codes that are not as they should be, cut, and damaged
//! byte by byte; and (short.rs) short codes.

mod short;

use super::{each_change, each_length, fixed, part, random, Family};
use crate::checks::Run;
use hailgully_tests::cases::{self, laid_out, names_about, overlapping, placed, small_places};
use hailgully_tests::places::plain::{made, Entry};
use hailgully_tests::places::{BYTES, MOST, NAME_MOST};
use hailgully_tests::plane::write::finest;

pub fn families() -> Vec<Family> {
    let mut families = vec![
        fixed("places: books of every size, names about theirs", SIZES.len() as u64, sizes),
        fixed("places: 1,000 entries and 65,535 bytes, and about as many", LIMITS.len() as u64, limits),
        fixed("places: each field wrong", 12, fields),
        fixed("places: fields of long books wrong", 2, fields_of_long),
        fixed("places: bodies elsewhere", 8, bodies),
        fixed("places: all lists of three names", NAMES.len() as u64, names),
        fixed("places: names that begin alike", PARTINGS as u64, alike),
        fixed("places: names that no book has", 4, odd_names),
        fixed("places: codes of lengths 0 to 60", 16, codes),
        fixed("places: every cut", 8, cuts),
        fixed("places: every byte at every place", 5, damage),
        random("places: random books", 3, books),
    ];
    families.extend(short::families());
    families
}

/// Each name of a list, and a few others.
fn ask_all(run: &mut Run, list: &[Entry], book: &[u8]) {
    list.iter().for_each(|(name, _)| run.place(name, book));
    [&b""[..], b"-", b"absent", &[b'n'; NAME_MOST + 1]].iter().for_each(|name| run.place(name, book));
    let known = list.last().map_or(&b"a"[..], |entry| &entry.0);
    run.short_read(&[known, b"-10"].concat(), book, 24, 2);
}

/// The small lists by their number, and after them some that the seed picks.
fn some_list(run: &mut Run, number: u64) -> Vec<Entry> {
    let count = run.random.between(3, 6) as usize;
    small_places().into_iter().nth(number as usize).unwrap_or_else(|| cases::place_list(&mut run.random, count))
}

const SIZES: [usize; 16] = [0, 1, 2, 3, 4, 5, 8, 13, 30, 63, 64, 65, 100, 255, 256, 257];

/// Of names about those of a longer book, some that the seed picks.
fn sizes(run: &mut Run, piece: u64) {
    let count = SIZES[piece as usize];
    for list in [cases::filled_places(&mut run.random, count, 2 + 30 * count), cases::place_list(&mut run.random, count)] {
        let (book, mut names) = (made(&list), names_about(&list));
        if count > 10 {
            names = (0..80).map(|_| names[run.random.below(names.len() as u64) as usize].clone()).collect();
        }
        names.iter().for_each(|name| run.place(name, &book));
    }
    if let Some(list) = small_places().get(piece as usize) {
        names_about(list).iter().for_each(|name| run.place(name, &made(list)));
    }
}

/// Counts and bytes about the most; a count that would be small if it were cut to 8 bits.
const LIMITS: [(usize, usize); 14] = [
    (MOST - 1, 30_000),
    (MOST, 30_000),
    (MOST + 1, 30_000),
    (MOST + 24, 30_000),
    (MOST + 256, 40_000),
    (2 * MOST, 60_000),
    (MOST, BYTES - 1),
    (MOST, BYTES),
    (MOST, BYTES + 1),
    (MOST + 1, BYTES + 1),
    (745, BYTES),
    (745, BYTES + 1),
    (760, BYTES + 2),
    (1 << 10, BYTES),
];

fn limits(run: &mut Run, piece: u64) {
    let (count, bytes) = LIMITS[piece as usize];
    long_book(run, count, bytes);
}

/// A long book is asked for its first and its last name, for another, and for a short code.
fn long_book(run: &mut Run, count: usize, bytes: usize) {
    let list = cases::filled_places(&mut run.random, count, bytes);
    let book = made(&list);
    let (last, _) = &list[count - 1];
    run.place_part(&list[0].0, &book);
    run.place(last, &book);
    run.place_find(&last[..3], &book);
    run.short_read(&[last, &b"-0A"[..]].concat(), &book, 30, 1);
}

/// Each byte of the count and of the contents of these entries one up and down; lengths also 0 and 255.
fn wrong_fields(book: &[u8], entries: &[usize], mut ask: impl FnMut(usize, &[u8])) {
    let places = entries.iter().flat_map(|entry| (2 + 4 * entry..6 + 4 * entry).map(move |place| (*entry, place)));
    for (entry, place) in [(0, 0), (0, 1)].into_iter().chain(places) {
        let right = book[place];
        for wrong in [right.wrapping_add(1), right.wrapping_sub(1), 0, 255].iter().filter(|&&wrong| wrong != right) {
            let mut book = book.to_vec();
            book[place] = *wrong;
            ask(entry, &book);
        }
    }
}

fn fields(run: &mut Run, piece: u64) {
    let mut list = some_list(run, piece);
    if piece == 11 {
        list = cases::place_list(&mut run.random, 40);
    }
    let (book, all): (_, Vec<usize>) = (made(&list), (0..list.len()).collect());
    ask_all(run, &list, &book);
    wrong_fields(&book, &all, |entry, book| match list.len() {
        0..10 => ask_all(run, &list, book),
        _ => run.place(&list[entry].0, book),
    });
}

/// Of the first entry, the middle one, the last, and two that the seed picks.
fn fields_of_long(run: &mut Run, piece: u64) {
    let (count, bytes) = [(MOST, 30_000), (745, BYTES)][piece as usize];
    let list = cases::filled_places(&mut run.random, count, bytes);
    let [one, other] = [(); 2].map(|()| run.random.below(count as u64) as usize);
    wrong_fields(&made(&list), &[0, count / 2, count - 1, one, other], |entry, book| run.place(&list[entry].0, book));
}

/// With gaps and in other orders, each body where its entry says; with bytes behind the last; and on the same bytes.
fn bodies(run: &mut Run, piece: u64) {
    let list = some_list(run, piece);
    let count = list.len();
    let order: Vec<usize> = (0..count).collect();
    for gap in 0..count {
        for size in [1, 2, 256] {
            let gaps: Vec<usize> = order.iter().map(|&at| if at == gap { size } else { 0 }).collect();
            ask_all(run, &list, &laid_out(&list, &order, &gaps));
        }
        let mut order = order.clone();
        order.swap(gap, count - 1);
        ask_all(run, &list, &laid_out(&list, &order, &vec![0; count]));
        order.sort_unstable();
        order.rotate_left(gap);
        ask_all(run, &list, &laid_out(&list, &order, &vec![0; count]));
    }
    for behind in [1, 2, 4, 255, 256, 1 << 16] {
        ask_all(run, &list, &[made(&list), vec![b'0'; behind]].concat());
    }
    for shared in 0..=4 {
        let list = [placed(b"!", b"N31A"), placed(&b"N31A"[4 - shared..], b"N32A")];
        ask_all(run, &list, &overlapping(&list[0].0, &list[0].1, shared, &list[1].1));
    }
}

/// Names that dictionary order, and no other, puts in this order.
const NAMES: [&[u8]; 14] = [b"\0", b"\0\0", b"0", b"10", b"9", b"A", b"B", b"a", b"a\0", b"aa", b"b", b"\x7f\xff", b"\x80", b"\xff"];

fn names(run: &mut Run, piece: u64) {
    let codes = [&b"N31A"[..], b"N000", b"N50J475492E"];
    for second in NAMES {
        for third in NAMES {
            let list: Vec<Entry> =
                [NAMES[piece as usize], second, third].into_iter().zip(codes).map(|(name, code)| placed(name, code)).collect();
            let book = made(&list);
            run.place(NAMES[piece as usize], &book);
            run.place(third, &book);
        }
    }
}

/// How many bytes two names may begin with alike: a few more than are compared at once.
const PARTINGS: usize = 14;

/// Two names that begin alike, in both orders: the first bytes that differ decide, against those behind them and whatever the lengths; a name that the
/// other goes on from; and the other with a hyphen at each place.
fn alike(run: &mut Run, piece: u64) {
    let start = vec![b'n'; piece as usize];
    let name = |byte: u8, fill: u8, more: usize| [&start[..], &[byte], &vec![fill; more]].concat();
    for (low, high) in [(0, 255), (127, 128), (44, 46), (b'N', b'n'), (254, 255)] {
        for (one, other) in (0..36).map(|lengths| (lengths / 6, lengths % 6)) {
            two_names(run, &name(low, 255, one), &name(high, 0, other));
        }
    }
    for more in 0..6 {
        two_names(run, &start, &name(0, 0, more));
        let other = name(b'o', b'o', more);
        for place in 0..other.len() {
            let mut hyphened = other.clone();
            hyphened[place] = b'-';
            two_names(run, &name(b'm', b'm', 5), &hyphened);
        }
    }
}

/// Both names are looked up in a book of both, in either order.
fn two_names(run: &mut Run, one: &[u8], other: &[u8]) {
    for [first, second] in [[one, other], [other, one]] {
        let book = made(&[placed(first, b"N31A"), placed(second, b"N50J475492E")]);
        run.place_find(one, &book);
        run.place_part(other, &book);
    }
}

/// In a book and asked for: names of 0 to 70 bytes, of 255, and with a hyphen, or the bytes beside it, at every place.
fn odd_names(run: &mut Run, piece: u64) {
    let of = |name: &[u8]| [vec![placed(name, b"N31A")], vec![placed(b"\0", b"N000"), placed(name, b"N31A")]];
    let mut odd: Vec<Vec<u8>> = (0..=70).chain([128, 255]).map(|length| vec![b'a'; length]).collect();
    for length in [1, 2, 3, NAME_MOST - 1, NAME_MOST] {
        for (place, byte) in (0..length).flat_map(|place| b"-,.\0\xad".map(|byte| (place, byte))) {
            odd.push((0..length).map(|at| if at == place { byte } else { b'b' }).collect());
        }
    }
    for name in part(&odd, piece, 4) {
        for list in of(&name) {
            let book = made(&list);
            run.place(&name, &book);
            run.place(b"\0", &book);
            run.short_read(&[&name, &b"-00"[..]].concat(), &book, 20, 0);
        }
    }
}

/// The code of a square, of every length and with what the plane reader refuses, as the code of a place.
fn codes(run: &mut Run, piece: u64) {
    let (longitude, latitude) = cases::places_of_each_kind()[piece as usize];
    each_length(&finest(longitude, latitude), b"07Vv-", |code| {
        let list = [placed(b"a", b"N31A"), placed(b"b", code)];
        run.place(b"b", &made(&list));
        run.place(b"b", &made(&list[1..]));
        run.short_read(b"a-10", &made(&list), 20, 0);
    });
}

fn cuts(run: &mut Run, piece: u64) {
    let list = some_list(run, piece);
    let book = made(&list);
    for length in 0..book.len() {
        ask_all(run, &list, &book[..length]);
    }
}

/// The first name is looked up by both calls, the others by one; and one of the names about them, and a short code.
fn damage(run: &mut Run, piece: u64) {
    let list = some_list(run, piece + 1);
    let names = names_about(&list);
    let mut turn = 0;
    each_change(&made(&list), |book| {
        turn += 1;
        run.place(&list[0].0, book);
        for (at, (name, _)) in list.iter().enumerate().skip(1) {
            match (at + turn + turn / 256) % 2 {
                0 => run.place_find(name, book),
                _ => run.place_part(name, book),
            }
        }
        run.place_part(&names[turn % names.len()], book);
        run.short_read(&[&list[turn % list.len()].0, &b"-10"[..]].concat(), book, 20, 0);
    });
}

/// A list for a book: mostly small.
fn any_list(run: &mut Run) -> Vec<Entry> {
    let count = match run.random.below(12) {
        0 => run.random.between(7, 40),
        _ => run.random.between(0, 6),
    };
    cases::place_list(&mut run.random, count as usize)
}

/// Good and spoiled ones; now and then one of the most entries or bytes, or of one more.
fn books(run: &mut Run) {
    if run.random.one_in(20) {
        let (count, bytes) = run.random.pick(&[(MOST, 30_000), (MOST + 1, 30_000), (MOST, BYTES), (745, BYTES + 1)]);
        return long_book(run, count, bytes);
    }
    let list = any_list(run);
    for spoil in [false, true, true] {
        let book = if spoil { cases::spoiled(&mut run.random, &list) } else { made(&list) };
        for _ in 0..4 {
            let name = cases::asked_name(&mut run.random, &list);
            run.place(&name, &book);
        }
        short::ask(run, &list, &book);
    }
}
