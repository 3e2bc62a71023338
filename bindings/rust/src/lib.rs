//! The codes of the BeiDou grid (GB/T 39409-2020): plane, space and reference codes, arc-second readings and boxes, the book of the
//! cells that flights hold, and place names, looked up in a place book.
//!
//! Every call takes any numbers and any bytes, and answers with a result or with exactly one [`Refusal`]. Nothing is clipped, and a
//! refusal changes nothing that was lent. The work is done by a library whose every function is proved; this crate only wraps its C
//! interface.
//!
//! Longitudes run from -1,327,104,000 to 1,327,104,000 units, -180 to 180 degrees, and latitudes from -663,552,000 to 663,552,000, -90
//! to 90 degrees: 180 degrees stands for -180, and 90 for the unit south of it at the same longitude. The west of a cell that
//! is read is never 180 degrees, and its south never 90.
//!
//! Space codes have two editions, and the caller names one by its number: 1 is the grid's own, with layers from -1,887,436,800 to
//! 1,887,436,799; 2 cuts the layer by bits (annex C.14 of the standard), with layers from -2,147,483,648 to 2,147,483,647. Nothing in a
//! code says its edition.
//!
//! A book of reservations is a slice of at most 256 [`Reservation`]s that the caller lends. Two of them conflict when they share a unit
//! cube and a minute, and only live ones count. From a book with nothing live, whatever calls are made, each lent the same whole book as
//! the last one left it, no two live reservations conflict.
//!
//! A place book is a slice of at most 65,535 bytes that the caller lends: names with their plane codes. It starts with how many entries it
//! has, at most 1,000, as two bytes, the higher first. Then come the contents, four bytes an entry: where its body begins, counted from
//! the book's first byte, as two bytes, the higher first; the length of its name, 1 to 64; the length of its code. Then come the bodies,
//! in the same order and without gaps, each a name and a plane code that [`plane_read`] accepts; the last one ends the book. No name has
//! a hyphen, and the names rise strictly, as bytes in dictionary order. Each call checks the whole book that it is lent.
//!
//! ```
//! let mut line = *b"................";
//! assert_eq!(hailgully::plane_write(8, 857_549_557, 294_861_578, &mut line, 0), Ok(16));
//! assert_eq!(&line, b"N50J47539B825534");
//! ```
#![warn(missing_docs)]
#![forbid(unsafe_code)]

use hailgully_raw as raw;
use std::fmt;

/// Why a call was refused, in the words of the table of refusals; the discriminant is the number there.
#[derive(Clone, Copy, Debug, PartialEq, Eq, Hash)]
#[non_exhaustive]
pub enum Reason {
    /// level outside 1 to 10
    Level = 1,
    /// longitude outside its range, -180 to 180 degrees (either infinity too)
    Longitude = 2,
    /// latitude outside its range, -90 to 90 degrees (either infinity too)
    Latitude = 3,
    /// layer outside its range, which is the edition's
    Layer = 4,
    /// from the place given, the line lacks bytes for the whole code
    Room = 5,
    /// a code's length is none of its kind
    Length = 6,
    /// a character belongs to no code: it is neither 0 to 9 nor A to V, nor the hyphen of a reference code or a short code
    Garbled = 7,
    /// a reference base or target is below level 5 or polar
    ReferenceCell = 8,
    /// base and target levels differ
    LevelsDiffer = 9,
    /// either offset is beyond 7
    Offset = 10,
    /// either arc-second reading is not a number
    NotANumber = 11,
    /// a reference read leads to 88 degrees or nearer a pole
    PolarTarget = 12,
    /// edition neither 1 nor 2
    Edition = 13,
    /// start not before end
    Minutes = 14,
    /// a live record has the flight number already
    AlreadyLive = 15,
    /// a live record shares a unit cube and a minute with what is asked
    Conflict = 16,
    /// every record is live, as in a book of no records
    AllLive = 17,
    /// no live record has the flight number
    NotLive = 18,
    /// the book has more than 256 records
    BookTooLong = 19,
    /// a code character is not allowed at its place, given those before it
    Misplaced = 20,
    /// the place book is badly formed
    BadlyFormed = 21,
    /// no entry of the place book has the name
    NotInBook = 22,
}

/// Each reason with its words: place n - 1 has number n.
const REASONS: [(Reason, &str); 22] = [
    (Reason::Level, "level outside 1 to 10"),
    (Reason::Longitude, "longitude outside its range"),
    (Reason::Latitude, "latitude outside its range"),
    (Reason::Layer, "layer outside its range"),
    (Reason::Room, "from the place given, the line lacks bytes for the whole code"),
    (Reason::Length, "a code's length is none of its kind"),
    (Reason::Garbled, "a character belongs to no code"),
    (Reason::ReferenceCell, "a reference base or target is below level 5 or polar"),
    (Reason::LevelsDiffer, "base and target levels differ"),
    (Reason::Offset, "either offset is beyond 7"),
    (Reason::NotANumber, "either arc-second reading is not a number"),
    (Reason::PolarTarget, "a reference read leads to 88 degrees or nearer a pole"),
    (Reason::Edition, "edition neither 1 nor 2"),
    (Reason::Minutes, "start not before end"),
    (Reason::AlreadyLive, "a live record has the flight number already"),
    (Reason::Conflict, "a live record shares a unit cube and a minute with what is asked"),
    (Reason::AllLive, "every record is live"),
    (Reason::NotLive, "no live record has the flight number"),
    (Reason::BookTooLong, "the book has more than 256 records"),
    (Reason::Misplaced, "a code character is not allowed at its place, given those before it"),
    (Reason::BadlyFormed, "the place book is badly formed"),
    (Reason::NotInBook, "no entry of the place book has the name"),
];

/// A refusal: no result, and no byte that was lent was changed.
///
/// ```
/// use hailgully::Reason;
/// let refusal = hailgully::plane_read(b"N61A").unwrap_err();
/// assert_eq!((refusal.reason, refusal.number(), refusal.place), (Reason::Misplaced, 20, Some(2)));
/// assert_eq!(refusal.to_string(), "refused 20 at place 2: a code character is not allowed at its place, given those before it");
/// assert_eq!(hailgully::plane_read(b"n31A").unwrap_err().to_string(), "refused 7 at place 0: a character belongs to no code");
/// ```
#[derive(Clone, Copy, Debug, PartialEq, Eq, Hash)]
pub struct Refusal {
    /// Why.
    pub reason: Reason,
    /// The place of the first bad character for [`Reason::Garbled`] and [`Reason::Misplaced`], and of the first conflicting record for
    /// [`Reason::Conflict`], counted from 0; no other reason has one.
    pub place: Option<usize>,
    /// 2 where a length or a character of a second code is meant, else 1.
    pub ordinal: u32,
}

impl Refusal {
    /// The number in the table of refusals.
    pub fn number(&self) -> u32 {
        self.reason as u32
    }

    fn of(refusal: raw::HgRefusal) -> Refusal {
        let (reason, _) = REASONS[refusal.number as usize - 1];
        let place = matches!(reason, Reason::Garbled | Reason::Misplaced | Reason::Conflict).then_some(refusal.place as usize);
        Refusal { reason, place, ordinal: refusal.ordinal }
    }
}

impl fmt::Display for Refusal {
    fn fmt(&self, f: &mut fmt::Formatter<'_>) -> fmt::Result {
        write!(f, "refused {}", self.number())?;
        if let Some(place) = self.place {
            write!(f, " at place {place}")?;
        }
        if self.ordinal == 2 {
            write!(f, " of the second code")?;
        }
        write!(f, ": {}", REASONS[self.number() as usize - 1].1)
    }
}

impl std::error::Error for Refusal {}

/// A plane cell: west and south edge, width and height, in units.
#[derive(Clone, Copy, Debug, PartialEq, Eq)]
pub struct PlaneCell {
    /// 1 to 10.
    pub level: u32,
    /// The west edge, from -180 degrees up to below 180; the cell runs eastward from it, past 180 if need be.
    pub west: i32,
    /// The south edge.
    pub south: i32,
    /// How many units wide it is.
    pub width: u32,
    /// How many units high it is.
    pub height: u32,
}

/// A space cell: a plane cell with its lowest layer and how many layers it has.
#[derive(Clone, Copy, Debug, PartialEq, Eq)]
pub struct SpaceCell {
    /// Its plane cell.
    pub plane: PlaneCell,
    /// Its lowest layer.
    pub floor: i32,
    /// How many layers it has.
    pub thickness: u32,
}

/// A position in whole units.
#[derive(Clone, Copy, Debug, PartialEq, Eq)]
pub struct Units {
    /// Units of 1/2048 arc-second east of Greenwich, below 0 west of it.
    pub longitude: i32,
    /// Units of 1/2048 arc-second north of the equator, below 0 south of it.
    pub latitude: i32,
}

/// A plane cell in arc-seconds, exactly.
#[derive(Clone, Copy, Debug, PartialEq)]
pub struct ArcBox {
    /// The west edge.
    pub west: f64,
    /// The south edge.
    pub south: f64,
    /// How wide it is.
    pub width: f64,
    /// How high it is.
    pub height: f64,
}

/// The part of a place book that an entry's body occupies: its name and its code, side by side. Both are bytes of the lent book itself.
#[derive(Clone, Copy, Debug, PartialEq, Eq)]
pub struct Part<'a> {
    /// Where the name starts, counted from the book's first byte.
    pub start: usize,
    /// The name.
    pub name: &'a [u8],
    /// The plane code, straight behind the name.
    pub code: &'a [u8],
}

/// A record of a book, as it stands in C: `live`, the live mark (0 is not live, any other number is); `flight`, the flight's number; `level`,
/// `west`, `south`, `width`, `height`, `floor` and `thickness`, its cell as [`SpaceCell`] has it; `start` and `end`, its minutes, the end
/// not included. [`Reservation::default`] is not live.
///
/// Any numbers make a record. Its cubes are those that they name as whole numbers: longitudes a full turn apart are the same, no sum
/// wraps at 32 bits, and a size of 0 names none. No rule looks at the level.
#[doc(inline)]
pub use raw::HgReservation as Reservation;

fn answer<T>(refusal: raw::HgRefusal, value: T) -> Result<T, Refusal> {
    match refusal.number {
        0 => Ok(value),
        _ => Err(Refusal::of(refusal)),
    }
}

fn written(w: raw::HgWritten) -> Result<usize, Refusal> {
    answer(w.refusal, w.length as usize)
}

fn booked(b: raw::HgBooked) -> Result<usize, Refusal> {
    answer(b.refusal, b.at as usize)
}

/// Writes the plane code of a level for a position into the line from `at` on; the number of bytes. Refusals, in order: 1, 2, 3, 5.
///
/// ```
/// let mut line = *b"<.........>";
/// assert_eq!(hailgully::plane_write(2, -44_236_800, 0, &mut line, 1), Ok(6));
/// assert_eq!(&line, b"<N30AB0...>");
/// // 180 degrees is -180; one unit more is refused.
/// assert_eq!(hailgully::plane_write(2, 1_327_104_000, 0, &mut line, 1), Ok(6));
/// assert_eq!(&line, b"<N01AB0...>");
/// assert_eq!(hailgully::plane_write(2, 1_327_104_001, 0, &mut line, 1).unwrap_err().reason, hailgully::Reason::Longitude);
/// ```
pub fn plane_write(level: i64, longitude: i64, latitude: i64, line: &mut [u8], at: usize) -> Result<usize, Refusal> {
    written(raw::lent::plane_write(level, longitude, latitude, line, at))
}

/// Reads a plane code. Refusals, in order: 6, 7 or 20.
///
/// ```
/// let cell = hailgully::plane_read(b"N31A").unwrap();
/// assert_eq!((cell.level, cell.west, cell.south, cell.width, cell.height), (1, 0, 0, 44_236_800, 29_491_200));
/// let refusal = hailgully::plane_read(b"N61A").unwrap_err();
/// assert_eq!((refusal.number(), refusal.place), (20, Some(2)));
/// ```
pub fn plane_read(code: &[u8]) -> Result<PlaneCell, Refusal> {
    let c = raw::lent::plane_read(code);
    answer(c.refusal, PlaneCell { level: c.level, west: c.west, south: c.south, width: c.width, height: c.height })
}

/// Writes the space code of an edition and a level for a position and a layer; the number of bytes. Refusals, in order: 1, 13, 2, 3, 4, 5.
///
/// ```
/// use hailgully::{space_write, Reason};
/// let mut line = [0; 15];
/// assert_eq!(space_write(1, 4, 0, 0, 1_966_080, &mut line, 0), Ok(15));
/// assert_eq!(&line, b"N031A0000001001");
/// assert_eq!(space_write(2, 4, 0, 0, 1_966_080, &mut line, 0), Ok(15));
/// assert_eq!(&line, b"N031A000000000F");
/// assert_eq!(space_write(1, 4, 0, 0, 2_147_483_647, &mut line, 0).unwrap_err().reason, Reason::Layer);
/// assert_eq!(space_write(2, 1, 0, 0, 2_147_483_647, &mut line, 0), Ok(7));
/// assert_eq!(space_write(3, 4, 0, 0, 0, &mut line, 0).unwrap_err().to_string(), "refused 13: edition neither 1 nor 2");
/// ```
pub fn space_write(
    edition: i64,
    level: i64,
    longitude: i64,
    latitude: i64,
    layer: i64,
    line: &mut [u8],
    at: usize,
) -> Result<usize, Refusal> {
    written(raw::lent::space_write(edition, level, longitude, latitude, layer, line, at))
}

/// Reads a space code of an edition; the floor is the lower face. Refusals, in order: 13, 6, 7 or 20.
///
/// ```
/// use hailgully::{space_read, Reason};
/// let cell = space_read(1, b"N131A63").unwrap();
/// assert_eq!((cell.floor, cell.thickness), (-29_491_200, 29_491_200));
/// let cell = space_read(2, b"N131A63").unwrap();
/// assert_eq!((cell.floor, cell.thickness), (-33_554_432, 33_554_432));
/// // F is a digit in edition 2 alone.
/// assert_eq!(space_read(2, b"N031A000000000F").unwrap().floor, 1_966_080);
/// assert_eq!(space_read(1, b"N031A000000000F").unwrap_err().place, Some(14));
/// assert_eq!(space_read(0, b"N131A63").unwrap_err().reason, Reason::Edition);
/// ```
pub fn space_read(edition: i64, code: &[u8]) -> Result<SpaceCell, Refusal> {
    let c = raw::lent::space_read(edition, code);
    let plane = PlaneCell { level: c.level, west: c.west, south: c.south, width: c.width, height: c.height };
    answer(c.refusal, SpaceCell { plane, floor: c.floor, thickness: c.thickness })
}

/// Writes the reference code that leads from a base to a target; the number of bytes. Refusals, in order: 6, 7 or 20 of the base; 6, 7
/// or 20 of the target; 8, 9, 10, 5.
///
/// ```
/// let mut line = [0; 14];
/// assert_eq!(hailgully::reference_write(b"N50J475492E", b"N50J475493E", &mut line, 0), Ok(14));
/// assert_eq!(&line, b"N50J475492E-10");
/// ```
pub fn reference_write(base: &[u8], target: &[u8], line: &mut [u8], at: usize) -> Result<usize, Refusal> {
    written(raw::lent::reference_write(base, target, line, at))
}

/// Reads a reference code and writes the plane code of its target; the number of bytes. Refusals, in order: 6, 7 or 20, 8, 12, 5.
///
/// ```
/// let mut line = [0; 11];
/// assert_eq!(hailgully::reference_read(b"N31A0000000-0A", &mut line, 0), Ok(11));
/// assert_eq!(&line, b"S31A0000000");
/// ```
pub fn reference_read(code: &[u8], line: &mut [u8], at: usize) -> Result<usize, Refusal> {
    written(raw::lent::reference_read(code, line, at))
}

/// Arc-seconds to whole units: the greatest unit not above each reading. Refusals, in order: 11, 2, 3. Readings of 648,000 and 324,000,
/// 180 and 90 degrees, are the greatest of their ranges; any f64 above is refused, as is any below -648,000 or -324,000.
///
/// ```
/// use hailgully::{arcseconds, plane_write, Reason, Units};
/// assert_eq!(arcseconds(-0.0001, 0.5), Ok(Units { longitude: -1, latitude: 1024 }));
/// // A receiver prints 180 degrees east and 90 degrees north.
/// let at = arcseconds(648_000.0, 324_000.0).unwrap();
/// assert_eq!(at, Units { longitude: 1_327_104_000, latitude: 663_552_000 });
/// let mut line = [0; 4];
/// assert_eq!(plane_write(1, at.longitude.into(), at.latitude.into(), &mut line, 0), Ok(4));
/// assert_eq!(&line, b"N000");
/// assert_eq!(arcseconds(648_000.0, 324_000_f64.next_up()).unwrap_err().reason, Reason::Latitude);
/// ```
pub fn arcseconds(longitude: f64, latitude: f64) -> Result<Units, Refusal> {
    let u = raw::lent::arcseconds(longitude, latitude);
    answer(u.refusal, Units { longitude: u.longitude, latitude: u.latitude })
}

/// The box of a plane code in arc-seconds, exactly. Refusals, in order: 6, 7 or 20.
///
/// ```
/// let b = hailgully::plane_box(b"N31A").unwrap();
/// assert_eq!((b.west, b.south, b.width, b.height), (0.0, 0.0, 21_600.0, 14_400.0));
/// ```
pub fn plane_box(code: &[u8]) -> Result<ArcBox, Refusal> {
    let b = raw::lent::plane_box(code);
    answer(b.refusal, ArcBox { west: b.west, south: b.south, width: b.width, height: b.height })
}

/// Adds a reservation to a book: a flight holds a plane code's cell, with every layer of edition 1, -1,887,436,800 to 1,887,436,799, for
/// the minutes from `start` to `end`, the end not included. The first record that is not live becomes this one; its place. Refusals, in
/// order: 19, 6, 7 or 20, 14, 15, 16, 17.
///
/// ```
/// use hailgully::{book_add_plane, book_add_space, Reason, Reservation};
/// let mut book = [Reservation::default(); 2];
/// assert_eq!(book_add_plane(b"N31A", 7, 600, 660, &mut book), Ok(0));
/// assert_eq!((book[0].live, book[0].flight, book[0].floor, book[0].thickness), (1, 7, -1_887_436_800, 3_774_873_600));
/// // N31A00 lies in N31A: the last minute that flight 7 holds is 659.
/// let refusal = book_add_plane(b"N31A00", 8, 659, 700, &mut book).unwrap_err();
/// assert_eq!((refusal.reason, refusal.place), (Reason::Conflict, Some(0)));
/// // Nor is it free below ground: N131A63 is layers -29,491,200 to -1 of N31A.
/// assert_eq!(book_add_space(b"N131A63", 8, 659, 700, &mut book).unwrap_err().reason, Reason::Conflict);
/// assert_eq!(book[1], Reservation::default());
/// assert_eq!(book_add_plane(b"N31A00", 8, 660, 700, &mut book), Ok(1));
/// assert_eq!(book_add_plane(b"N31A01", 9, 660, 700, &mut book).unwrap_err().to_string(), "refused 17: every record is live");
/// ```
pub fn book_add_plane(code: &[u8], flight: u32, start: u32, end: u32, book: &mut [Reservation]) -> Result<usize, Refusal> {
    booked(raw::lent::book_add_plane(code, flight, start, end, book))
}

/// The same for a ground vehicle: it holds the plane code's cell with the layers from the ground up alone, 0 to 1,887,436,799, and leaves
/// those below the ground free. Refusals, in order: 19, 6, 7 or 20, 14, 15, 16, 17.
///
/// ```
/// use hailgully::{book_add_ground, book_add_space, Reason, Reservation};
/// let mut book = [Reservation::default(); 2];
/// assert_eq!(book_add_ground(b"N31A", 7, 600, 660, &mut book), Ok(0));
/// assert_eq!((book[0].floor, book[0].thickness), (0, 1_887_436_800));
/// // Layers 0 to 29,491,199 of the same sheet; then layers -29,491,200 to -1, below ground.
/// assert_eq!(book_add_space(b"N031A00", 9, 600, 660, &mut book).unwrap_err().reason, Reason::Conflict);
/// assert_eq!(book_add_space(b"N131A63", 9, 600, 660, &mut book), Ok(1));
/// ```
pub fn book_add_ground(code: &[u8], flight: u32, start: u32, end: u32, book: &mut [Reservation]) -> Result<usize, Refusal> {
    booked(raw::lent::book_add_ground(code, flight, start, end, book))
}

/// The same with a space code of edition 1, whose cell has layers of its own. Refusals, in order: 19, 6, 7 or 20, 14, 15, 16, 17.
///
/// ```
/// use hailgully::{book_add_plane, book_add_space, Reason, Reservation};
/// let mut book = [Reservation::default(); 2];
/// assert_eq!(book_add_space(b"N131A63", 7, 600, 660, &mut book), Ok(0));
/// assert_eq!((book[0].floor, book[0].thickness), (-29_491_200, 29_491_200));
/// // The same sheet with every layer; then its layers 0 to 29,491,199.
/// assert_eq!(book_add_plane(b"N31A", 9, 600, 660, &mut book).unwrap_err().reason, Reason::Conflict);
/// assert_eq!(book_add_space(b"N031A00", 9, 600, 660, &mut book), Ok(1));
/// ```
pub fn book_add_space(code: &[u8], flight: u32, start: u32, end: u32, book: &mut [Reservation]) -> Result<usize, Refusal> {
    booked(raw::lent::book_add_space(code, flight, start, end, book))
}

/// Releases a flight: the live mark of the first live record with its number becomes 0, and nothing else changes; that record's place.
/// Refusals, in order: 19, 18.
///
/// ```
/// use hailgully::{book_add_plane, book_release, Reason, Reservation};
/// let mut book = [Reservation::default(); 2];
/// assert_eq!(book_add_plane(b"N31A", 7, 600, 660, &mut book), Ok(0));
/// assert_eq!(book_release(7, &mut book), Ok(0));
/// assert_eq!((book[0].live, book[0].flight), (0, 7));
/// assert_eq!(book_release(7, &mut book).unwrap_err().reason, Reason::NotLive);
/// assert_eq!(book_add_plane(b"N31A", 8, 600, 660, &mut book), Ok(0));
/// ```
pub fn book_release(flight: u32, book: &mut [Reservation]) -> Result<usize, Refusal> {
    booked(raw::lent::book_release(flight, book))
}

/// Looks a name up in a place book. Refusals, in order: 21, 22. Any bytes may be asked for: an empty name, one of more than 64 bytes or one
/// with a hyphen is in no book.
///
/// ```
/// use hailgully::{place_find, Reason};
/// // One entry: its body begins at byte 6, with a name of 4 bytes and a code of 11.
/// let places = b"\x00\x01\x00\x06\x04\x0BmastN50J475492E";
/// assert_eq!(place_find(b"mast", places), Ok(()));
/// assert_eq!(place_find(b"mas", places).unwrap_err().to_string(), "refused 22: no entry of the place book has the name");
/// // Without its last byte it is no place book, whatever the name.
/// assert_eq!(place_find(b"mast", &places[..20]).unwrap_err().to_string(), "refused 21: the place book is badly formed");
/// assert_eq!(place_find(b"mas", &places[..20]).unwrap_err().reason, Reason::BadlyFormed);
/// ```
pub fn place_find(name: &[u8], places: &[u8]) -> Result<(), Refusal> {
    answer(raw::lent::place_find(name, places), ())
}

/// The part of a place book that a name's entry occupies. Refusals, in order: 21, 22.
///
/// ```
/// use hailgully::{place_part, Reason};
/// let places = b"\x00\x01\x00\x06\x04\x0BmastN50J475492E";
/// let part = place_part(b"mast", places).unwrap();
/// assert_eq!((part.start, part.name, part.code), (6, &b"mast"[..], &b"N50J475492E"[..]));
/// // Nothing is copied: these are the book's own bytes.
/// assert!(std::ptr::eq(part.name, &places[6..10]) && std::ptr::eq(part.code, &places[10..]));
/// assert_eq!(hailgully::plane_read(part.code).unwrap().level, 5);
/// assert_eq!(place_part(b"mill", places).unwrap_err().reason, Reason::NotInBook);
/// assert_eq!(place_part(b"mast", &places[..20]).unwrap_err().reason, Reason::BadlyFormed);
/// ```
pub fn place_part<'a>(name: &[u8], places: &'a [u8]) -> Result<Part<'a>, Refusal> {
    let p = raw::lent::place_part(name, places);
    // A part lies in its book; a refusal has three zeros, which name no byte.
    let start = p.start as usize;
    let (name, rest) = places[start..].split_at(p.name_length as usize);
    answer(p.refusal, Part { start, name, code: &rest[..p.code_length as usize] })
}

/// Reads a short code, which is a place name, a hyphen, M and N, and writes the plane code of its target: what [`reference_read`] writes
/// for that place's code in the name's stead; the number of bytes. Refusals, in order: 21; 6 where the short code has under four bytes; 7
/// or 20 of its last three bytes, with the place in the short code; 22, 8, 12, 5.
///
/// ```
/// use hailgully::{short_read, Reason};
/// let places = b"\x00\x01\x00\x06\x04\x0BmastN50J475492E";
/// let mut line = *b"<...........>";
/// let refusal = short_read(b"mast+10", places, &mut line, 1).unwrap_err();
/// assert_eq!((refusal.reason, refusal.number(), refusal.place), (Reason::Garbled, 7, Some(4)));
/// let refusal = short_read(b"mast-1H", places, &mut line, 1).unwrap_err();
/// assert_eq!((refusal.reason, refusal.number(), refusal.place), (Reason::Misplaced, 20, Some(6)));
/// let refusal = short_read(b"mill-10", places, &mut line, 1).unwrap_err();
/// assert_eq!((refusal.reason, refusal.number(), refusal.place), (Reason::NotInBook, 22, None));
/// assert_eq!(short_read(b"mast+10", &places[..20], &mut line, 1).unwrap_err().reason, Reason::BadlyFormed);
/// assert_eq!(&line, b"<...........>");
/// assert_eq!(short_read(b"mast-10", places, &mut line, 1), Ok(11));
/// assert_eq!(&line, b"<N50J475493E>");
/// ```
pub fn short_read(code: &[u8], places: &[u8], line: &mut [u8], at: usize) -> Result<usize, Refusal> {
    written(raw::lent::short_read(code, places, line, at))
}
