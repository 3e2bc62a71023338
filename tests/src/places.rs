//! Place names, read from a book (Wish 6 of document 02). Each contents entry
//! is followed to its body by its offset, and the names and codes found there
//! become a list of their own; what the wish asks of a book is then asked of the
//! whole list. `plain` has the same by other means.

pub mod plain;

#[cfg(test)]
mod worked;

use crate::refusals::{bad_character, first, refusal, Named, Refusal};
use crate::{plane, reference, slips};
use std::iter::once;

/// "A big-endian u16 count, at most 1,000."
pub const MOST: usize = 1_000;
/// "It is at most 65,535 bytes."
pub const BYTES: usize = 65_535;
/// "Name length 1 to 64."
pub const NAME_MOST: usize = 64;

/// "Name and code as the part of the lent book they occupy": where the name
/// starts, and both lengths; the code stands straight behind the name.
#[derive(Clone, Copy, Debug, PartialEq, Eq)]
pub struct Part {
    pub start: usize,
    pub name_length: usize,
    pub code_length: usize,
}

/// An entry of the list: its name and code, and where they stood.
#[derive(Clone, Debug, PartialEq, Eq)]
pub struct Entry {
    pub start: usize,
    pub name: Vec<u8>,
    pub code: Vec<u8>,
}

impl Entry {
    fn end(&self) -> usize {
        self.start + self.name.len() + self.code.len()
    }

    fn part(&self) -> Part {
        Part { start: self.start, name_length: self.name.len(), code_length: self.code.len() }
    }

    /// "Names .. hold no hyphen", and have 1 to 64 bytes.
    fn is_named(&self) -> bool {
        let (least, most) = match slips::current() {
            slips::EMPTY_NAMES => (0, NAME_MOST),
            slips::NAMES_OF_65 => (1, NAME_MOST + 1),
            slips::NAMES_OF_64_REFUSED => (1, NAME_MOST - 1),
            _ => (1, NAME_MOST),
        };
        let hyphen = self.name.contains(&b'-') && !slips::on(slips::HYPHENS_IN_NAMES);
        (least..=most).contains(&self.name.len()) && !hyphen
    }

    /// "A plane code that the plane reader accepts."
    fn is_coded(&self) -> bool {
        match slips::current() {
            slips::CODES_UNREAD => plane::level_of(self.code.len()).is_some(),
            slips::UNFIT_CODES_REFUSED => plane::read(&self.code).is_ok_and(|cell| !reference::unfit(&cell)),
            _ => plane::read(&self.code).is_ok(),
        }
    }

    /// "Names rise strictly, as bytes in dictionary order."
    fn rises_to(&self, next: &Entry) -> bool {
        let (name, next) = (&self.name, &next.name);
        match slips::current() {
            slips::NAMES_BY_LENGTH => (name.len(), name) < (next.len(), next),
            slips::NAMES_SIGNED => name.iter().map(|&byte| byte as i8).lt(next.iter().map(|&byte| byte as i8)),
            slips::FOURS_TURNED => {
                let turned = |name: &[u8]| name.chunks(4).flat_map(|four| four.iter().rev().copied()).collect::<Vec<u8>>();
                turned(name) < turned(next)
            }
            slips::NAMES_WITHOUT_CASE => name.to_ascii_lowercase() < next.to_ascii_lowercase(),
            slips::COMMON_BYTES_ALONE => name < next && !next.starts_with(name),
            slips::EQUAL_NAMES => name <= next,
            _ => name < next,
        }
    }
}

/// "A big-endian u16."
fn number(bytes: [u8; 2]) -> usize {
    match slips::current() {
        slips::LITTLE_ENDIAN => u16::from_le_bytes(bytes).into(),
        _ => u16::from_be_bytes(bytes).into(),
    }
}

/// The list of what the contents lead to, if all of it is in the book: "each
/// contents entry is four bytes: a big-endian u16 body offset from the start,
/// name length .., code length".
fn listed(book: &[u8]) -> Option<Vec<Entry>> {
    let (count, rest) = book.split_first_chunk()?;
    let contents = 4 * number(*count);
    let from = if slips::on(slips::OFFSETS_FROM_BODIES) { 2 + contents } else { 0 };
    let entry = |entry: &[u8]| {
        let start = from + number([entry[0], entry[1]]);
        let (name, rest) = book.get(start..)?.split_at_checked(entry[2].into())?;
        Some(Entry { start, name: name.to_vec(), code: rest.get(..entry[3].into())?.to_vec() })
    };
    rest.get(..contents)?.chunks_exact(4).map(entry).collect()
}

/// What is asked of the entries of a book whose contents end at this place:
/// "Bodies follow the contents without gaps in the same order", with good names,
/// which rise, and good codes.
fn well_formed(list: &[Entry], contents: usize) -> bool {
    let ends = once(contents).chain(list.iter().map(Entry::end));
    let follows = |(end, entry): (usize, &Entry)| match slips::current() {
        slips::GAPS => end <= entry.start,
        slips::OVERLAPS => end >= entry.start,
        _ => end == entry.start,
    };
    ends.zip(list).all(follows)
        && list.iter().all(|entry| entry.is_named() && entry.is_coded())
        && list.windows(2).all(|pair| pair[0].rises_to(&pair[1]))
}

/// The entries of a book; none if it is badly formed.
pub fn entries(book: &[u8]) -> Option<Vec<Entry>> {
    let (most, bytes) = match slips::current() {
        slips::ENTRY_MORE => (MOST + 1, BYTES),
        slips::ENTRY_LESS => (MOST - 1, BYTES),
        slips::BYTE_MORE => (MOST, BYTES + 1),
        slips::BYTE_LESS => (MOST, BYTES - 1),
        slips::NO_ENTRIES_REFUSED if book == [0, 0] => return None,
        slips::NO_BYTES_ACCEPTED if book.is_empty() => return Some(Vec::new()),
        _ => (MOST, BYTES),
    };
    let list = listed(book)?;
    let contents = 2 + 4 * list.len();
    // "The book ends with the last one."
    let end = list.last().map_or(contents, Entry::end);
    let whole = end == book.len() || slips::on(slips::BYTES_BEHIND);
    (list.len() <= most && book.len() <= bytes && whole && well_formed(&list, contents)).then_some(list)
}

/// The entry of a name. "Refusals: 21, badly formed book, first; .. 22, name not
/// in the book."
fn entry(name: &[u8], book: &[u8]) -> Result<Entry, Refusal> {
    let odd = || name.is_empty() || name.len() > NAME_MOST || name.contains(&b'-');
    if slips::on(slips::ODD_NAMES_FIRST) && odd() {
        return Err(refusal(22));
    }
    match entries(book) {
        Some(list) => list.into_iter().find(|entry| entry.name == name).ok_or(refusal(22)),
        None => up_to(name, book).ok_or(refusal(21)),
    }
}

/// The slip's entry: of a book whose beginning, up to the name, is well formed.
fn up_to(name: &[u8], book: &[u8]) -> Option<Entry> {
    let list = listed(book).filter(|_| slips::on(slips::CHECKED_TO_THE_NAME))?;
    let at = list.iter().position(|entry| entry.name == name)?;
    well_formed(&list[..=at], 2 + 4 * list.len()).then(|| list[at].clone())
}

/// "Looking up a name answers found or refused."
pub fn find(name: &[u8], book: &[u8]) -> Result<(), Refusal> {
    entry(name, book).map(drop)
}

/// "A second call hands back name and code as the part of the lent book they
/// occupy."
pub fn part(name: &[u8], book: &[u8]) -> Result<Part, Refusal> {
    entry(name, book).map(|entry| entry.part())
}

/// What a short code's own bytes are refused for: "6 where it has under four
/// bytes, 7 and 20 over the last three with places counted in the short code".
fn refused(code: &[u8]) -> Option<Refusal> {
    let least = if slips::on(slips::THREE_BYTES_READ) { 3 } else { 4 };
    if code.len() < least {
        return Some(refusal(6));
    }
    let (name, offset) = code.split_at(code.len() - 3);
    let bad = reference::signs(code).err();
    match slips::current() {
        slips::PLACE_IN_OFFSET => reference::signs(offset).err(),
        slips::NAME_HYPHEN_GARBLED => name.iter().position(|&byte| byte == b'-').map(|place| bad_character(place, b'-')).or(bad),
        _ => bad,
    }
}

/// "Reading a short code, whose last three bytes are the hyphen, M and N, gives
/// what the reference reader gives for that place's code": 8, 12, 5 too.
pub fn short_read(code: &[u8], book: &[u8], line: &mut [u8], at: usize) -> Result<usize, Refusal> {
    let (name, offset) = code.split_at(code.len().saturating_sub(3));
    let entry = entry(name, book);
    let applying: Vec<Refusal> = entry.as_ref().err().copied().into_iter().chain(refused(code)).collect();
    let order: &[Named] = match slips::current() {
        slips::LENGTH_BEFORE_PLACES => &[(6, 1), (21, 1), (7, 1), (20, 1), (22, 1)],
        slips::GARBLED_BEFORE_PLACES => &[(7, 1), (20, 1), (21, 1), (6, 1), (22, 1)],
        slips::ABSENT_BEFORE_GARBLED => &[(21, 1), (6, 1), (20, 1), (22, 1), (7, 1)],
        slips::ABSENT_BEFORE_MISPLACED => &[(21, 1), (6, 1), (7, 1), (22, 1), (20, 1)],
        _ => &[(21, 1), (6, 1), (7, 1), (20, 1), (22, 1)],
    };
    match (first(&applying, order), entry) {
        (None, Ok(entry)) => reference::read(&[&entry.code, offset].concat(), line, at),
        (given, _) => Err(given.expect("a name without an entry gets 21 or 22")),
    }
}
