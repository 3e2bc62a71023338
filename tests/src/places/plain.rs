//! The place book a second time, plainly. Names and codes are cut off one after
//! the other by their lengths alone, whatever the offsets say; the bytes of a
//! book of these are made again, and must be the same. No slip here.

use super::{BYTES, MOST, NAME_MOST};
use crate::plane;
use std::collections::BTreeMap;

/// A name and its code.
pub type Entry = (Vec<u8>, Vec<u8>);

/// The bytes of a book of these entries, good or not; offsets past 65,535 are
/// cut to 16 bits, and lengths past 255 to 8.
pub fn made(list: &[Entry]) -> Vec<u8> {
    let mut book = (list.len() as u16).to_be_bytes().to_vec();
    let mut start = 2 + 4 * list.len();
    for (name, code) in list {
        book.extend((start as u16).to_be_bytes());
        book.extend([name.len() as u8, code.len() as u8]);
        start += name.len() + code.len();
    }
    list.iter().for_each(|(name, code)| book.extend(name.iter().chain(code)));
    book
}

/// The names and codes, cut off by their lengths, if the book has so many bytes.
fn cut_off(book: &[u8]) -> Option<Vec<Entry>> {
    let count: usize = u16::from_be_bytes(*book.first_chunk()?).into();
    let (contents, mut bodies) = book[2..].split_at_checked(4 * count)?;
    let mut next = |length: u8| {
        let (taken, rest) = bodies.split_at_checked(length.into())?;
        bodies = rest;
        Some(taken.to_vec())
    };
    contents.chunks_exact(4).map(|entry| Some((next(entry[2])?, next(entry[3])?))).collect()
}

fn is_good((name, code): &Entry) -> bool {
    !name.is_empty() && name.len() <= NAME_MOST && name.iter().all(|&byte| byte != b'-') && plane::read(code).is_ok()
}

/// The entries of a book, if it is well formed: a map from name to code has the
/// same entries in the same order only if the names rise strictly.
pub fn entries(book: &[u8]) -> Option<Vec<Entry>> {
    let list = cut_off(book)?;
    let each = || list.iter().map(|(name, code)| (name, code));
    let risen = each().collect::<BTreeMap<_, _>>().into_iter().eq(each());
    let good = list.len() <= MOST && book.len() <= BYTES && risen && list.iter().all(is_good);
    (good && made(&list) == book).then_some(list)
}

/// Whether a book's offsets lead to the same entries.
pub fn agrees(book: &[u8]) -> bool {
    let by_offsets = super::entries(book).map(|list| list.into_iter().map(|entry| (entry.name, entry.code)).collect());
    by_offsets == entries(book)
}

/// The code that a name has, also in a book that is badly formed: of the first
/// entry that says where this name is. So it can be said which refusals 21 hides.
pub fn loosely<'a>(name: &[u8], book: &'a [u8]) -> Option<&'a [u8]> {
    let count = u16::from_be_bytes(*book.first_chunk()?);
    let body = |entry: &[u8]| {
        let start = u16::from_be_bytes([entry[0], entry[1]]).into();
        let (found, rest) = book.get(start..)?.split_at_checked(entry[2].into())?;
        Some((found, rest.get(..entry[3].into())?))
    };
    let bodies = book[2..].chunks_exact(4).take(count.into()).filter_map(body);
    bodies.into_iter().find_map(|(found, code)| (found == name).then_some(code))
}
