//! The place book as a careful Rust programmer would write it by hand, over the plain reader of ordinary cells.

use super::plane::read;
use super::{reference, refuse, Refusal};

/// Where an entry's body begins, and the lengths of its name and its code.
#[derive(Clone, Copy, PartialEq, Debug)]
pub struct Part {
    pub start: usize,
    pub name: usize,
    pub code: usize,
}

/// The entry of a name; the whole book is checked on the way.
#[inline(never)]
pub fn find(name: &[u8], places: &[u8]) -> Result<Part, Refusal> {
    if !(2..=65_535).contains(&places.len()) {
        return refuse(21);
    }
    let count = u16::from_be_bytes([places[0], places[1]]) as usize;
    let mut at = 2 + 4 * count;
    if count > 1_000 || places.len() < at {
        return refuse(21);
    }
    let (mut last, mut found): (&[u8], _) = (&[], None);
    for entry in places[2..at].chunks_exact(4) {
        let (n, m) = (entry[2] as usize, entry[3] as usize);
        if u16::from_be_bytes([entry[0], entry[1]]) as usize != at || n > 64 || at + n + m > places.len() {
            return refuse(21);
        }
        let (own, code) = places[at..at + n + m].split_at(n);
        if own <= last || own.contains(&b'-') || read(code).is_err() {
            return refuse(21);
        }
        if own == name {
            found = Some(Part { start: at, name: n, code: m });
        }
        (last, at) = (own, at + n + m);
    }
    if at != places.len() {
        return refuse(21);
    }
    found.ok_or(Refusal::new(22, 0))
}

/// What a short code leads to.
#[inline(never)]
pub fn follow(code: &[u8], places: &[u8], line: &mut [u8], at: usize) -> Result<usize, Refusal> {
    let k = code.len().saturating_sub(3);
    let found = find(&code[..k], places);
    if found.is_err_and(|r| r.number == 21) {
        return refuse(21);
    }
    if code.len() < 4 {
        return refuse(6);
    }
    reference::offset_of(code, k)?;
    let p = found?;
    let mut text = [0; 23];
    text[..p.code].copy_from_slice(&places[p.start + p.name..p.start + p.name + p.code]);
    text[p.code..p.code + 3].copy_from_slice(&code[k..]);
    reference::follow(&text[..p.code + 3], line, at)
}
