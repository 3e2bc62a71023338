//! Faults of a library, made between it and the checks: a length, a place or an edition reaches it cut to 8, 16 or 32 bits, a lent byte comes back
//! changed, a longitude or latitude is clipped to its range or refused at its upper end, the book is kept otherwise, garbled and misplaced are told
//! apart otherwise, or names are looked up otherwise. Turned on by number like the oracle's slips, after which they are numbered; each must be found.
//! Those of a call's parameters are made of the table of calls.

/// Names each of these faults by its words, and lists them.
macro_rules! listed {
    ($($name:ident: $words:literal,)*) => {
        $(const $name: &str = $words;)*
        pub const LIST: &[&str] = &[$($name),*];
    };
}

pub mod book;
pub mod characters;
pub mod places;
mod reaching;

pub use reaching::{came_back, Reaching};

use crate::calls::{Call, Parameter, What};
use hailgully_tests::slips;
use std::sync::LazyLock;

#[derive(Clone, Copy)]
enum Fault {
    /// An edition, a place, or the length of what is lent.
    Cut(Parameter, u32),
    Changed(Parameter),
    Clipped(Parameter),
    EndRefused(Parameter),
    Book(&'static str),
    /// What it does, and with which code, if not with all.
    Character(&'static str, Option<Parameter>),
    Places(&'static str),
}

const CUTS: [u32; 3] = [8, 16, 32];

static FAULTS: LazyLock<Vec<Fault>> = LazyLock::new(all);

/// All parameters of this kind.
fn of(kind: fn(What) -> bool) -> impl Iterator<Item = Parameter> {
    let each = Call::ALL.iter().flat_map(|call| call.parameters()).copied();
    each.filter(move |parameter| kind(parameter.what))
}

fn all() -> Vec<Fault> {
    let mut list = Vec::new();
    list.extend(of(What::has_size).flat_map(|size| CUTS.map(|bits| Fault::Cut(size, bits))));
    list.extend(of(What::is_lent).map(Fault::Changed));
    list.extend(of(What::is_position).map(Fault::Clipped));
    list.extend(of(What::is_position).map(Fault::EndRefused));
    list.extend(book::LIST.iter().map(|does| Fault::Book(does)));
    list.extend(of(What::is_code).flat_map(|code| characters::OF_ONE.iter().map(move |does| Fault::Character(does, Some(code)))));
    list.extend(characters::LIST.iter().map(|does| Fault::Character(does, None)));
    list.extend(places::LIST.iter().map(|does| Fault::Places(does)));
    list
}

/// How many slips and faults there are.
pub fn count() -> u32 {
    (slips::LIST.len() + FAULTS.len()) as u32
}

/// The fault of this number, if it is none of the oracle's slips.
#[inline(always)]
fn fault(number: u32) -> Option<Fault> {
    let at = (number as usize).checked_sub(slips::LIST.len() + 1)?;
    Some(FAULTS[at])
}

/// The fixed families show it sooner than random cases do.
pub fn fixed_first(number: u32) -> bool {
    matches!(fault(number), Some(Fault::Cut(..) | Fault::Changed(_)))
}

/// Only memory of 2^31 bytes and more shows it.
pub fn huge(number: u32) -> bool {
    matches!(fault(number), Some(Fault::Cut(size, 32)) if size.what != What::Edition)
}

/// A slip or a fault in words.
pub fn words(number: u32) -> String {
    match fault(number) {
        None => slips::LIST[number as usize - 1].to_string(),
        Some(Fault::Cut(lent, bits)) if lent.what.is_lent() => format!("the library cuts the length of {lent} to {bits} bits"),
        Some(Fault::Cut(size, bits)) => format!("the library cuts {size} to {bits} bits"),
        Some(Fault::Changed(lent)) => format!("the library changes a byte of {lent}"),
        Some(Fault::Clipped(position)) => format!("the library clips {position} to its range"),
        Some(Fault::EndRefused(position)) => format!("the library refuses {position} at its upper end"),
        Some(Fault::Book(does) | Fault::Character(does, None) | Fault::Places(does)) => format!("the library {does}"),
        Some(Fault::Character(does, Some(code))) => format!("the library {does} {code}"),
    }
}
