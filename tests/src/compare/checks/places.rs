//! One case of each call that reads a place book. Which refusals apply is found by the plain way, as far as the book can be read at all: so each case
//! also holds the oracle's two ways against each other.

use super::reference::led;
use super::{bad_character, show, Run};
use crate::calls::{applying, Call};
use crate::library::{self, Record};
use hailgully_tests::places::{self, plain};
use hailgully_tests::reference;
use hailgully_tests::refusals::Refusal;
use std::fmt::Debug;

impl Run {
    /// Both calls that look a name up.
    pub fn place(&mut self, name: &[u8], book: &[u8]) {
        self.place_find(name, book);
        self.place_part(name, book);
    }

    pub fn place_find(&mut self, name: &[u8], book: &[u8]) {
        self.looked_up(Call::PlaceFind, name, book, places::find, library::place_find);
    }

    pub fn place_part(&mut self, name: &[u8], book: &[u8]) {
        self.looked_up(Call::PlacePart, name, book, places::part, library::place_part);
    }

    fn looked_up<T, A>(
        &mut self,
        call: Call,
        name: &[u8],
        book: &[u8],
        own: fn(&[u8], &[u8]) -> Result<T, Refusal>,
        library: fn(&mut [u8], &mut [u8]) -> A,
    ) where
        T: Copy,
        A: Record<T> + PartialEq + Debug,
    {
        if self.over() {
            return;
        }
        let told = || format!("{call} {} in {}", show(name), show(book));
        let (own, mut asked, mut lent) = (own(name, book), self.hold(name), self.hold(book));
        let got = library(asked.lent.bytes(), lent.lent.bytes());
        self.kept(&asked, told);
        self.kept(&lent, told);
        self.answer(own, got, told);
        let (bad, code) = (self.badly_formed(book), plain::loosely(name, book));
        self.count(call, applying(&[(21, bad), (22, code.is_none())]), own.err());
        if let (Ok(_), Some(code)) = (own, code) {
            self.accepted(call, code);
        }
    }

    /// By the plain way, and once where a book is asked again and again.
    fn badly_formed(&mut self, book: &[u8]) -> bool {
        if book.len() > places::BYTES {
            return plain::entries(book).is_none();
        }
        if self.last_places.0 != book {
            self.last_places = (book.to_vec(), plain::entries(book).is_some());
        }
        !self.last_places.1
    }

    pub fn short_read(&mut self, code: &[u8], book: &[u8], length: usize, at: usize) {
        if self.over() {
            return;
        }
        let call = Call::ShortRead;
        let told = || format!("{call} {} in {} line of {length} at {at}", show(code), show(book));
        let (mut asked, mut lent) = (self.hold(code), self.hold(book));
        let own = self.writer(
            length,
            |line| places::short_read(code, book, line, at),
            |line| library::short_read(asked.lent.bytes(), lent.lent.bytes(), line, at),
            told,
        );
        self.kept(&asked, told);
        self.kept(&lent, told);
        let (name, offset) = code.split_at(code.len().saturating_sub(3));
        let base = plain::loosely(name, book);
        let bad = if offset.len() == 3 { reference::signs(code).err() } else { None };
        let later = base.map_or(applying(&[(22, true)]), |base| led(&[base, offset].concat(), length.saturating_sub(at)));
        let first = applying(&[(21, self.badly_formed(book)), (6, code.len() < 4)]);
        self.count(call, first | bad_character(bad) | later, own.err());
        if let (Ok(_), Some(base)) = (own, base) {
            self.accepted(call, base);
        }
    }
}
