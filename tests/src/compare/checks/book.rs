//! One case of each call of the book: the oracle is asked with its own records, the library with the same ones lent, and all of them are compared.

use super::{show, Run};
use crate::calls::Call;
use crate::lent::book::{HugeBook, LentBook, OPEN};
use crate::library::{self, record};
use hailgully_raw::{HgBooked, HgReservation};
use hailgully_tests::book::{plain, release, Answer, Kind, Request, Reservation};
use hailgully_tests::refusals::{refusal, Refusal};
use hailgully_tests::space::{self, SpaceCell};

/// The oracle's book, and the one that the library is lent.
pub struct Books {
    pub own: Vec<Reservation>,
    lent: LentBook,
}

impl Run {
    pub fn books(&mut self, records: &[Reservation]) -> Books {
        Books { own: records.to_vec(), lent: LentBook::new(&mut self.random, records.iter().map(record)) }
    }

    /// One call on a book that is lent for it alone.
    pub fn book_add_once(&mut self, request: &Request, records: &[Reservation]) {
        if !self.over() {
            let mut books = self.books(records);
            self.book_add(request, &mut books);
        }
    }

    pub fn book_release_once(&mut self, flight: u32, records: &[Reservation]) {
        if !self.over() {
            let mut books = self.books(records);
            self.book_release(flight, &mut books);
        }
    }

    /// Hands back the place of the record that was added.
    pub fn book_add(&mut self, request: &Request, books: &mut Books) -> Option<usize> {
        if self.over() {
            return None;
        }
        let (call, _) = library::adder(request.kind);
        let (mut held, count) = (self.hold(request.code), books.own.len());
        let told = || asked(request, count);
        let own = request.add(&mut books.own);
        let got = library::book_add(request, held.lent.bytes(), books.lent.records());
        self.kept(&held, told);
        let at = own.0.ok();
        if let Some(at) = at {
            self.added(call, request, &books.own[at].cell);
        }
        self.booked(call, own, got, books, told);
        at
    }

    pub fn book_release(&mut self, flight: u32, books: &mut Books) {
        if self.over() {
            return;
        }
        let (call, count) = (Call::BookRelease, books.own.len());
        let own = release(flight, &mut books.own);
        let got = library::book_release(flight, books.lent.records());
        self.booked(call, own, got, books, || format!("{call} flight {flight} book of {count}"));
    }

    /// Counts where an added code lies.
    fn added(&mut self, call: Call, request: &Request, cell: &SpaceCell) {
        match request.kind {
            Kind::Plane | Kind::Ground => self.accepted(call, request.code),
            Kind::Space => {
                let (flat, length) = space::plane_part(request.code);
                self.accepted_space(call, &flat[..length], cell.floor < 0);
            }
        }
    }

    /// Holds the answers and both books against each other.
    fn booked(&mut self, call: Call, (own, applying): Answer, got: HgBooked, books: &Books, told: impl Fn() -> String) {
        self.answer(own, got, &told);
        if let Some(place) = books.lent.difference(books.own.iter().map(record)) {
            self.tally.difference(|| format!("{}\n  the record at {place} is not as it should be", told()));
        }
        self.count(call, applying.iter().map(Refusal::named).collect(), own.err());
    }

    /// "No sequence of calls .. leaves two live conflicting records": of a book in which no others did before this one was added.
    pub fn no_conflict_with(&mut self, books: &Books, at: usize) {
        let added = &books.own[at];
        let live = books.own.iter().enumerate().filter(|&(place, record)| place != at && record.live != 0);
        if let Some((place, other)) = live.into_iter().find(|(_, record)| plain::conflicts(added, record)) {
            self.tally.difference(|| format!("live records that conflict: at {place} {other:?}, at {at} {added:?}"));
        }
    }

    /// The same of all pairs.
    pub fn no_conflict(&mut self, books: &Books) {
        if let Some((one, other)) = plain::first_conflict(&books.own) {
            self.tally.difference(|| format!("live records that conflict: {:?} and {:?}", books.own[one], books.own[other]));
        }
    }

    /// A book of 2^31 records and more, which would be one with nothing live if its length were cut. All is refused 19.
    pub fn huge_book(&mut self, code: &[u8], length: usize) {
        if self.over() {
            return;
        }
        let mut book = HugeBook::new(length);
        for kind in Kind::ALL {
            let request = Request::new(kind, code, 1, (0, 1));
            let mut held = self.hold(code);
            let got = library::book_add(&request, held.lent.bytes(), book.records());
            self.answer(Err::<usize, _>(refusal(19)), got, || asked(&request, length));
        }
        let got = library::book_release(0, book.records());
        self.answer(Err::<usize, _>(refusal(19)), got, || format!("{} flight 0 book of {length}", Call::BookRelease));
        if book.records()[..OPEN].iter().any(|record| *record != HgReservation::default()) {
            self.tally.difference(|| format!("a book of {length} was changed"));
        }
    }
}

fn asked(request: &Request, count: usize) -> String {
    let Request { kind, code, flight, start, end } = request;
    let (call, _) = library::adder(*kind);
    format!("{call} {} flight {flight} minutes {start} to {end} book of {count}", show(code))
}
