//! One case of each call: the oracle and the library are asked the same, and every number and every lent byte is compared, of what is only read too.

mod arcseconds;
mod book;
mod places;
mod plane;
mod reference;
mod space;

pub use book::Books;

use crate::calls::{applying, Applying, Row};
use crate::lent::Lent;
use crate::library::Record;
use crate::regions;
use crate::tally::Tally;
use hailgully_raw::HgWritten;
use hailgully_tests::cases::Random;
use hailgully_tests::refusals::Refusal;
use hailgully_tests::slips;
use std::fmt::Debug;
use std::sync::atomic::{AtomicBool, Ordering};
use std::sync::Arc;

pub struct Run {
    pub random: Random,
    pub tally: Tally,
    /// Where only a first difference is asked for: whether a thread has found it.
    found: Option<Arc<AtomicBool>>,
    /// The place book that was last asked, and whether it is well formed.
    last_places: (Vec<u8>, bool),
}

/// A code as text, with anything odd escaped.
pub fn show(code: &[u8]) -> String {
    let start = &code[..code.len().min(100)];
    format!("\"{}\" ({} bytes)", start.escape_ascii(), code.len())
}

/// Which of 7 and 20 the refusal of a bad character is.
fn bad_character(bad: Option<Refusal>) -> Applying {
    let number = bad.map(|bad| bad.number);
    applying(&[(7, number == Some(7)), (20, number == Some(20))])
}

/// A code, a name or a place book that is lent to be read, and its twin.
struct Held {
    lent: Lent,
    twin: Lent,
}

impl Run {
    pub fn new(seed: u64, found: Option<Arc<AtomicBool>>) -> Run {
        Run { random: Random::new(seed), tally: Tally::default(), found, last_places: (Vec::new(), false) }
    }

    /// Whether only a first difference is asked for, and is found: then no case is asked any more.
    pub fn over(&self) -> bool {
        self.found.as_ref().is_some_and(|found| self.tally.differences > 0 || found.load(Ordering::Relaxed))
    }

    /// Counts a case. The refusal given must be the first of the order that applies, found here without the oracle's own order.
    fn count(&mut self, row: impl Into<Row>, applying: Applying, own: Option<Refusal>) {
        let row = row.into();
        let apply = row.call.places(applying);
        self.tally.row(row).count(apply);
        let named = own.map(|refusal| refusal.named());
        let first = match apply {
            0 => None,
            _ => Some(row.call.refusal(apply.trailing_zeros() as usize)),
        };
        if named != first && slips::current() == 0 {
            self.tally.difference(|| format!("the oracle itself: {row} gives {named:?}, {first:?} comes first"));
        }
    }

    /// Counts where an accepted plane code, or the plane part of a space code, lies.
    fn accepted(&mut self, row: impl Into<Row>, code: &[u8]) {
        if slips::current() == 0 {
            self.tally.row(row.into()).accepted(regions::slot(code));
        }
    }

    fn hold(&mut self, code: &[u8]) -> Held {
        let lent = Lent::code(&mut self.random, code);
        Held { twin: lent.twin(), lent }
    }

    /// What was only to be read is as it was, and so are the bytes around it.
    fn kept(&mut self, held: &Held, told: impl FnOnce() -> String) {
        if let Some(place) = held.lent.difference(&held.twin) {
            self.tally.difference(|| format!("{}\n  the library changed the byte at {place} of what it was lent to read", told()));
        }
    }

    /// Holds the library's answer against the oracle's: once in each case.
    fn answer<T, A>(&mut self, own: Result<T, Refusal>, got: A, told: impl FnOnce() -> String)
    where
        A: Record<T> + PartialEq + Debug,
    {
        self.tally.cases += 1;
        let expected = A::of(own);
        if expected != got {
            self.tally.difference(|| format!("{}\n  oracle  {expected:?}\n  library {got:?}", told()));
        }
    }

    /// Asks a reader of both.
    fn reader<T, A>(&mut self, code: &[u8], own: Result<T, Refusal>, library: impl FnOnce(&mut [u8]) -> A, told: impl Fn() -> String) -> A
    where
        A: Record<T> + PartialEq + Debug + Copy,
    {
        let mut held = self.hold(code);
        let got = library(held.lent.bytes());
        self.kept(&held, &told);
        self.answer(own, got, told);
        got
    }

    /// Asks a writer of both, on two copies of the same lent memory.
    fn writer(
        &mut self,
        length: usize,
        own: impl FnOnce(&mut [u8]) -> Result<usize, Refusal>,
        library: impl FnOnce(&mut [u8]) -> HgWritten,
        told: impl Fn() -> String,
    ) -> Result<usize, Refusal> {
        let mut mine = Lent::line(&mut self.random, length);
        let mut theirs = mine.twin();
        let answer = own(mine.bytes());
        let got = library(theirs.bytes());
        self.answer(answer, got, &told);
        if let Some(place) = mine.difference(&theirs) {
            self.tally.difference(|| {
                let (one, other) = (show(mine.bytes()), show(theirs.bytes()));
                format!("{}\n  oracle line  {one}\n  library line {other}\n  the first other byte is at {place}", told())
            });
        }
        answer
    }
}
