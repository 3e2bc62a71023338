//! The oracle: document 01, and of document 02 Wishes 1, 2, 3, 5, 6 and 7, written
//! a second time, from the documents alone. Wish 4 changes no answer.
//!
//! Plane codes stand here twice. `plane::listing` lists every cell that a cell
//! is divided into, just as the document describes them, and looks for the one
//! that is meant. `plane::write` and `plane::walk` are quick; each run of
//! `compare` holds them against the listing before they are trusted. So it is
//! with conflicts and place books: `book` is quick, `book::plain` is plain, and
//! `places` goes by the book's offsets, `places::plain` by its lengths.

pub mod arcseconds;
pub mod book;
pub mod cases;
pub mod layers;
pub mod lines;
pub mod places;
pub mod plane;
pub mod reference;
pub mod refusals;
pub mod slips;
pub mod space;

#[cfg(test)]
mod positions;
