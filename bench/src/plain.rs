//! What a careful Rust programmer would write by hand: straight-line functions with constant divisors, refusals included.
//! They do the same work as the library's calls on ordinary cells, and answer REFUSED_POLAR for a polar one (the benchmark has polar rows of
//! its own, which are held against the library's own ordinary time).

pub mod arcseconds;
pub mod book;
pub mod places;
pub mod plane;
pub mod reference;
pub mod space;
pub mod tight;

pub const REFUSED_POLAR: u32 = 99;

#[derive(Clone, Copy, PartialEq, Debug)]
pub struct Refusal {
    pub number: u32,
    pub ordinal: u32,
    pub place: u64,
}

impl Refusal {
    /// About the first code, or the only one.
    #[inline(always)]
    pub fn new(number: u32, place: u64) -> Refusal {
        Refusal { number, ordinal: 1, place }
    }

    /// The character at a place of a code is not allowed there: 20 where it is a code character, else 7.
    #[cold]
    pub fn wrong(code: &[u8], place: usize) -> Refusal {
        let number = if matches!(code[place], b'0'..=b'9' | b'A'..=b'V') { 20 } else { 7 };
        Refusal::new(number, place as u64)
    }
}

pub fn refuse<T>(number: u32) -> Result<T, Refusal> {
    Err(Refusal::new(number, 0))
}

/// Holds an answer of the library against a plain one: the same refusal, or both succeed and `equal` compares what they found. A polar
/// cell is passed over.
pub fn same<T>(ours: &hailgully_raw::HgRefusal, other: Result<T, Refusal>, equal: impl FnOnce(T)) {
    match other {
        Err(r) if r.number == REFUSED_POLAR => {}
        Err(r) => assert_eq!((ours.number, ours.place, ours.ordinal), (r.number, r.place, r.ordinal)),
        Ok(found) => {
            assert_eq!((ours.number, ours.place, ours.ordinal), (0, 0, 0));
            equal(found);
        }
    }
}
