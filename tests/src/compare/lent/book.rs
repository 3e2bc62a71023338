//! A book that is lent, between records that nobody lent: one to four of them, so that it starts at any 4-byte boundary. All are compared afterwards,
//! those around it too.

use crate::library::record;
use hailgully_raw::HgReservation;
use hailgully_tests::cases::{self, Random};

const AROUND: usize = 4;

pub struct LentBook {
    /// The records before the book, the book, and those behind it.
    memory: Vec<HgReservation>,
    before: usize,
    /// What stood around the book.
    guards: [HgReservation; 2 * AROUND],
}

/// A record of random numbers.
fn noise(random: &mut Random) -> HgReservation {
    let live = random.draw() as u32;
    record(&cases::noise(random, live))
}

impl LentBook {
    pub fn new(random: &mut Random, records: impl ExactSizeIterator<Item = HgReservation>) -> LentBook {
        let before = random.between(1, AROUND as i64) as usize;
        let guards = [(); 2 * AROUND].map(|()| noise(random));
        let mut memory = Vec::with_capacity(before + records.len() + AROUND);
        memory.extend(&guards[AROUND - before..AROUND]);
        memory.extend(records);
        memory.extend(&guards[AROUND..]);
        LentBook { memory, before, guards }
    }

    fn end(&self) -> usize {
        self.memory.len() - AROUND
    }

    /// What is lent of it.
    pub fn records(&mut self) -> &mut [HgReservation] {
        let end = self.end();
        &mut self.memory[self.before..end]
    }

    /// Where it is not what it should be, counted from the first lent record.
    pub fn difference(&self, wanted: impl Iterator<Item = HgReservation>) -> Option<i64> {
        let (first, last) = self.guards.split_at(AROUND);
        let all = first[AROUND - self.before..].iter().copied().chain(wanted).chain(last.iter().copied());
        let place = self.memory.iter().zip(all).position(|(is, wanted)| *is != wanted)?;
        Some(place as i64 - self.before as i64)
    }
}

/// A book of 2^31 records and more: address space that nobody may touch, but for its start.
pub struct HugeBook {
    start: *mut HgReservation,
    length: usize,
}

/// The records of a huge book that may be read and written.
pub const OPEN: usize = (1 << 16) / size_of::<HgReservation>();

extern "C" {
    fn mmap(address: *mut u8, length: usize, protection: i32, flags: i32, file: i32, offset: i64) -> *mut u8;
    fn mprotect(address: *mut u8, length: usize, protection: i32) -> i32;
    fn munmap(address: *mut u8, length: usize) -> i32;
}

impl HugeBook {
    pub fn new(length: usize) -> HugeBook {
        // No protection; private, anonymous, and no memory kept for it: Linux's numbers on x86-64.
        let (nobody, kind) = (0, 0x2 | 0x20 | 0x4000);
        let bytes = length * size_of::<HgReservation>();
        let start = unsafe { mmap(std::ptr::null_mut(), bytes, nobody, kind, -1, 0) };
        assert!(start as isize != -1, "no address space for {bytes} bytes: {}", std::io::Error::last_os_error());
        let opened = unsafe { mprotect(start, 1 << 16, 0x1 | 0x2) };
        assert!(opened == 0, "mprotect: {}", std::io::Error::last_os_error());
        HugeBook { start: start.cast(), length }
    }

    /// All of it. Only the first records may be touched.
    pub fn records(&mut self) -> &mut [HgReservation] {
        unsafe { std::slice::from_raw_parts_mut(self.start, self.length) }
    }
}

impl Drop for HugeBook {
    fn drop(&mut self) {
        let closed = unsafe { munmap(self.start.cast(), self.length * size_of::<HgReservation>()) };
        assert!(closed == 0, "munmap: {}", std::io::Error::last_os_error());
    }
}
