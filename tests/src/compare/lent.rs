//! Memory that is lent to a call, between guard bytes. All of it is compared with a twin afterwards, the guard bytes too; of memory of 2^24 bytes
//! and more both ends are compared, and what lies between them is zeros.

pub mod book;

use hailgully_tests::cases::Random;

const GUARD: usize = 24;
/// Up to this length nothing is allocated.
const SHORT: usize = 80;
const HUGE: usize = 1 << 24;
const END: usize = 1 << 12;

enum Memory {
    Short([u8; GUARD + SHORT + GUARD]),
    Long(Vec<u8>),
}

pub struct Lent {
    memory: Memory,
    length: usize,
}

impl Lent {
    /// A line full of random bytes.
    pub fn line(random: &mut Random, length: usize) -> Lent {
        let memory = match length {
            0..=SHORT => Memory::Short([0; GUARD + SHORT + GUARD]),
            _ => Memory::Long(vec![0; GUARD + length + GUARD]),
        };
        let mut lent = Lent { memory, length };
        for end in lent.ends_mut() {
            let mut parts = end.chunks_exact_mut(8);
            for part in &mut parts {
                part.copy_from_slice(&random.draw().to_le_bytes());
            }
            parts.into_remainder().fill(random.draw() as u8);
        }
        lent
    }

    /// A copy of a code, a name or a place book, with random bytes before and after it.
    pub fn code(random: &mut Random, code: &[u8]) -> Lent {
        let mut lent = Lent::line(random, code.len());
        let length = code.len();
        if length < HUGE {
            lent.bytes().copy_from_slice(code);
        } else {
            lent.bytes()[..END].copy_from_slice(&code[..END]);
            lent.bytes()[length - END..].copy_from_slice(&code[length - END..]);
        }
        lent
    }

    /// The same bytes in other memory.
    pub fn twin(&self) -> Lent {
        let memory = match &self.memory {
            Memory::Short(bytes) => Memory::Short(*bytes),
            Memory::Long(bytes) => Memory::Long(vec![0; bytes.len()]),
        };
        let mut twin = Lent { memory, length: self.length };
        if let Memory::Long(_) = self.memory {
            for (to, from) in twin.ends_mut().into_iter().zip(self.ends()) {
                to.copy_from_slice(from);
            }
        }
        twin
    }

    /// What is lent of it.
    pub fn bytes(&mut self) -> &mut [u8] {
        let length = self.length;
        &mut self.whole_mut()[GUARD..GUARD + length]
    }

    /// Where it differs from the other, counted from the first lent byte.
    pub fn difference(&self, other: &Lent) -> Option<i64> {
        if self.ends() == other.ends() {
            return None;
        }
        let [(first, from), (last, to)] = [(0, 0), (1, self.whole().len() - self.ends()[1].len())];
        let in_end = |end: usize, start: usize| {
            let place = self.ends()[end].iter().zip(other.ends()[end]).position(|(one, other)| one != other)?;
            Some((start + place) as i64 - GUARD as i64)
        };
        in_end(first, from).or_else(|| in_end(last, to))
    }

    fn whole(&self) -> &[u8] {
        match &self.memory {
            Memory::Short(bytes) => bytes,
            Memory::Long(bytes) => bytes,
        }
    }

    fn whole_mut(&mut self) -> &mut [u8] {
        match &mut self.memory {
            Memory::Short(bytes) => bytes,
            Memory::Long(bytes) => bytes,
        }
    }

    /// What is compared: all of it and nothing more, or both ends.
    fn ends(&self) -> [&[u8]; 2] {
        let whole = self.whole();
        match whole.len() {
            0..HUGE => [whole, &[]],
            length => [&whole[..END], &whole[length - END..]],
        }
    }

    fn ends_mut(&mut self) -> [&mut [u8]; 2] {
        let whole = self.whole_mut();
        match whole.len() {
            0..HUGE => [whole, &mut []],
            length => {
                let (first, rest) = whole.split_at_mut(END);
                [first, &mut rest[length - END - END..]]
            }
        }
    }
}
