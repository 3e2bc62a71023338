//! Height characters of edition 2: "the layer is 32-bit two's complement, its
//! top bit the sign, the rest cut 6, 3, 1, 4, 4, 1, 3, 3, 3, 3, with F as a
//! digit". By shifts and masks, from annex C.14 of source document 000.

use crate::slips;

/// The fields n(a:b) of C.14 from the coarsest: the sign, two decimal digits,
/// then a character each. Bits are counted from 1, "from low to high".
const FIELDS: [(u32, u32); 11] = [(32, 32), (26, 31), (23, 25), (22, 22), (18, 21), (14, 17), (13, 13), (10, 12), (7, 9), (4, 6), (1, 3)];
const DIGITS: &[u8; 16] = b"0123456789ABCDEF";
/// 00 to 63.
const PAIRS: &[u8; 128] = b"\
    00010203040506070809101112131415161718192021222324252627282930313233343536373839\
    404142434445464748495051525354555657585960616263";

/// The characters that a field has, by their numbers.
fn digits((low, high): (u32, u32)) -> &'static [u8] {
    let fifteen = slips::on(slips::FIFTEEN_PARTS) && high - low == 3;
    &DIGITS[..(2 << (high - low)) - usize::from(fifteen)]
}

/// The 32 bits of a layer in its range.
fn bits(layer: i64) -> u32 {
    if slips::on(slips::MAGNITUDE_BITS) && layer < 0 {
        return 1 << 31 | -layer as u32;
    }
    layer as i32 as u32
}

/// The sign and the eleven height characters of a layer in its range.
pub fn heights(layer: i64) -> [u8; 12] {
    let n = bits(layer);
    let mut characters = [b'0'; 12];
    for (at, (low, high)) in FIELDS.into_iter().enumerate() {
        let field = (n >> (low - 1) & ((2 << (high - low)) - 1)) as usize;
        match at {
            1 => characters[1..3].copy_from_slice(&PAIRS[field << 1..][..2]),
            0 => characters[0] = DIGITS[field],
            // E stands in for an F that the slip of fifteen parts does not have.
            _ => characters[at + 1] = *digits((low, high)).get(field).unwrap_or(&b'E'),
        }
    }
    characters
}

/// The height characters read so far.
#[derive(Clone, Copy)]
pub struct Heights {
    /// How many fields are whole, and the first digit of the two, if it waits
    /// for the other.
    fields: usize,
    tens: Option<u8>,
    n: u32,
}

impl Heights {
    pub fn start() -> Heights {
        Heights { fields: 0, tens: None, n: 0 }
    }

    /// Takes one more character, if it is allowed here.
    pub fn take(self, character: u8) -> Option<Heights> {
        let mut pairs = PAIRS.chunks_exact(2);
        let field = match (self.fields, self.tens) {
            (1, None) => {
                let begins = pairs.any(|pair| pair[0] == character);
                return begins.then_some(Heights { tens: Some(character), ..self });
            }
            (1, Some(tens)) => pairs.position(|pair| pair == [tens, character])?,
            (fields, _) => digits(FIELDS[fields]).iter().position(|&digit| digit == character)?,
        };
        let (low, _) = FIELDS[self.fields];
        Some(Heights { fields: self.fields + 1, tens: None, n: self.n | (field as u32) << (low - 1) })
    }

    /// Floor and thickness of the whole levels so far.
    pub fn layers(self) -> (i32, u32) {
        let (low, _) = FIELDS[self.fields - 1];
        (self.n as i32, 1 << (low - 1))
    }
}
