//! Height characters of edition 1, document 01's: by repeated division, and
//! by multiplying up again.

use crate::slips;

/// "Radices 64 (two decimal digits), 8, 2, 15, 15, 2, 8, 8, 8, 8 from the
/// coarsest."
const RADICES: [i64; 10] = [64, 8, 2, 15, 15, 2, 8, 8, 8, 8];

/// The sign and the eleven height characters of a layer in its range, from
/// the finest.
pub fn heights(layer: i64) -> [u8; 12] {
    let mut rest = if layer >= 0 {
        layer
    } else if slips::on(slips::LAYER_MAGNITUDE) {
        -layer
    } else {
        layer + 1_887_436_800
    };
    let mut characters = [b'0'; 12];
    for level in (1..10).rev() {
        let sixteen = slips::on(slips::SIXTEEN_PARTS) && RADICES[level] == 15;
        let radix = if sixteen { 16 } else { RADICES[level] };
        characters[level + 2] = b"0123456789ABCDEF"[(rest % radix) as usize];
        rest /= radix;
    }
    characters[0] = if layer >= 0 { b'0' } else { b'1' };
    characters[1] = b'0' + (rest / 10) as u8;
    characters[2] = b'0' + (rest % 10) as u8;
    characters
}

/// The height characters read so far.
#[derive(Clone, Copy)]
pub struct Heights {
    taken: usize,
    below: bool,
    height: i64,
}

impl Heights {
    pub fn start() -> Heights {
        Heights { taken: 0, below: false, height: 0 }
    }

    /// Takes one more character, if it is allowed here.
    pub fn take(self, character: u8) -> Option<Heights> {
        let digit = match character {
            b'0'..=b'9' => i64::from(character - b'0'),
            b'A'..=b'F' => i64::from(character - b'A') + 10,
            _ => return None,
        };
        let (most, height) = match self.taken {
            0 => (1, 0),
            1 => (6, digit),
            // 00 to 63: after a 6 only 0 to 3.
            2 => (if self.height == 6 { 3 } else { 9 }, 10 * self.height + digit),
            taken => {
                let radix = RADICES[taken - 2];
                let letter_f = slips::on(slips::F_IN_EDITION_1) && radix == 15;
                (if letter_f { 15 } else { radix - 1 }, self.height * radix + digit)
            }
        };
        let below = if self.taken == 0 { digit == 1 } else { self.below };
        (digit <= most).then_some(Heights { taken: self.taken + 1, below, height })
    }

    /// Floor and thickness of the whole levels so far.
    pub fn layers(self) -> (i32, u32) {
        let thickness: i64 = RADICES[self.taken - 2..].iter().product();
        // "So the cell's layer floor is always its lower face."
        let up = self.height * thickness;
        let floor = if self.below { up - 1_887_436_800 } else { up };
        (floor as i32, thickness as u32)
    }
}
