//! The inputs that are timed: the same in every run, and kept for the whole run.

use hailgully_raw::{lent as ffi, HgRefusal, HgWritten};

/// How many inputs a pass goes through. Enough that the processor does not learn the sequence by heart.
pub const MANY: usize = 4096;

/// A small generator (splitmix64).
pub struct Dice(pub u64);

impl Dice {
    pub fn next(&mut self) -> u64 {
        self.0 = self.0.wrapping_add(0x9E37_79B9_7F4A_7C15);
        let mut z = self.0;
        z = (z ^ (z >> 30)).wrapping_mul(0xBF58_476D_1CE4_E5B9);
        z = (z ^ (z >> 27)).wrapping_mul(0x94D0_49BB_1331_11EB);
        z ^ (z >> 31)
    }

    pub fn between(&mut self, least: i64, greatest: i64) -> i64 {
        least + (self.next() % (greatest - least + 1) as u64) as i64
    }

    /// A reading from -bound up to bound.
    pub fn reading(&mut self, bound: f64) -> f64 {
        let part = (self.next() >> 11) as f64 / (1u64 << 53) as f64;
        (2.0 * part - 1.0) * bound
    }
}

#[derive(Clone, Copy)]
pub struct Position {
    /// Of its space code.
    pub edition: i64,
    pub level: i64,
    pub longitude: i64,
    pub latitude: i64,
    pub layer: i64,
}

impl Position {
    fn any(dice: &mut Dice, level: i64, latitude: i64) -> Position {
        let longitude = dice.between(-1_327_104_000, 1_327_103_999);
        let layer = dice.between(-1_887_436_800, 1_887_436_799);
        Position { edition: 1, level, longitude, latitude, layer }
    }

    pub fn ordinary(dice: &mut Dice, level: i64) -> Position {
        let latitude = dice.between(-648_806_400, 648_806_399);
        Position::any(dice, level, latitude)
    }

    pub fn polar(dice: &mut Dice, level: i64) -> Position {
        let index = dice.between(648_806_400, 663_551_999);
        let latitude = if dice.next().is_multiple_of(2) { index } else { -1 - index };
        Position::any(dice, level, latitude)
    }

    /// The same level and layer with other numbers: each end of either range, one unit before and one past it, or its own; in all pairs.
    pub fn at_ends(self) -> impl Iterator<Item = Position> {
        let about = |end: i64| [-end - 1, -end, -end + 1, end - 1, end, end + 1];
        let longitudes = about(1_327_104_000).into_iter().chain([self.longitude]);
        let latitudes = about(663_552_000).into_iter().chain([self.latitude]);
        longitudes.flat_map(move |longitude| latitudes.clone().map(move |latitude| Position { longitude, latitude, ..self }))
    }

    /// The same square with a layer of edition 2.
    pub fn in_edition_2(self, dice: &mut Dice) -> Position {
        Position { edition: 2, layer: dice.between(-2_147_483_648, 2_147_483_647), ..self }
    }
}

/// A code of any kind; its bytes after its length are 0.
#[derive(Clone, Copy)]
pub struct Code {
    bytes: [u8; 32],
    length: usize,
}

impl Code {
    /// The code that a writer of the library puts into the line it is lent.
    pub fn written(write: impl Fn(&mut [u8]) -> HgWritten) -> Code {
        let mut bytes = [0u8; 32];
        let w = write(&mut bytes);
        assert_eq!(w.refusal, HgRefusal { number: 0, ordinal: 0, place: 0 });
        Code { bytes, length: w.length as usize }
    }

    pub fn plane(p: &Position) -> Code {
        Code::written(|line| ffi::plane_write(p.level, p.longitude, p.latitude, line, 0))
    }

    pub fn space(p: &Position) -> Code {
        Code::written(|line| ffi::space_write(p.edition, p.level, p.longitude, p.latitude, p.layer, line, 0))
    }

    #[inline(always)]
    pub fn text(&self) -> &[u8] {
        &self.bytes[..self.length]
    }

    /// The code with one character changed, or now and then one left off.
    pub fn spoilt(mut self, dice: &mut Dice) -> Code {
        const ALPHABET: &[u8] = b"0123456789ABCDEFGHNSVWn-\x00";
        let place = dice.between(0, self.length as i64) as usize;
        if place == self.length {
            self.length -= 1;
        } else {
            self.bytes[place] = ALPHABET[dice.between(0, ALPHABET.len() as i64 - 1) as usize];
        }
        self
    }
}

/// MANY inputs, kept to the end of the run.
pub fn many<T>(make: impl FnMut() -> T) -> &'static [T] {
    std::iter::repeat_with(make).take(MANY).collect::<Vec<T>>().leak()
}

/// One thing made from each input, kept to the end of the run.
pub fn each<S, T>(from: &[S], make: impl Fn(&S) -> T) -> &'static [T] {
    from.iter().map(make).collect::<Vec<T>>().leak()
}
