//! Refusals: "Every refusal returns its number, a place (the first bad
//! character from 0 for refusal 7, else 0), an ordinal (2 for a second code's
//! 6 or 7, else 1), and changes no lent byte." By Wish 5 of document 02 "7 now
//! means garbled and 20 means misplaced; the first bad character decides .. and
//! 20 carries its place and ordinal as 7 does".

#[cfg(test)]
mod worked;

use crate::slips;

#[derive(Clone, Copy, Debug, PartialEq, Eq)]
pub struct Refusal {
    pub number: u32,
    pub ordinal: u32,
    pub place: u64,
}

/// A refusal as an order knows it, by number and ordinal: one number can stand
/// there twice, of a first code and of a second.
pub type Named = (u32, u32);

impl Refusal {
    pub fn named(&self) -> Named {
        (self.number, self.ordinal)
    }
}

/// A refusal with place 0 and ordinal 1.
pub fn refusal(number: u32) -> Refusal {
    Refusal { number, ordinal: 1, place: 0 }
}

/// The first of the order that applies.
pub fn first(applying: &[Refusal], order: &[Named]) -> Option<Refusal> {
    order.iter().find_map(|named| applying.iter().find(|refusal| refusal.named() == *named)).copied()
}

/// "Bytes 0 to 9 and A to V count as code characters."
pub const CODE_CHARACTERS: &[u8; 32] = b"0123456789ABCDEFGHIJKLMNOPQRSTUV";

/// Whether a character that is not allowed at its place is only misplaced. "A
/// hyphen counts only at the reference hyphen's place, and is garbled
/// elsewhere": at that place it is allowed, so that here it is always garbled.
fn misplaced(character: u8) -> bool {
    let listed = |character: u8| CODE_CHARACTERS.contains(&character);
    match slips::current() {
        slips::W_COUNTS => listed(character) || character == b'W',
        slips::SMALL_LETTERS_COUNT => listed(character.to_ascii_uppercase()),
        slips::BETWEEN_COUNTS => (b'0'..=b'V').contains(&character),
        slips::HIGH_BYTES_COUNT => listed(character & 0x7f),
        slips::I_AND_O_GARBLED => listed(character) && !b"IO".contains(&character),
        slips::HYPHEN_MISPLACED => listed(character) || character == b'-',
        _ => listed(character),
    }
}

/// The refusal of a character that "is not allowed at its place, given those
/// before it": 20 where it is misplaced, 7 where it is garbled.
pub fn bad_character(place: usize, character: u8) -> Refusal {
    let number = if misplaced(character) { 20 } else { 7 };
    let place = match slips::current() {
        slips::PLACE_OFF_BY_ONE => place + 1,
        slips::NO_PLACE_OF_20 if number == 20 => 0,
        _ => place,
    };
    Refusal { number, ordinal: 1, place: place as u64 }
}

/// Takes the characters of a code one by one, each by its place: where they
/// lead, or the refusal of the first that is not allowed.
#[inline]
pub fn take_all<W: Copy>(code: &[u8], start: W, take: impl Fn(W, usize, u8) -> Option<W>) -> Result<W, Refusal> {
    let mut walk = start;
    for (place, &character) in code.iter().enumerate() {
        match take(walk, place, character) {
            Some(next) => walk = next,
            None if slips::on(slips::LAST_KIND) => {
                return Err(Refusal { number: last_kind(code, place, walk, take), ..bad_character(place, character) });
            }
            None => return Err(bad_character(place, character)),
        }
    }
    Ok(walk)
}

/// The slip's number: of the last bad character from a place on, where each bad
/// one before it is taken for one that is allowed.
fn last_kind<W: Copy>(code: &[u8], from: usize, start: W, take: impl Fn(W, usize, u8) -> Option<W>) -> u32 {
    let (mut walk, mut number) = (start, 0);
    for (place, &character) in code.iter().enumerate().skip(from) {
        let next = take(walk, place, character).or_else(|| {
            number = bad_character(place, character).number;
            CODE_CHARACTERS.iter().find_map(|&allowed| take(walk, place, allowed))
        });
        let Some(next) = next else { break };
        walk = next;
    }
    number
}

/// The same refusal, of a second code.
pub fn of_second_code(first: Refusal) -> Refusal {
    let ordinal = match slips::current() {
        slips::ORDINAL_ALWAYS_ONE => 1,
        slips::ORDINAL_1_OF_20 if first.number == 20 => 1,
        _ => 2,
    };
    Refusal { ordinal, ..first }
}

/// "The code is written from a given place in the lent line; bytes before it
/// and after the code stay." Refusal 5: "from the place given, the line lacks
/// bytes for the whole code; a place past the end counts as none".
pub fn put(code: &[u8], line: &mut [u8], at: usize) -> Result<usize, Refusal> {
    let room = line.len().saturating_sub(at);
    if slips::on(slips::PLACE_WRAPS) && at > line.len() && at.wrapping_add(code.len()) <= line.len() {
        return Ok(code.len());
    }
    let exact = slips::on(slips::EXACT_FIT_REFUSED) && room == code.len();
    if room < code.len() || exact {
        if slips::on(slips::PART_IS_WRITTEN) && room > 0 {
            line[at..at + room].copy_from_slice(&code[..room]);
        }
        return Err(refusal(5));
    }
    line[at..at + code.len()].copy_from_slice(code);
    Ok(code.len())
}
