//! Codes, good and damaged, and an input for the small program.

use super::Random;
use crate::plane::{self, listing, LENGTHS};
use crate::space::{self, Edition};

/// A bad character: mostly one that is good elsewhere in a code.
pub fn other_character(random: &mut Random) -> u8 {
    if random.one_in(4) {
        random.draw() as u8
    } else {
        random.pick(b"0123456789ABCDEFGVWINSns-abe")
    }
}

/// Puts a bad character somewhere into a code.
pub fn damage(random: &mut Random, code: &mut [u8]) {
    let place = random.below(code.len() as u64) as usize;
    code[place] = other_character(random);
}

/// A random code, read from the lists: each level one of its cells, with the
/// same weight, so that caps and polar cells come often enough.
pub fn listed_code(random: &mut Random, level: usize) -> Vec<u8> {
    let first = listing::first_level();
    let poles = [first[0], first[first.len() / 2]];
    let mut at = if random.one_in(3) { random.pick(&poles) } else { random.pick(first) };
    let mut code = at.text().to_vec();
    while at.level < level {
        let list = listing::children(&at);
        let cap = list.iter().find(|cell| cell.region == plane::Region::Cap);
        at = match cap {
            Some(cap) if !random.one_in(4) => *cap,
            _ => random.pick(&list),
        };
        code.extend_from_slice(at.text());
    }
    code
}

/// A random code made by walking: mostly allowed characters, zeros often, so
/// that caps come; now and then any byte. Of a plane length.
pub fn walked_code(random: &mut Random) -> ([u8; 20], usize) {
    let length = random.pick(&LENGTHS);
    let mut code = [b'0'; 20];
    let zeros = random.one_in(2);
    let mut walk = Some(plane::walk::Walk::start());
    for (place, character) in code[..length].iter_mut().enumerate() {
        if random.one_in(60) {
            *character = random.draw() as u8;
        } else {
            *character = allowed(random, walk, place, zeros);
        }
        walk = walk.and_then(|walk| walk.take(*character));
    }
    (code, length)
}

/// A character that the walk takes here.
fn allowed(random: &mut Random, walk: Option<plane::walk::Walk>, place: usize, zeros: bool) -> u8 {
    for _ in 0..100 {
        let character = match place {
            0 => random.pick(b"NS"),
            _ if zeros && !random.one_in(6) => b'0',
            3 => random.pick(b"ABCDEFGHIJKLMNOPQRSTUV0"),
            _ => random.pick(b"0123456789ABCDE"),
        };
        if walk.is_none_or(|walk| walk.take(character).is_some()) {
            return character;
        }
    }
    b'0'
}

/// How many characters a space code of this edition may have at each place
/// where level 2 to 10 has its height.
const HEIGHTS: [[u64; 9]; 2] = [[8, 2, 15, 15, 2, 8, 8, 8, 8], [8, 2, 16, 16, 2, 8, 8, 8, 8]];

/// A random space code: a walked plane code with heights between, mostly
/// allowed ones. Of a space length.
pub fn space_text(random: &mut Random, edition: Edition) -> ([u8; 32], usize) {
    let (flat, length) = walked_code(random);
    let level = LENGTHS.iter().position(|&one| one == length).unwrap_or(0);
    let mut code = [b'0'; 32];
    let (mut next, mut at) = (flat.iter(), 0);
    for (character, turn) in code.iter_mut().zip(space::TURNS) {
        let wild = *turn != b'p' && random.one_in(100);
        *character = match turn {
            _ if wild => other_character(random),
            b'p' => *next.next().unwrap_or(&b'0'),
            b's' => random.pick(b"01"),
            b't' => random.pick(b"0123456"),
            _ if at == 0 => random.pick(b"0123456789"),
            _ => b"0123456789ABCDEF"[random.below(HEIGHTS[edition as usize - 1][at - 1]) as usize],
        };
        at += usize::from(*turn == b'h');
    }
    (code, space::LENGTHS[level])
}

/// An input for the small program: good and damaged codes, empty lines, lines
/// of every length around 20, carriage returns, null bytes, and in half of the
/// inputs no line feed at the end.
pub fn program_input(random: &mut Random, lines: u64) -> Vec<u8> {
    let mut input = Vec::new();
    for _ in 0..lines {
        let (code, length) = walked_code(random);
        match random.below(12) {
            0 => {}
            1 => input.extend((0..random.below(45)).map(|_| b'0')),
            2 => {
                let count = random.below(30);
                let bytes = (0..count).map(|_| random.draw() as u8);
                input.extend(bytes.filter(|&byte| byte != b'\n'));
            }
            3 => {
                input.extend_from_slice(&code[..length]);
                input.push(random.pick(b"\r\0 \t0"));
            }
            4 => input.extend_from_slice(&code[..random.below(21) as usize]),
            _ => {
                let mut code = code;
                if random.one_in(3) {
                    damage(random, &mut code[..length]);
                }
                input.extend_from_slice(&code[..length]);
            }
        }
        input.push(b'\n');
    }
    if random.one_in(2) {
        input.pop();
    }
    input
}
