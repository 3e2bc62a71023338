//! Wish 5 of document 02, "Garbled or only misplaced", in worked cases, asked of
//! the oracle.

use super::{refusal, Refusal, CODE_CHARACTERS};
use crate::arcseconds::plane_box;
use crate::book::{Kind, Request, Reservation};
use crate::plane::{self, listing};
use crate::{reference, space};

fn garbled(place: u64) -> Refusal {
    Refusal { place, ..refusal(7) }
}

fn misplaced(place: u64) -> Refusal {
    Refusal { place, ..refusal(20) }
}

/// The refusal of adding by a code; minutes that get 14 come after it.
fn adding(kind: Kind, code: &[u8]) -> Refusal {
    let mut book = [Reservation::default()];
    let given = Request::new(kind, code, 1, (5, 5)).add(&mut book).0;
    assert_eq!(book, [Reservation::default()]);
    given.unwrap_err()
}

/// "Bytes 0 to 9 and A to V count as code characters": those of the listed
/// codes. At the hyphen's place, and at M and N, too.
#[test]
fn each_byte() {
    for byte in 0..=255u8 {
        let counts = byte.is_ascii_digit() || (b'A'..=b'V').contains(&byte);
        assert_eq!((CODE_CHARACTERS.contains(&byte), listing::belongs(byte)), (counts, counts));
        let or_bad = |allowed: &[u8], place| match allowed.contains(&byte) {
            true => Ok(()),
            false => Err(if counts { misplaced(place) } else { garbled(place) }),
        };
        for (place, allowed) in (3..).zip([&b"ABCDEFGHIJKLMNOPQRSTUV"[..], b"0123456789AB", b"01234567"]) {
            let mut code = *b"S31V00";
            code[place] = byte;
            assert_eq!(plane::read(&code).map(drop), or_bad(allowed, place as u64));
        }
        for (place, allowed) in (11..).zip([&b"-"[..], b"01234567ABCDEFG", b"01234567ABCDEFG"]) {
            let mut code = *b"N31A0000000-10";
            code[place] = byte;
            assert_eq!(reference::read(&code, &mut [0; 11], 0).map(drop), or_bad(allowed, place as u64));
        }
    }
}

/// "The first bad character decides."
#[test]
fn plane_codes() {
    for (code, given) in [
        (&b"N?1A00"[..], garbled(1)),
        (b"N-1A00", garbled(1)),
        (b"N7?A00", misplaced(1)),
        (b"N?7A00", garbled(1)),
        (b"N-VA00", garbled(1)),
        (b"NV-A00", misplaced(1)),
        (b"NVVA00", misplaced(1)),
        (b"Nv?A00", garbled(1)),
        (b"N31-0V", garbled(3)),
        (b"N000-V", garbled(4)),
        (b"V31A0-", misplaced(0)),
        (b"-V1A0", refusal(6)),
    ] {
        assert_eq!(plane::read(code), Err(given));
        assert_eq!(plane_box(code), Err(given));
        assert_eq!(Kind::COLUMNS.map(|kind| adding(kind, code)), [given; 2]);
        // The base before the target, whatever it has.
        let write = |base: &[u8], target: &[u8]| reference::write(base, target, &mut [0; 30], 0);
        for other in [&b"x31A"[..], b"V31A", b"-", b"N31A"] {
            assert_eq!(write(code, other), Err(given));
        }
        assert_eq!(write(b"N31A", code), Err(Refusal { ordinal: 2, ..given }));
    }
}

/// A plane and a height character, in both orders.
#[test]
fn space_codes() {
    for (code, given) in [
        (&b"N0V1A?0"[..], misplaced(2)),
        (b"N0?1AV0", garbled(2)),
        (b"N231A00", misplaced(1)),
        (b"N-V1A00", garbled(1)),
        (b"NV-1A00", misplaced(1)),
        (b"N031A640-0", misplaced(6)),
        (b"N031A6-0V0", garbled(6)),
        (b"N000000V0-", misplaced(7)),
        (b"N00000000-", garbled(9)),
        (b"N-V1A0", refusal(6)),
    ] {
        assert_eq!(space::read(1, code), Err(given));
        assert_eq!(space::read(2, code), Err(given));
        assert_eq!(space::read(3, code), Err(refusal(13)));
        assert_eq!(adding(Kind::Space, code), given);
    }
}

/// Around the hyphen, M and N. A base below level 5 gets 8 after them.
#[test]
fn reference_codes() {
    for (code, given) in [
        (&b"N31A000000V-?0"[..], misplaced(10)),
        (b"N31A000000?-V0", garbled(10)),
        (b"N31A000000--10", garbled(10)),
        (b"N31A0000000VV0", misplaced(11)),
        (b"N31A0000000?80", garbled(11)),
        (b"N31A0000000+10", garbled(11)),
        (b"N31A0000000--0", garbled(12)),
        (b"N31A0000000-8?", misplaced(12)),
        (b"N31A0000000-?8", garbled(12)),
        (b"N31A0000000-1H", misplaced(13)),
        (b"N31A0000000-1-", garbled(13)),
        (b"N31A-1V", misplaced(6)),
        (b"N31AV10", misplaced(4)),
        (b"N31A-10", refusal(8)),
        (b"N31A-1", refusal(6)),
    ] {
        assert_eq!(reference::read(code, &mut [0; 30], 0), Err(given));
    }
}
