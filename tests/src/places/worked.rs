//! Wish 6 of document 02, "Place names, read from a book", in worked cases, asked
//! of the oracle.

use super::plain::{self, made};
use super::{entries, find, part, short_read, Part, BYTES, MOST, NAME_MOST};
use crate::cases::{filled_places, small_places, Random};
use crate::refusals::{refusal, Refusal};

/// A book of one entry, byte by byte: count 1; body at 6, name of 4, code of 11.
const MAST: &[u8; 21] = b"\x00\x01\x00\x06\x04\x0bmastN50J475492E";

/// The bytes of a book of these names and codes.
fn book(list: &[(&str, &str)]) -> Vec<u8> {
    let list: Vec<_> = list.iter().map(|(name, code)| (name.as_bytes().to_vec(), code.as_bytes().to_vec())).collect();
    made(&list)
}

/// Whether a book is well formed; both ways must say the same.
fn good(book: &[u8]) -> bool {
    assert!(plain::agrees(book));
    entries(book).is_some()
}

fn bad(book: &[u8]) {
    assert!(!good(book), "{}", book.escape_ascii());
    for name in [&b"mast"[..], b"a", b"", b"-", &[b'a'; 65]] {
        assert_eq!((find(name, book), part(name, book)), (Err(refusal(21)), Err(refusal(21))));
    }
}

fn short(code: &str, book: &[u8]) -> Result<String, Refusal> {
    let mut line = [b'.'; 26];
    let written = short_read(code.as_bytes(), book, &mut line, 3);
    let end = 3 + written.unwrap_or(0);
    assert!(line[..3].iter().chain(&line[end..]).all(|&byte| byte == b'.'));
    written.map(|_| String::from_utf8(line[3..end].to_vec()).unwrap())
}

#[test]
fn one_entry() {
    assert_eq!(book(&[("mast", "N50J475492E")]), MAST);
    assert_eq!(find(b"mast", MAST), Ok(()));
    assert_eq!(part(b"mast", MAST), Ok(Part { start: 6, name_length: 4, code_length: 11 }));
    for name in [&b"mas"[..], b"mast\0", b"Mast", b"last", b"", b"-", b"mast-", &[b'm'; 65], b"mastN"] {
        assert_eq!((find(name, MAST), part(name, MAST)), (Err(refusal(22)), Err(refusal(22))));
    }
    for length in 0..MAST.len() {
        bad(&MAST[..length]);
    }
    bad(&[&MAST[..], b"E"].concat());
}

/// A book of no entries is two zero bytes, and nothing else is.
#[test]
fn no_entries() {
    assert!(good(&[0, 0]));
    assert_eq!(find(b"a", &[0, 0]), Err(refusal(22)));
    assert_eq!(short("a-10", &[0, 0]), Err(refusal(22)));
    for book in [&[][..], &[0], &[0, 1], &[1, 0], &[0, 0, 0]] {
        bad(book);
    }
}

#[test]
fn every_byte_of_one_entry() {
    for place in 0..MAST.len() {
        for byte in 0..=255 {
            let mut book = MAST.to_vec();
            book[place] = byte;
            let named = (6..10).contains(&place) && byte != b'-';
            // Of the code: N or S; zones 10 to 60 and 50 to 59; row letters; level 2, 3, 4 and 5 by their columns and rows.
            let allowed = ["NS", "123456", "0123456789", "ABCDEFGHIJKLMNOPQRSTUV", "0123456789AB", "01234567", "012345"];
            let coded = place > 9 && allowed.get(place - 10).is_some_and(|allowed| allowed.as_bytes().contains(&byte));
            let offset = (17..21).contains(&place) && (if place == 18 { &b"0123456789"[..] } else { b"0123456789ABCDE" }).contains(&byte);
            assert_eq!(good(&book), book == MAST || named || coded || offset, "{place} {byte}");
        }
    }
}

#[test]
fn names() {
    let two = |one: &str, other: &str| good(&book(&[(one, "N31A"), (other, "S000")]));
    for (one, other) in
        [("a", "b"), ("a", "ab"), ("ab", "b"), ("B", "a"), ("0", "A"), ("z", "\u{e9}"), ("\0", "\u{1}"), ("a", "a\0"), ("10", "9")]
    {
        assert!(two(one, other) && !two(other, one) && !two(one, one) && !two(other, other), "{one} {other}");
    }
    for (name, well) in [("", false), ("a", true), ("-", false), ("a-", false), ("-a", false), ("a b", true), ("N31A", true)] {
        assert_eq!(good(&book(&[(name, "N31A")])), well, "{name}");
    }
    for (length, well) in [(NAME_MOST - 1, true), (NAME_MOST, true), (NAME_MOST + 1, false), (255, false)] {
        assert_eq!(good(&book(&[(&"n".repeat(length), "N31A")])), well, "{length}");
    }
}

/// "A plane code that the plane reader accepts", polar ones too.
#[test]
fn codes() {
    for code in ["N31A", "S31V", "N000", "S00033", "N0000000000000000000", "N36J93078B3101524314"] {
        assert!(good(&book(&[("a", code)])), "{code}");
    }
    for code in ["", "N31", "N31A0", "N61A", "n31A", "N00A", "N31W", "N31A00000000000000000", "N31A0000000-10"] {
        assert!(!good(&book(&[("a", code)])), "{code}");
    }
}

/// Bodies elsewhere than straight behind each other, each where its entry says.
#[test]
fn bodies() {
    let whole = book(&[("a", "N31A"), ("b", "N32A")]);
    assert!(good(&whole));
    // A gap before the first, between both and at the end; overlapping, and in the other order.
    bad(b"\x00\x02\x00\x0b\x01\x04\x00\x10\x01\x04.aN31AbN32A");
    bad(b"\x00\x02\x00\x0a\x01\x04\x00\x10\x01\x04aN31A.bN32A");
    bad(b"\x00\x02\x00\x0a\x01\x04\x00\x0f\x01\x04aN31AbN32A.");
    bad(b"\x00\x02\x00\x0a\x01\x04\x00\x0a\x01\x04aN31A");
    bad(b"\x00\x02\x00\x0f\x01\x04\x00\x0a\x01\x04bN32AaN31A");
    // Offsets from the bodies' start, and in the other order of bytes.
    bad(b"\x00\x02\x00\x00\x01\x04\x00\x05\x01\x04aN31AbN32A");
    bad(b"\x02\x00\x0a\x00\x01\x04\x0f\x00\x01\x04aN31AbN32A");
}

/// The lists of the comparisons.
#[test]
fn small_lists() {
    for list in small_places() {
        let book = made(&list);
        assert!(good(&book) && !good(&[&book[..], b"0"].concat()));
        assert!(list.iter().all(|(name, _)| find(name, &book).is_ok()));
    }
}

#[test]
fn limits() {
    for (count, bytes, well) in [
        (MOST, 30_000, true),
        (MOST + 1, 30_000, false),
        (MOST, BYTES, true),
        (MOST, BYTES + 1, false),
        (745, BYTES, true),
        (745, BYTES + 1, false),
    ] {
        let book = made(&filled_places(&mut Random::new(6), count, bytes));
        assert_eq!((book.len(), good(&book)), (bytes, well));
    }
}

#[test]
fn short_codes() {
    let book = book(&[("edge", "N31V075A9EE"), ("mast", "N50J475492E"), ("pole", "N0000000000"), ("wide", "N31A")]);
    assert!(good(&book));
    for (code, given) in [
        ("mast-10", Ok("N50J475493E")),
        ("mast-00", Ok("N50J475492E")),
        ("edge-00", Ok("N31V075A9EE")),
        ("mast+10", Err((7, 4))),
        ("mastV10", Err((20, 4))),
        ("mast--0", Err((7, 5))),
        ("mast-8?", Err((20, 5))),
        ("mast-1H", Err((20, 6))),
        ("mast-1h", Err((7, 6))),
        ("mill+10", Err((7, 4))),
        ("wide-1H", Err((20, 6))),
        ("m-st-1H", Err((20, 6))),
        ("", Err((6, 0))),
        ("-10", Err((6, 0))),
        ("+??", Err((6, 0))),
        ("?-10", Err((22, 0))),
        ("--10", Err((22, 0))),
        ("mill-10", Err((22, 0))),
        ("mast-10-10", Err((22, 0))),
        ("N50J475492E-10", Err((22, 0))),
        ("pole-00", Err((8, 0))),
        ("wide-01", Err((8, 0))),
        ("edge-01", Err((12, 0))),
    ] {
        let given = given.map(str::to_string).map_err(|(number, place)| Refusal { place, ..refusal(number) });
        assert_eq!(short(code, &book), given, "{code}");
        assert_eq!(short(code, &book[1..]), Err(refusal(21)), "{code}");
    }
    // "Then the reference reader's 8, 12, 5."
    for (code, number) in [("mast-10", 5), ("edge-01", 12), ("wide-01", 8), ("mill-10", 22), ("mast-1H", 20), ("-10", 6)] {
        assert_eq!(short_read(code.as_bytes(), &book, &mut [0; 10], 0).unwrap_err().number, number, "{code}");
    }
    assert_eq!(short_read(b"mast-10", &book, &mut [0; 12], 1), Ok(11));
    assert_eq!(short_read(b"mast-10", &book, &mut [0; 12], usize::MAX), Err(refusal(5)));
}
