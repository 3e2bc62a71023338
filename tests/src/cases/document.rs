//! The document's own positions and codes.

/// Positions and levels of the document's P1 to P11.
pub const DOCUMENT_POSITIONS: [(i64, i64, i64); 17] = [
    (0, 0, 10),
    (-1, 0, 10),
    (0, -1, 10),
    (857_549_557, 294_861_578, 8),
    (-44_236_800, 0, 2),
    (-44_236_801, 0, 2),
    (0, 648_806_399, 1),
    (0, 648_806_400, 1),
    (0, -648_806_400, 1),
    (0, -648_806_401, 1),
    (-1, 648_806_400, 2),
    (884_736_000, 648_806_400, 2),
    (-1_327_104_000, 648_806_400, 2),
    (0, 656_179_200, 3),
    (0, 659_865_600, 3),
    (-1, 663_551_999, 10),
    (255_316_321, 277_488_284, 10),
];

/// Plane codes that the document names, good and bad.
pub const DOCUMENT_CODES: [&str; 9] =
    ["N36J93078B3101524314", "N50J47539B825534", "N50J475492E", "N30AB0", "N00A", "N61A", "", "N31A", "n31A"];

/// Reference codes of the document's P13, and `N31A-10`.
pub const DOCUMENT_REFERENCES: [&str; 4] = ["N50J475492E-10", "N31A0000000-0A", "N30A0000000-10", "N31A-10"];
