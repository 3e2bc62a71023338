//! Deliberate slips: with HG_SLIP=k the oracle makes the k-th mistake of this list, and `compare` must find a difference. So it is shown able
//! to fail. The faults of a library (src/compare/faults.rs) have the numbers after these.

use std::sync::atomic::{AtomicU32, Ordering};

static SLIP: AtomicU32 = AtomicU32::new(0);

/// Numbers the slips from 1 in the order in which they stand, and lists their words.
macro_rules! numbered {
    ($($name:ident: $words:literal,)*) => {
        #[allow(non_camel_case_types, clippy::upper_case_acronyms)]
        enum Place { $($name,)* }
        $(pub const $name: u32 = Place::$name as u32 + 1;)*
        pub const LIST: &[&str] = &[$($words,)*];
    };
}

numbered! {
    ABSOLUTE_VALUES: "absolute values, so -1 shares index 1 with 1",
    WEST_COLUMNS_EASTWARD: "ordinary columns eastward in the west",
    LETTER_I_SKIPPED: "the letter I skipped",
    CAP_ROW_0_ANY_COLUMN: "a cap's row 0 with another column accepted",
    LATITUDE_FIRST: "refusal 3 before 2",
    OLD_ENDS: "180 and 90 degrees refused by the writers",
    UNIT_TOO_MANY: "one unit past 180 and past 90 degrees accepted by the writers",
    UNIT_TOO_MANY_BELOW: "one unit past -180 and past -90 degrees accepted by the writers",
    LAST_UNIT_FOR_180: "180 degrees answered as the last unit before it",
    POLE_TURNS: "90 degrees answered as -90",
    POLE_FIRST: "90 degrees moved to longitude 0, before refusal 2",
    PLACE_OFF_BY_ONE: "a bad character's place off by one",
    WEST_EDGE_POSITIVE: "a west edge at 180 degrees positive",
    BELT_COLUMNS_EASTWARD: "belt columns eastward in the west",
    BELT_ROWS_FROM_POLE: "belt rows counted from the pole",
    CAP_DIGIT_1: "the digit 1 accepted at level 6 of a cap",
    EXACT_FIT_REFUSED: "a line that just fits refused",
    PLACE_WRAPS: "the end of the code wraps past 2^64",
    SMALL_LETTERS: "small letters accepted",
    PART_IS_WRITTEN: "refusal 5 leaves part of the code in the line",
    CAP_FROM_180: "the whole turn begins at 180 degrees",
    LAYER_MAGNITUDE: "layer -1 as magnitude 1",
    SIXTEEN_PARTS: "16 parts at levels 4 and 5 of the layer in edition 1",
    F_IN_EDITION_1: "F accepted as a height character in edition 1",
    FIFTEEN_PARTS: "15 parts at levels 4 and 5 of the layer in edition 2",
    MAGNITUDE_BITS: "the magnitude's bits in edition 2",
    EDITION_1_LAYERS: "edition 1's layer range in edition 2",
    EDITION_BEFORE_LEVEL: "refusal 13 before 1",
    EDITION_AFTER_LONGITUDE: "refusal 2 before 13",
    EDITION_AFTER_LENGTH: "refusal 6 before 13",
    HEIGHT_64_AT_FIRST_DIGIT: "heights 64 to 69 refused at the first digit",
    LINE_BEFORE_LAYER: "refusal 5 before 4",
    SIGN_FIRST: "the sign of a space code before N or S",
    HEIGHT_ONE_PLACE_OFF: "level 6's height character one place off",
    TENS_OVERWRITTEN: "the height's tens overwritten by its ones",
    PLACE_AMONG_HEIGHTS: "a bad height character's place counted among the height characters",
    DIGIT_DIRECTION: "M as digit direction west of Greenwich",
    LONG_WAY_ROUND: "the long way round at 180 degrees",
    LEVELS_BEFORE_POLAR: "refusal 9 before 8",
    ORDINAL_ALWAYS_ONE: "ordinal 1 for the target",
    POLE_REACHED_FIRST: "refusal 12 before 8",
    TOWARD_ZERO: "rounding toward zero",
    INFINITY_NOT_A_NUMBER: "an infinity gets 11",
    MINUS_ZERO_BOX: "a box's zero is -0.0",
    NOT_A_NUMBER_LATE: "refusal 2 before 11",
    OLD_READING_ENDS: "readings of 180 and 90 degrees refused",
    FLOOR_IN_RANGE: "readings just above 180 and 90 degrees accepted, by their floors",
    READING_TURNED: "a reading of 180 degrees handed back as -180",
    POLE_READ_AT_0: "a reading of 90 degrees moved to longitude 0",
    TOUCHING_MINUTES: "records whose minutes touch conflict",
    TOUCHING_LONGITUDES: "records that touch in the east or west conflict",
    TOUCHING_LATITUDES: "records that touch in the north or south conflict",
    TOUCHING_LAYERS: "records that touch above or below conflict",
    NO_TURN: "longitudes a full turn apart are not the same",
    WIDTH_WITHIN_TURN: "a width past a full turn taken modulo a turn",
    SUMS_WRAP: "the ends of a record's latitudes and layers wrap at 32 bits",
    EAST_WRAPS: "the east end of a record's longitudes wraps at 32 bits",
    CLIPPED_TO_POLES: "a record's latitudes past a pole taken as the pole's",
    SIZE_0_NAMES_ONE: "a size of 0 names one",
    SIGNED_MINUTES: "minutes with a sign",
    MINUTES_TURNED: "the minutes of a start after its end taken the other way",
    LEVELS_PART: "records of two levels do not conflict",
    DEAD_RECORDS_CONFLICT: "a record that is not live conflicts",
    DEAD_FLIGHTS_COUNT: "the flight number of a record that is not live counts",
    ONLY_1_IS_LIVE: "a live mark other than 1 is not live",
    LAST_CONFLICT: "refusal 16 with the last conflicting record's place",
    PLACE_AMONG_LIVE: "refusal 16's place counted over live records only",
    LAST_FREE: "adding uses the last record not live",
    REFUSED_BUT_WRITTEN: "an adding call that is refused writes into the free record",
    LAST_RELEASED: "release takes the last record of the flight",
    FLIGHT_CLEARED: "release clears the flight number too",
    COLUMN_LACKS_HIGHEST: "a plane code's column without its highest layer",
    COLUMN_LACKS_LOWEST: "a plane code's column without its lowest layer",
    COLUMN_FROM_GROUND: "a plane code's column from the ground up, as it was",
    COLUMN_WITHOUT_END: "a plane code's column up to the greatest number that a floor can be",
    COLUMN_OF_31_BITS: "a plane code's column cut to 2,147,483,647 layers",
    TRIED_WITHOUT_HIGHEST: "a plane code's record held against the book without its highest layer",
    TRIED_WITHOUT_LOWEST: "a plane code's record held against the book without its lowest layer",
    TRIED_FROM_GROUND: "a plane code's record held against the book from the ground up",
    SIGNED_THICKNESS: "a record's thickness with a sign, and none where it is negative",
    GROUND_WHOLE: "the ground call with the whole column",
    GROUND_LACKS_HIGHEST: "the ground call's column without its highest layer",
    GROUND_LACKS_LOWEST: "the ground call's column without its lowest layer",
    OLD_COLUMNS_GROW: "a live record of the old column taken for the whole one",
    COLUMNS_SHRINK: "a live record of the whole column taken for the old one",
    BOOK_OF_EDITION_2: "space codes of edition 2 added",
    ONE_RECORD_MORE: "a book of 257 records accepted",
    ONE_RECORD_LESS: "a book of 256 records refused",
    CODE_BEFORE_BOOK: "refusals 6, 7 and 20 before 19",
    FLIGHT_BEFORE_MINUTES: "refusal 15 before 14",
    CONFLICT_BEFORE_FLIGHT: "refusal 16 before 15",
    FULL_BEFORE_CONFLICT: "refusal 17 before 16",
    W_COUNTS: "W counted as a code character",
    SMALL_LETTERS_COUNT: "small letters counted as code characters",
    BETWEEN_COUNTS: "the bytes between 9 and A counted as code characters",
    HIGH_BYTES_COUNT: "bytes from 128 on counted by their lower seven bits",
    I_AND_O_GARBLED: "the letters I and O garbled where they are not allowed",
    HYPHEN_MISPLACED: "a hyphen outside its place misplaced",
    HYPHEN_PLACE_GARBLED: "a code character at the hyphen's place garbled",
    LAST_KIND: "the last bad character's kind with the first one's place",
    NO_PLACE_OF_20: "refusal 20 without a place",
    ORDINAL_1_OF_20: "ordinal 1 for the target's 20",
    MISPLACED_BEFORE_LENGTH: "refusal 20 of a plane code before 6",
    TARGET_GARBLED_FIRST: "the target's 7 before the base's 20",
    UNFIT_BEFORE_MISPLACED: "refusal 8 before the 20 of hyphen, M and N",
    MISPLACED_AFTER_MINUTES: "refusal 14 before 20",
    LITTLE_ENDIAN: "the lower byte first in the numbers of a place book",
    OFFSETS_FROM_BODIES: "a place book's offsets from the bodies' start",
    ENTRY_MORE: "a place book of 1,001 entries accepted",
    ENTRY_LESS: "a place book of 1,000 entries refused",
    BYTE_MORE: "a place book of 65,536 bytes accepted",
    BYTE_LESS: "a place book of 65,535 bytes refused",
    NO_ENTRIES_REFUSED: "a place book of no entries refused",
    NO_BYTES_ACCEPTED: "no bytes at all taken for a place book of no entries",
    EMPTY_NAMES: "an empty name in a place book accepted",
    NAMES_OF_65: "a name of 65 bytes in a place book accepted",
    NAMES_OF_64_REFUSED: "a name of 64 bytes in a place book refused",
    HYPHENS_IN_NAMES: "a hyphen in a name of a place book accepted",
    NAMES_BY_LENGTH: "names compared by length first",
    NAMES_SIGNED: "names compared as signed bytes",
    FOURS_TURNED: "names compared four bytes at a time, the last one first",
    NAMES_WITHOUT_CASE: "names compared without the case of their letters",
    COMMON_BYTES_ALONE: "a name that goes on from the name before it taken for the same",
    EQUAL_NAMES: "a name that is the same as the name before it accepted",
    CODES_UNREAD: "characters of a place's code not read",
    UNFIT_CODES_REFUSED: "a place's code below level 5 or polar refused in its book",
    GAPS: "gaps between bodies accepted",
    OVERLAPS: "overlapping bodies accepted",
    BYTES_BEHIND: "bytes behind the last body accepted",
    CHECKED_TO_THE_NAME: "a place book checked no further than the name that is found",
    ODD_NAMES_FIRST: "refusal 22 of a name that no place book has before 21",
    LENGTH_BEFORE_PLACES: "refusal 6 of a short code before 21",
    GARBLED_BEFORE_PLACES: "refusals 7 and 20 of a short code before 21",
    THREE_BYTES_READ: "a short code of three bytes read",
    PLACE_IN_OFFSET: "a short code's bad character by its place in the offset",
    NAME_HYPHEN_GARBLED: "a hyphen in a short code's name garbled",
    ABSENT_BEFORE_GARBLED: "refusal 22 before 7",
    ABSENT_BEFORE_MISPLACED: "refusal 22 before 20",
}

/// Turns one slip on; 0 turns all off.
pub fn set(slip: u32) {
    SLIP.store(slip, Ordering::SeqCst);
}

/// The slip that is on, or 0.
#[inline(always)]
pub fn current() -> u32 {
    SLIP.load(Ordering::Relaxed)
}

#[inline(always)]
pub fn on(slip: u32) -> bool {
    current() == slip
}
