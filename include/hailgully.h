/* Hailgully: the codes of the BeiDou grid (GB/T 39409-2020), from position to code and from code to cell, the book of the cells that flights hold,
 * and place names, looked up in a place book. For x86-64 Linux.
 *
 * A unit is 1/2048 arc-second; one degree is 7,372,800 units. A position names a unit square by its west and south corner. The ranges of
 * longitude, latitude, layer and level are the constants below. docs/GRID.md has the rules, with pictures.
 *
 * Longitudes run up to 180 degrees and latitudes up to 90, both included, though no square begins there: 180 degrees stands for -180, and 90 for
 * the unit south of it at the same longitude. The west of a cell that is read is never 180 degrees, and its south never 90.
 *
 * Space codes have two editions, which make height characters of a layer in two ways, and the caller names one by its number: 1 is the grid's own;
 * 2 cuts the layer by bits, as annex C.14 of the standard does, with F as a digit and a layer range of its own. Nothing in a code says its edition:
 * every code of edition 1 can be read in edition 2 too, mostly as other layers.
 *
 * Every call takes any numbers and any bytes, and answers with a result or with exactly one refusal. Nothing is clipped.
 * A refusal's number says why (the enum below). Its place is the first bad character for HG_GARBLED and HG_MISPLACED and the first
 * conflicting record for HG_CONFLICT, each counted from 0, else 0. Its ordinal is 2 where HG_LENGTH, HG_GARBLED or HG_MISPLACED speaks of a second
 * code, else 1. On a refusal every other field is 0, and no byte that was lent is changed. On success the refusal's three numbers are 0.
 *
 * A character that no code goes on with at its place is bad: HG_GARBLED where it belongs to no code, HG_MISPLACED where it is a code character, 0 to 9
 * or A to V, and only stands in the wrong place. The first bad character of a code decides. A hyphen is right at the hyphen of a reference code or a
 * short code, and garbled anywhere else. The two stand at one place in every order of refusals: `7 or 20`.
 *
 * A line is lent as its first byte and its length; a writer writes from the place `at` on, and the bytes before it and after the code stay. No zero
 * byte is written after a code: its length is what the call answers.
 *
 * A book of reservations is lent as its first record and how many records it has, at most HG_BOOK_MOST. Any bytes are records; zero bytes are
 * records that are not live. Two records conflict when they share a unit cube and a minute. A record's cubes are those that its numbers name as
 * whole numbers: longitudes west to west + width - 1, where a full turn (360 degrees) apart is the same, latitudes south to south + height - 1, and
 * layers floor to floor + thickness - 1. No sum wraps at 32 bits, and a size of 0 names none. Its minutes are start to end - 1: none where start is
 * not before end. From a book with nothing live, whatever calls are made, each lent the same whole book as the last one left it, no two live records
 * conflict.
 *
 * A place book is bytes: names with their plane codes. It starts with how many entries it has, at most HG_PLACES_MOST, as two bytes, the higher first.
 * Then come the contents, four bytes an entry: where its body begins, counted from the book's first byte, as two bytes, the higher first; the length
 * of its name, 1 to HG_NAME_MOST; the length of its code. Then come the bodies, in the same order and without gaps, each a name and a plane code that
 * hg_plane_read accepts; the last one ends the book, which has at most HG_PLACES_BYTES bytes. No name has a hyphen, and the names rise strictly, as
 * bytes in dictionary order. Each call checks the whole book that it is lent: any other bytes get HG_BADLY_FORMED, before all else.
 *
 * What is asked of the caller: a pointer is good for as many bytes, or records, as the length beside it says, and is not null, also where that
 * length is 0; a book of reservations stands at a multiple of 4 bytes, as its type does; a line or a book of reservations overlaps nothing that the
 * same call reads, and is lent to one call at a time. No call allocates, keeps a pointer, or reads or writes outside what it was lent. Calls may be
 * made from any thread at once.
 */
#ifndef HAILGULLY_H
#define HAILGULLY_H

#include <stddef.h>
#include <stdint.h>

#ifdef __cplusplus
extern "C" {
#endif

#define HG_VERSION_MAJOR 0
#define HG_VERSION_MINOR 8

/* A refusal's number. */
enum {
    HG_NONE = 0,            /* the call succeeded */
    HG_LEVEL = 1,           /* level outside 1 to 10 */
    HG_LONGITUDE = 2,       /* longitude outside its range, -180 to 180 degrees (either infinity too) */
    HG_LATITUDE = 3,        /* latitude outside its range, -90 to 90 degrees (either infinity too) */
    HG_LAYER = 4,           /* layer outside its range, which is the edition's */
    HG_ROOM = 5,            /* from the place given, the line lacks bytes for the whole code; a place past the end counts as none */
    HG_LENGTH = 6,          /* a code's length is none of its kind */
    HG_GARBLED = 7,         /* a character belongs to no code: it is neither 0 to 9 nor A to V, nor the hyphen of a reference code or a short code */
    HG_REFERENCE_CELL = 8,  /* a reference base or target is below level 5 or polar */
    HG_LEVELS_DIFFER = 9,   /* base and target levels differ */
    HG_OFFSET = 10,         /* either offset is beyond 7 */
    HG_NOT_A_NUMBER = 11,   /* either arc-second reading is not a number */
    HG_POLAR_TARGET = 12,   /* a reference read leads to 88 degrees or nearer a pole */
    HG_EDITION = 13,        /* edition neither 1 nor 2 */
    HG_MINUTES = 14,        /* start not before end */
    HG_ALREADY_LIVE = 15,   /* a live record has the flight number already */
    HG_CONFLICT = 16,       /* a live record shares a unit cube and a minute with what is asked */
    HG_ALL_LIVE = 17,       /* every record is live, as in a book of no records */
    HG_NOT_LIVE = 18,       /* no live record has the flight number */
    HG_BOOK_TOO_LONG = 19,  /* the book has more than 256 records */
    HG_MISPLACED = 20,      /* a code character is not allowed at its place, given those before it */
    HG_BADLY_FORMED = 21,   /* the place book is badly formed */
    HG_NOT_IN_BOOK = 22     /* no entry of the place book has the name */
};

/* Ranges, in units and layers; each end belongs to its range. Layers are those of edition 1, and with a 2 behind them those of edition 2. */
#define HG_DEGREE INT64_C(7372800)
#define HG_LONGITUDE_LEAST INT64_C(-1327104000)
#define HG_LONGITUDE_GREATEST INT64_C(1327104000) /* 180 degrees: stands for -180 */
#define HG_LATITUDE_LEAST INT64_C(-663552000)
#define HG_LATITUDE_GREATEST INT64_C(663552000) /* 90 degrees: stands for the unit south of it */
#define HG_LAYER_LEAST INT64_C(-1887436800)
#define HG_LAYER_GREATEST INT64_C(1887436799)
#define HG_LAYER_LEAST_2 INT64_C(-2147483648)
#define HG_LAYER_GREATEST_2 INT64_C(2147483647)
#define HG_LEVEL_LEAST INT64_C(1)
#define HG_LEVEL_GREATEST INT64_C(10)

/* The longest plane code, space code and reference code. */
#define HG_PLANE_MOST 20
#define HG_SPACE_MOST 32
#define HG_REFERENCE_MOST 23

/* The most records that a book has. */
#define HG_BOOK_MOST 256

/* The most entries that a place book has, the most bytes, and the longest name. */
#define HG_PLACES_MOST 1000
#define HG_PLACES_BYTES 65535
#define HG_NAME_MOST 64

typedef struct { uint32_t number, ordinal; uint64_t place; } hg_refusal;
typedef struct { hg_refusal refusal; uint64_t length; } hg_written;
/* These two end with four bytes that fill them up to a multiple of 8; nothing is said of what stands there. */
typedef struct { hg_refusal refusal; uint32_t level; int32_t west, south; uint32_t width, height; } hg_plane_cell;
typedef struct { hg_refusal refusal; uint32_t level; int32_t west, south; uint32_t width, height; int32_t floor; uint32_t thickness; } hg_space_cell;
typedef struct { hg_refusal refusal; int32_t longitude, latitude; } hg_units;
typedef struct { hg_refusal refusal; double west, south, width, height; } hg_box;
/* A record of a book: its live mark (0 is not live, any other number is), the flight's number, its space cell, and its minutes, the end not
 * included. The level is kept, and no rule looks at it. */
typedef struct { uint32_t live, flight, level; int32_t west, south; uint32_t width, height; int32_t floor; uint32_t thickness, start, end; } hg_reservation;
/* at: the place of the record that was used or released, counted from 0 */
typedef struct { hg_refusal refusal; uint64_t at; } hg_booked;
/* The part of a place book that an entry's body occupies: the name from start on, and the code straight behind it. */
typedef struct { hg_refusal refusal; uint64_t start, name_length, code_length; } hg_part;

/* The layout that the library has: a compiler that lays the structs out otherwise is told here. */
#if defined(__cplusplus) && __cplusplus >= 201103L
#define HG_LAID_OUT(test) static_assert(test, "the library has another layout")
#elif defined(__STDC_VERSION__) && __STDC_VERSION__ >= 201112L
#define HG_LAID_OUT(test) _Static_assert(test, "the library has another layout")
#endif
#ifdef HG_LAID_OUT
HG_LAID_OUT(sizeof(void *) == 8 && sizeof(size_t) == 8 && sizeof(double) == 8);
HG_LAID_OUT(sizeof(hg_refusal) == 16 && offsetof(hg_refusal, ordinal) == 4 && offsetof(hg_refusal, place) == 8);
HG_LAID_OUT(sizeof(hg_written) == 24 && offsetof(hg_written, length) == 16);
HG_LAID_OUT(sizeof(hg_plane_cell) == 40 && offsetof(hg_plane_cell, level) == 16 && offsetof(hg_plane_cell, west) == 20);
HG_LAID_OUT(offsetof(hg_plane_cell, south) == 24 && offsetof(hg_plane_cell, width) == 28 && offsetof(hg_plane_cell, height) == 32);
HG_LAID_OUT(sizeof(hg_space_cell) == 48 && offsetof(hg_space_cell, level) == 16 && offsetof(hg_space_cell, west) == 20);
HG_LAID_OUT(offsetof(hg_space_cell, south) == 24 && offsetof(hg_space_cell, width) == 28 && offsetof(hg_space_cell, height) == 32);
HG_LAID_OUT(offsetof(hg_space_cell, floor) == 36 && offsetof(hg_space_cell, thickness) == 40);
HG_LAID_OUT(sizeof(hg_units) == 24 && offsetof(hg_units, longitude) == 16 && offsetof(hg_units, latitude) == 20);
HG_LAID_OUT(sizeof(hg_box) == 48 && offsetof(hg_box, west) == 16 && offsetof(hg_box, south) == 24 && offsetof(hg_box, width) == 32);
HG_LAID_OUT(offsetof(hg_box, height) == 40);
HG_LAID_OUT(sizeof(hg_reservation) == 44 && offsetof(hg_reservation, live) == 0 && offsetof(hg_reservation, flight) == 4);
HG_LAID_OUT(offsetof(hg_reservation, level) == 8 && offsetof(hg_reservation, west) == 12 && offsetof(hg_reservation, south) == 16);
HG_LAID_OUT(offsetof(hg_reservation, width) == 20 && offsetof(hg_reservation, height) == 24 && offsetof(hg_reservation, floor) == 28);
HG_LAID_OUT(offsetof(hg_reservation, thickness) == 32 && offsetof(hg_reservation, start) == 36 && offsetof(hg_reservation, end) == 40);
HG_LAID_OUT(sizeof(hg_booked) == 24 && offsetof(hg_booked, at) == 16);
HG_LAID_OUT(sizeof(hg_part) == 40 && offsetof(hg_part, start) == 16 && offsetof(hg_part, name_length) == 24 && offsetof(hg_part, code_length) == 32);
#undef HG_LAID_OUT
#endif

/* Writes the plane code of a level for a position. Refusals, in order: 1, 2, 3, 5.
 * Example: level 8 at (857549557, 294861578) is N50J47539B825534, 16 bytes; level 1 at (1327104000, 0), as at (-1327104000, 0), is N01A. */
hg_written hg_plane_write(int64_t level, int64_t longitude, int64_t latitude, uint8_t *line, size_t length, size_t at);

/* Reads a plane code. Refusals, in order: 6, 7 or 20. West lies from -180 degrees to below 180, and the cell runs eastward from it, past 180 if need
 * be.
 * Example: N31A is level 1, west 0, south 0, width 44236800, height 29491200; N61A is refused, 20 at place 2, and n31A 7 at place 0. */
hg_plane_cell hg_plane_read(const uint8_t *code, size_t length);

/* Writes the space code of an edition and a level for a position and a layer. Refusals, in order: 1, 13, 2, 3, 4, 5.
 * Example: level 4 at (0, 0), layer 1966080, is N031A0000001001 in edition 1 and N031A000000000F in edition 2. */
hg_written hg_space_write(int64_t edition, int64_t level, int64_t longitude, int64_t latitude, int64_t layer, uint8_t *line, size_t length, size_t at);

/* Reads a space code of an edition. Refusals, in order: 13, 6, 7 or 20. The floor is the lower face.
 * Example: N131A63 is N31A's cell with floor -29491200 and thickness 29491200 in edition 1, -33554432 and 33554432 in edition 2. */
hg_space_cell hg_space_read(int64_t edition, const uint8_t *code, size_t length);

/* Writes the reference code that leads from a base code to a target code. Refusals, in order: 6, 7 or 20 of the base; 6, 7 or 20 of the target; 8, 9,
 * 10, 5.
 * Example: from N50J475492E to N50J475493E is N50J475492E-10. */
hg_written hg_reference_write(const uint8_t *base, size_t base_length, const uint8_t *target, size_t target_length, uint8_t *line, size_t length, size_t at);

/* Reads a reference code and writes the plane code of its target. Refusals, in order: 6, 7 or 20, 8, 12, 5.
 * Example: N31A0000000-0A leads to S31A0000000. */
hg_written hg_reference_read(const uint8_t *code, size_t code_length, uint8_t *line, size_t length, size_t at);

/* Arc-seconds to whole units: the greatest unit not above each reading. Refusals, in order: 11, 2, 3. The readings 648000 and 324000, which are 180
 * and 90 degrees, are the greatest of their ranges: any f64 above gets 2 or 3, as does any below -648000 or -324000.
 * Example: (-0.0001, 0.5) is longitude -1, latitude 1024; (648000, 324000) is longitude 1327104000, latitude 663552000, which the writers take. */
hg_units hg_arcseconds(double longitude, double latitude);

/* The box of a plane code in arc-seconds, exactly. Refusals, in order: 6, 7 or 20.
 * Example: N31A is west 0, south 0, width 21600, height 14400. */
hg_box hg_plane_box(const uint8_t *code, size_t length);

/* Adds a reservation to a book: a flight holds a plane code's cell, with every layer of edition 1, -1887436800 to 1887436799, for the minutes from start
 * to end, the end not included. The first record that is not live is used: it becomes this reservation, with live mark 1, and no other byte changes.
 * Refusals, in order: 19, 6, 7 or 20, 14, 15, 16, 17.
 * Example: in a book of two zero records, flight 7 gets N31A from 600 to 660, at 0; then flight 8 and N31A00 from 659 to 700 are refused, 16 at place
 * 0, and from 660 to 700 they get it, at 1. */
hg_booked hg_book_add_plane(const uint8_t *code, size_t code_length, uint32_t flight, uint32_t start, uint32_t end, hg_reservation *book, size_t length);

/* The same for a ground vehicle: it holds the plane code's cell with the layers from the ground up alone, 0 to 1887436799, and leaves those below the
 * ground free. Refusals, in order: 19, 6, 7 or 20, 14, 15, 16, 17.
 * Example: where vehicle 7 holds N31A from 600 to 660 by this call, flight 9 gets the space code N131A63 for these minutes, since its layers, -29491200
 * to -1, are below ground. */
hg_booked hg_book_add_ground(const uint8_t *code, size_t code_length, uint32_t flight, uint32_t start, uint32_t end, hg_reservation *book, size_t length);

/* The same with a space code of edition 1, whose cell has layers of its own. Refusals, in order: 19, 6, 7 or 20, 14, 15, 16, 17.
 * Example: where flight 7 holds N131A63, layers -29491200 to -1, from 600 to 660, flight 9 gets N031A00 for these minutes, layers 0 to 29491199; and N31A
 * by hg_book_add_plane is refused, 16. */
hg_booked hg_book_add_space(const uint8_t *code, size_t code_length, uint32_t flight, uint32_t start, uint32_t end, hg_reservation *book, size_t length);

/* Releases a flight: the live mark of the first live record with its number becomes 0, and no other byte changes. Refusals, in order: 19, 18.
 * Example: where record 0 is flight 7's, releasing 7 answers 0; releasing it again is refused, 18. */
hg_booked hg_book_release(uint32_t flight, hg_reservation *book, size_t length);

/* Looks a name up in a place book: number 0 where an entry has it. Refusals, in order: 21, 22. Any bytes may be asked for: an empty name, one of more
 * than 64 bytes or one with a hyphen is in no book.
 * Example: in the 21 bytes 0 1, 0 6 4 11, and then mastN50J475492E, which are a place book of one entry, `mast` is found; `mas` is refused, 22; and in
 * the first 20 of these bytes any name is refused, 21. */
hg_refusal hg_place_find(const uint8_t *name, size_t name_length, const uint8_t *places, size_t places_length);

/* Where a name's entry stands in a place book: its name and its code, side by side. Refusals, in order: 21, 22.
 * Example: in the book above, `mast` is start 6, name length 4 and code length 11. */
hg_part hg_place_part(const uint8_t *name, size_t name_length, const uint8_t *places, size_t places_length);

/* Reads a short code, which is a place name, a hyphen, M and N, and writes the plane code of its target: what hg_reference_read writes for that
 * place's code in the name's stead. Refusals, in order: 21; 6 where the short code has under four bytes; 7 or 20 of its last three bytes, with the
 * place in the short code; 22, 8, 12, 5.
 * Example: with the book above, mast-10 leads to N50J475493E; mast+10 is refused, 7 at place 4, mast-1H 20 at place 6, and mill-10 22. */
hg_written hg_short_read(const uint8_t *code, size_t code_length, const uint8_t *places, size_t places_length, uint8_t *line, size_t length, size_t at);

#ifdef __cplusplus
}
#endif

#endif
