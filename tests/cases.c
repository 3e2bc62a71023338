/* Document 01's cases P1 to P13, its run cases, the examples of source 000, clause 8.1, and document 02's Wishes 1, 2, 3, 5, 6 and 7, asked of the
 * library as it is linked.
 * Prints each case that comes out otherwise, and last how many there were; fails if there was one.
 */
#include <inttypes.h>
#include <math.h>
#include <stdio.h>
#include <string.h>

#include "hailgully.h"
#include "places.h"

static int asked, wrong;

static void held(int same, const char *what, const char *got) {
    asked++;
    if (!same) {
        wrong++;
        printf("%s: got %s\n", what, got);
    }
}

/* A writer's answer: the code, or "refused number place ordinal". */
static void written(hg_written w, const uint8_t *line, const char *wanted) {
    char got[80];
    if (w.refusal.number != 0)
        snprintf(got, sizeof got, "refused %" PRIu32 " %" PRIu64 " %" PRIu32, w.refusal.number, w.refusal.place, w.refusal.ordinal);
    else
        snprintf(got, sizeof got, "%.*s", (int)w.length, (const char *)line);
    held(strcmp(got, wanted) == 0, wanted, got);
}

static void plane(int64_t level, int64_t longitude, int64_t latitude, const char *wanted) {
    uint8_t line[HG_PLANE_MOST];
    written(hg_plane_write(level, longitude, latitude, line, sizeof line, 0), line, wanted);
}

static void space(int64_t edition, int64_t level, int64_t longitude, int64_t latitude, int64_t layer, const char *wanted) {
    uint8_t line[HG_SPACE_MOST];
    written(hg_space_write(edition, level, longitude, latitude, layer, line, sizeof line, 0), line, wanted);
}

/* A reference code both ways. */
static void reference(const char *base, const char *target, const char *code) {
    uint8_t line[HG_REFERENCE_MOST];
    written(hg_reference_write((const uint8_t *)base, strlen(base), (const uint8_t *)target, strlen(target), line, sizeof line, 0), line, code);
    written(hg_reference_read((const uint8_t *)code, strlen(code), line, sizeof line, 0), line, target);
}

/* A plane code's cell, "level west south width height", or its refusal. */
static void cell(const char *code, const char *wanted) {
    char got[80];
    hg_plane_cell c = hg_plane_read((const uint8_t *)code, strlen(code));
    if (c.refusal.number != 0)
        snprintf(got, sizeof got, "refused %" PRIu32 " %" PRIu64, c.refusal.number, c.refusal.place);
    else
        snprintf(got, sizeof got, "%" PRIu32 " %" PRId32 " %" PRId32 " %" PRIu32 " %" PRIu32, c.level, c.west, c.south, c.width, c.height);
    held(strcmp(got, wanted) == 0, code, got);
}

/* A space code's layers, "floor thickness", or its refusal. */
static void layers(int64_t edition, const char *code, const char *wanted) {
    char got[80];
    hg_space_cell c = hg_space_read(edition, (const uint8_t *)code, strlen(code));
    if (c.refusal.number != 0)
        snprintf(got, sizeof got, "refused %" PRIu32 " %" PRIu64 " %" PRIu32, c.refusal.number, c.refusal.place, c.refusal.ordinal);
    else
        snprintf(got, sizeof got, "%" PRId32 " %" PRIu32, c.floor, c.thickness);
    held(strcmp(got, wanted) == 0, code, got);
}

/* A layer at (0, 0) in an edition, level 10, and back. */
static void layer(int64_t edition, int64_t number, const char *code) {
    char wanted[80];
    space(edition, 10, 0, 0, number, code);
    snprintf(wanted, sizeof wanted, "%" PRId64 " 1", number);
    layers(edition, code, wanted);
}

/* Wish 1: layers cut by bits in edition 2, the ranges of both editions, F, and what names no edition. */
static void editions(void) {
    static const int64_t odd[] = {0, -1, 3, INT64_C(4294967297), INT64_C(4294967298), INT64_MIN, INT64_MAX};
    layer(1, -1, "N131A630070100E00E01007007007007");
    layer(2, -1, "N131A630070100F00F01007007007007");
    layer(1, HG_LAYER_LEAST, "N131A000000000000000000000000000");
    layer(1, HG_LAYER_GREATEST, "N031A630070100E00E01007007007007");
    layer(2, HG_LAYER_LEAST_2, "N131A000000000000000000000000000");
    layer(2, HG_LAYER_GREATEST_2, "N031A630070100F00F01007007007007");
    layer(2, 1887436800, "N031A560020000000000000000000000");
    space(1, 10, 0, 0, 1887436800, "refused 4 0 1");
    space(1, 10, 0, 0, HG_LAYER_LEAST - 1, "refused 4 0 1");
    space(1, 10, 0, 0, HG_LAYER_GREATEST + 1, "refused 4 0 1");
    space(2, 10, 0, 0, HG_LAYER_LEAST_2 - 1, "refused 4 0 1");
    space(2, 10, 0, 0, HG_LAYER_GREATEST_2 + 1, "refused 4 0 1");
    space(2, 4, 0, 0, 1966080, "N031A000000000F");
    space(2, 5, 0, 0, 122880, "N031A000000000000F");
    layers(2, "N031A000000000F", "1966080 131072");
    layers(2, "N031A000000000000F", "122880 8192");
    layers(2, "N131A63", "-33554432 33554432");
    layers(1, "N031A000000000F", "refused 20 14 1");
    layers(1, "N031A000000000000F", "refused 20 17 1");
    layers(2, "N031A000000000G", "refused 20 14 1");
    layers(2, "N031A0000F", "refused 20 9 1");
    for (size_t i = 0; i < sizeof odd / sizeof odd[0]; i++) {
        space(odd[i], 0, 0, 0, 0, "refused 1 0 1");
        space(odd[i], 1, 0, 0, 0, "refused 13 0 1");
        space(odd[i], 1, 1327104001, 663552001, INT64_MAX, "refused 13 0 1");
        layers(odd[i], "N131A63", "refused 13 0 1");
        layers(odd[i], "N131A6", "refused 13 0 1");
        layers(odd[i], "n131A63", "refused 13 0 1");
    }
}

/* A receiver's arc-seconds, as a plane code of level 5. */
static void received(double longitude, double latitude, const char *wanted) {
    hg_units at = hg_arcseconds(longitude, latitude);
    held(at.refusal.number == 0, wanted, "a refusal");
    plane(5, at.longitude, at.latitude, wanted);
}

/* Readings in arc-seconds as units, "longitude latitude", or their refusal. */
static void reading(double longitude, double latitude, const char *wanted) {
    char got[80];
    hg_units at = hg_arcseconds(longitude, latitude);
    if (at.refusal.number != 0)
        snprintf(got, sizeof got, "refused %" PRIu32 " %" PRIu64 " %" PRIu32, at.refusal.number, at.refusal.place, at.refusal.ordinal);
    else
        snprintf(got, sizeof got, "%" PRId32 " %" PRId32, at.longitude, at.latitude);
    held(strcmp(got, wanted) == 0, wanted, got);
}

/* One position as another: the plane code and both editions' space codes, at every level. */
static void same(int64_t longitude, int64_t latitude, int64_t other_longitude, int64_t other_latitude) {
    char what[80];
    for (int64_t level = HG_LEVEL_LEAST; level <= HG_LEVEL_GREATEST; level++) {
        uint8_t one[HG_SPACE_MOST] = {0}, other[HG_SPACE_MOST] = {0};
        snprintf(what, sizeof what, "level %" PRId64 " at %" PRId64 " %" PRId64, level, longitude, latitude);
        hg_written w = hg_plane_write(level, longitude, latitude, one, sizeof one, 0);
        hg_written v = hg_plane_write(level, other_longitude, other_latitude, other, sizeof other, 0);
        held(w.refusal.number == 0 && w.length == v.length && memcmp(one, other, sizeof one) == 0, what, "another plane code");
        for (int64_t edition = 1; edition <= 2; edition++) {
            w = hg_space_write(edition, level, longitude, latitude, -7, one, sizeof one, 0);
            v = hg_space_write(edition, level, other_longitude, other_latitude, -7, other, sizeof other, 0);
            held(w.refusal.number == 0 && w.length == v.length && memcmp(one, other, sizeof one) == 0, what, "another space code");
        }
    }
}

/* Wish 2: 180 degrees is -180, 90 degrees is the unit south of it, both at once are both, and one unit further is refused. Document 01's run case of
 * longitude 1,327,104,000 is replaced by it. A reading just above is refused though its floor is the end. */
static void ends(void) {
    static const int64_t latitudes[] = {0, -1, 294861578, 648806399, 648806400, 656179200, 663551999, -648806401, -663552000};
    static const int64_t longitudes[] = {0, -1, 857549557, 1327103999, -1327104000};
    const double x = 0x1p-33, y = 0x1p-34; /* how far the next f64 is from 648000, and from 324000 */
    for (size_t i = 0; i < sizeof latitudes / sizeof latitudes[0]; i++) {
        same(HG_LONGITUDE_GREATEST, latitudes[i], HG_LONGITUDE_LEAST, latitudes[i]);
        plane(1, HG_LONGITUDE_GREATEST + 1, latitudes[i], "refused 2 0 1");
        plane(1, HG_LONGITUDE_LEAST - 1, latitudes[i], "refused 2 0 1");
    }
    for (size_t i = 0; i < sizeof longitudes / sizeof longitudes[0]; i++) {
        same(longitudes[i], HG_LATITUDE_GREATEST, longitudes[i], 663551999);
        plane(1, longitudes[i], HG_LATITUDE_GREATEST + 1, "refused 3 0 1");
        plane(1, longitudes[i], HG_LATITUDE_LEAST - 1, "refused 3 0 1");
    }
    same(HG_LONGITUDE_GREATEST, HG_LATITUDE_GREATEST, HG_LONGITUDE_LEAST, 663551999);
    plane(1, 1327104000, 0, "N01A");
    plane(2, 1327104000, 0, "N01AB0");
    plane(2, 1327104000, 648806400, "N00021");
    plane(10, 1327104000, 663552000, "N0000000000000000000");
    cell("N01A", "1 -1327104000 0 44236800 29491200");
    plane(0, 1327104001, 663552001, "refused 1 0 1");
    plane(1, 1327104001, 663552001, "refused 2 0 1");
    plane(1, 1327104000, 663552001, "refused 3 0 1");
    space(1, 1, 1327104000, 663552000, HG_LAYER_GREATEST + 1, "refused 4 0 1");
    space(2, 1, 1327104000, 663552001, HG_LAYER_GREATEST_2 + 1, "refused 3 0 1");
    reading(648000.0, 324000.0, "1327104000 663552000");
    reading(648000.0, 0.0, "1327104000 0");
    reading(-0.5, 324000.0, "-1024 663552000");
    reading(-648000.0, -324000.0, "-1327104000 -663552000");
    reading(648000.0 - x, 324000.0 - y, "1327103999 663551999");
    reading(648000.0 + x, 324000.0, "refused 2 0 1");
    reading(648000.0, 324000.0 + y, "refused 3 0 1");
    reading(648000.0 + x, 324000.0 + y, "refused 2 0 1");
    reading(-648000.0 + x, -324000.0 + y, "-1327104000 -663552000");
    reading(-648000.0 - x, -324000.0, "refused 2 0 1");
    reading(-648000.0, -324000.0 - y, "refused 3 0 1");
    reading(NAN, 324000.0, "refused 11 0 1");
}

/* The answer of a call of the book: "at" and the place of the record, or its refusal. */
static void booked(hg_booked b, const char *what, const char *wanted) {
    char got[80];
    if (b.refusal.number == 0)
        snprintf(got, sizeof got, "at %" PRIu64, b.at);
    else
        snprintf(got, sizeof got, "refused %" PRIu32 " %" PRIu64 " %" PRIu32, b.refusal.number, b.refusal.place, b.refusal.ordinal);
    held(strcmp(got, wanted) == 0, what, got);
    held(b.refusal.number == 0 || b.at == 0, what, "a refusal with a record's place");
}

/* A call of the book on the first records of it: a refusal changes nothing, and an answer only the record that it names. */
enum { MOST = 256, RECORDS = MOST + 1 };
static hg_reservation book[RECORDS];
static void changed(const hg_reservation *before, hg_booked b, const char *what) {
    int well = 1;
    for (size_t i = 0; i < RECORDS; i++) {
        int same = memcmp(&before[i], &book[i], sizeof book[i]) == 0;
        well = well && same == (b.refusal.number != 0 || i != b.at);
    }
    held(well, what, "another change of the book");
}

typedef hg_booked adder(const uint8_t *code, size_t code_length, uint32_t flight, uint32_t start, uint32_t end, hg_reservation *book, size_t length);
static void add(adder *call, const char *code, uint32_t flight, uint32_t start, uint32_t end, size_t length, const char *wanted) {
    static hg_reservation before[RECORDS];
    memcpy(before, book, sizeof book);
    hg_booked b = call((const uint8_t *)code, strlen(code), flight, start, end, book, length);
    booked(b, code, wanted);
    changed(before, b, code);
}

static void add_plane(const char *code, uint32_t flight, uint32_t start, uint32_t end, size_t length, const char *wanted) {
    add(hg_book_add_plane, code, flight, start, end, length, wanted);
}

static void add_ground(const char *code, uint32_t flight, uint32_t start, uint32_t end, size_t length, const char *wanted) {
    add(hg_book_add_ground, code, flight, start, end, length, wanted);
}

static void add_space(const char *code, uint32_t flight, uint32_t start, uint32_t end, size_t length, const char *wanted) {
    add(hg_book_add_space, code, flight, start, end, length, wanted);
}

static void release(uint32_t flight, size_t length, const char *wanted) {
    static hg_reservation before[RECORDS];
    memcpy(before, book, sizeof book);
    hg_booked b = hg_book_release(flight, book, length);
    booked(b, "release", wanted);
    changed(before, b, "release");
}

/* The record at a place, all its numbers. */
static void record(size_t at, const char *wanted) {
    char got[160];
    const hg_reservation *r = &book[at];
    int n = snprintf(got, sizeof got, "%" PRIu32 " %" PRIu32 ", %" PRIu32 " %" PRId32 " %" PRId32 " %" PRIu32 " %" PRIu32, r->live, r->flight, r->level,
                     r->west, r->south, r->width, r->height);
    snprintf(got + n, sizeof got - (size_t)n, ", %" PRId32 " %" PRIu32 ", %" PRIu32 " %" PRIu32, r->floor, r->thickness, r->start, r->end);
    held(strcmp(got, wanted) == 0, wanted, got);
}

/* A planner's day, on a book of four records: minutes that touch, cells that touch, conflicts, release, and the record used again. */
static void day(void) {
    memset(book, 0, sizeof book);
    add_plane("N31A", 7, 60, 120, 4, "at 0");
    record(0, "1 7, 1 0 0 44236800 29491200, -1887436800 3774873600, 60 120");
    add_plane("N31A", 8, 120, 121, 4, "at 1"); /* begins when flight 7 ends */
    add_plane("N31A", 9, 0, 60, 4, "at 2");    /* ends when it begins */
    release(9, 4, "at 2");
    record(2, "0 9, 1 0 0 44236800 29491200, -1887436800 3774873600, 0 60");
    add_plane("N31A00", 9, 119, 121, 4, "refused 16 0 1");
    add_plane("N31A00", 9, 120, 121, 4, "refused 16 1 1");
    add_plane("N32A", 9, 60, 121, 4, "at 2"); /* touches in the east */
    add_plane("N31B", 9, 60, 121, 4, "refused 15 0 1");
    add_plane("N31B", 10, 60, 121, 4, "at 3"); /* touches in the north */
    release(10, 4, "at 3");
    add_space("N131A63", 10, 60, 121, 4, "refused 16 0 1"); /* layers -29491200 to -1, which flight 7 has too */
    add_space("N131B63", 10, 60, 121, 4, "at 3");
    record(3, "1 10, 1 0 29491200 44236800 29491200, -29491200 29491200, 60 121");
    add_space("N031A00", 11, 60, 61, 4, "refused 16 0 1");
    add_plane("S31A", 11, 60, 61, 4, "refused 17 0 1");
    release(7, 4, "at 0");
    release(7, 4, "refused 18 0 1");
    add_plane("N31A00", 12, 120, 121, 4, "refused 16 1 1"); /* the first record is not live, and counts */
    add_space("N031A00", 11, 60, 61, 4, "at 0");
    record(0, "1 11, 1 0 0 44236800 29491200, 0 29491200, 60 61");
    add_space("N131B630070100E00E01007007007007", 12, 60, 61, 4, "refused 16 3 1"); /* layer -1 */
}

/* Each refusal of the book, with a call that adds by plane code, where those after it apply too; books of 256 and 257 records; records that name
 * nothing. */
static void refusals(adder *column) {
    memset(book, 0, sizeof book);
    for (uint32_t i = 0; i < RECORDS; i++) {
        book[i].live = i % 2 ? 1 : UINT32_MAX;
        book[i].flight = i;
    }
    add(column, "n31A0", 3, 1, 1, RECORDS, "refused 19 0 1");
    add_space("n31A0", 3, 1, 1, RECORDS, "refused 19 0 1");
    release(3, RECORDS, "refused 19 0 1");
    release(999, RECORDS, "refused 19 0 1");
    add(column, "n31A0", 3, 1, 1, MOST, "refused 6 0 1");
    add_space("n031A0", 3, 1, 1, MOST, "refused 6 0 1");
    add(column, "N00A", 3, 1, 1, MOST, "refused 20 3 1");
    add_space("N031A64", 3, 1, 1, MOST, "refused 20 6 1");
    add_space("N031A000000000F", 3, 1, 1, MOST, "refused 20 14 1"); /* a code of edition 2 */
    add(column, "N31A", 3, 1, 1, MOST, "refused 14 0 1");
    add(column, "N31A", 3, UINT32_MAX, 0, MOST, "refused 14 0 1");
    add(column, "N31A", 3, 1, 2, MOST, "refused 15 0 1");
    add(column, "N31A", 999, 1, 2, MOST, "refused 17 0 1");
    release(999, MOST, "refused 18 0 1");
    release(255, MOST, "at 255");
    add(column, "N31A", 255, 1, 2, MOST, "at 255");
    add(column, "N31A", 999, 1, 2, MOST, "refused 16 255 1"); /* before 17 */
    add(column, "N31A", 255, 1, 2, MOST, "refused 15 0 1");   /* before 16 */
    add(column, "N31A", 999, 1, 2, 0, "refused 17 0 1");
    release(255, 0, "refused 18 0 1");
    book[5].live = book[6].live = 0;
    add(column, "N30A", 999, 1, 2, MOST, "at 5");
    book[9].flight = 7;
    book[7].live = 2;
    release(7, MOST, "at 7");
    release(7, MOST, "at 9");
    release(7, MOST, "refused 18 0 1");
}

/* 180 degrees and the poles: cells that pass 180, a cap against a belt cell; and lent records with numbers that no code has. */
static void globe(void) {
    memset(book, 0, sizeof book);
    add_plane("N00002", 1, 0, 9, 4, "at 0"); /* 89 to 89.5 degrees, from 120 through 180 to 240 */
    add_plane("N00021", 2, 0, 9, 4, "at 1"); /* 88 to 88.5 degrees, from 180 to 240 */
    add_plane("N000", 3, 8, 9, 4, "refused 16 0 1");
    add_plane("N00000", 3, 8, 9, 4, "at 2"); /* the cap touches the disc's other cells, and no belt cell */
    add_plane("N000000", 4, 8, 9, 4, "refused 16 2 1");
    add_plane("N01V", 4, 0, 9, 4, "at 3"); /* up to 88 degrees */
    memset(book, 0, sizeof book);
    add_plane("N01A", 1, 0, 9, 4, "at 0"); /* from 180 eastward */
    add_plane("N60A", 2, 0, 9, 4, "at 1"); /* up to 180 */
    static const struct { int32_t west; uint32_t width; int32_t south; uint32_t height; int32_t floor; uint32_t thickness; const char *wanted; } lent[] = {
        {1327104000, 1, INT32_MIN, UINT32_MAX, -5, UINT32_MAX, "refused 16 0 1"}, /* 180 degrees is -180 */
        {1327103999, 1, INT32_MIN, UINT32_MAX, -5, UINT32_MAX, "at 1"},
        {-1327104001, 1, INT32_MIN, UINT32_MAX, -5, UINT32_MAX, "at 1"},
        {-1327104001, 2, INT32_MIN, UINT32_MAX, -5, UINT32_MAX, "refused 16 0 1"},
        {-1282867200, 2609971200u, INT32_MIN, UINT32_MAX, -5, UINT32_MAX, "at 1"}, /* all but zone 01 */
        {-1282867200, 2609971201u, INT32_MIN, UINT32_MAX, -5, UINT32_MAX, "refused 16 0 1"},
        {0, 2654208000u, INT32_MIN, UINT32_MAX, -5, UINT32_MAX, "refused 16 0 1"}, /* a full turn */
        {0, 2654208001u, INT32_MIN, UINT32_MAX, -5, UINT32_MAX, "refused 16 0 1"}, /* and more */
        {INT32_MAX, UINT32_MAX, INT32_MIN, UINT32_MAX, -5, UINT32_MAX, "refused 16 0 1"},
        {-1327104000, 0, INT32_MIN, UINT32_MAX, -5, UINT32_MAX, "at 1"}, /* a size of 0 */
        {0, UINT32_MAX, 5, 0, -5, UINT32_MAX, "at 1"},
        {0, UINT32_MAX, 5, 1, 5, 0, "at 1"},
        {0, UINT32_MAX, INT32_MIN, 1, 0, 1, "at 1"}, /* far outside the globe */
        {0, UINT32_MAX, 29491200, UINT32_MAX, -5, UINT32_MAX, "at 1"}, /* all that is north of N01A */
        {0, UINT32_MAX, 29491199, UINT32_MAX, -5, UINT32_MAX, "refused 16 0 1"},
    };
    for (size_t i = 0; i < sizeof lent / sizeof lent[0]; i++) {
        memset(book, 0, sizeof book);
        hg_reservation r = {.live = UINT32_MAX, .flight = 9, .level = 77, .west = lent[i].west, .south = lent[i].south, .width = lent[i].width,
                            .height = lent[i].height, .floor = lent[i].floor, .thickness = lent[i].thickness, .end = UINT32_MAX};
        book[0] = r;
        add_plane("N01A", 1, 7, 8, 2, lent[i].wanted);
    }
    book[0].start = 60;
    book[0].end = 50; /* no minute, no conflict */
    add_plane("N01A", 2, 0, 100, 2, "at 1");
}

/* Two codes, one after the other, behind a record of another cell: what the second of them gets; and in the other order. */
static void after(adder *one, const char *first, adder *other, const char *second, const char *wanted) {
    memset(book, 0, sizeof book);
    add_plane("N32A", 1, 60, 120, 4, "at 0");
    add(one, first, 2, 60, 120, 4, "at 1");
    add(other, second, 3, 60, 120, 4, wanted);
}

static void both_orders(adder *one, const char *first, adder *other, const char *second, const char *wanted) {
    after(one, first, other, second, wanted);
    after(other, second, one, first, wanted);
}

/* What a call gets beside a live record over the whole globe with these layers. */
static void beside(uint32_t live, int32_t floor, uint32_t thickness, adder *call, const char *code, const char *wanted) {
    hg_reservation r = {.live = live, .flight = 9, .level = 1, .south = INT32_MIN, .width = UINT32_MAX, .height = UINT32_MAX, .floor = floor,
                        .thickness = thickness, .end = UINT32_MAX};
    memset(book, 0, sizeof book);
    book[1] = r;
    add(call, code, 2, 60, 120, 2, wanted);
}

/* Wish 7: a plane code holds every layer of edition 1, and in the ground call those from 0 up; records that were live before stay as they are. */
static void columns(void) {
    static const char *const over[] = {
        "N131A00", /* the lowest layers of edition 1, those just below ground, just above it, and the highest */
        "N131A63",
        "N031A00",
        "N031A63",
        "N131A000000000000000000000000000", /* layers -1887436800, -1, 0 and 1887436799 */
        "N131A630070100E00E01007007007007",
        "N031A000000000000000000000000000",
        "N031A630070100E00E01007007007007",
    };
    static const uint32_t marks[] = {1, 2, 0x80000000u, UINT32_MAX};
    for (size_t i = 0; i < sizeof over / sizeof over[0]; i++) {
        int below = over[i][1] == '1';
        both_orders(hg_book_add_plane, "N31A", hg_book_add_space, over[i], "refused 16 1 1");
        both_orders(hg_book_add_plane, "N31B", hg_book_add_space, over[i], "at 2"); /* touches in the north */
        both_orders(hg_book_add_ground, "N31A", hg_book_add_space, over[i], below ? "at 2" : "refused 16 1 1");
        for (size_t j = 0; j < sizeof marks / sizeof marks[0]; j++)
            beside(marks[j], 0, 1887436800, hg_book_add_space, over[i], below ? "at 0" : "refused 16 1 1"); /* live before the wish */
    }
    for (size_t j = 0; j < sizeof marks / sizeof marks[0]; j++) {
        beside(marks[j], 0, 1887436800, hg_book_add_plane, "N31A", "refused 16 1 1");
        beside(marks[j], 0, 1887436800, hg_book_add_ground, "N31A", "refused 16 1 1");
    }
    both_orders(hg_book_add_plane, "N31A", hg_book_add_plane, "N31A00", "refused 16 1 1");
    both_orders(hg_book_add_plane, "N31A", hg_book_add_ground, "N31A00", "refused 16 1 1");
    both_orders(hg_book_add_ground, "N31A", hg_book_add_plane, "N31A00", "refused 16 1 1");
    both_orders(hg_book_add_ground, "N31A", hg_book_add_ground, "N31A00", "refused 16 1 1");
    after(hg_book_add_plane, "N30A", hg_book_add_ground, "N31A", "at 2");
    record(1, "1 2, 1 -44236800 0 44236800 29491200, -1887436800 3774873600, 60 120");
    record(2, "1 3, 1 0 0 44236800 29491200, 0 1887436800, 60 120");
    static const struct { int32_t floor; uint32_t thickness; const char *whole, *from_ground; } lent[] = {
        {INT32_MIN, 260046848u, "at 0", "at 0"}, /* up to layer -1887436801 */
        {INT32_MIN, 260046849u, "refused 16 1 1", "at 0"},
        {INT32_MIN, 2147483648u, "refused 16 1 1", "at 0"}, /* up to layer -1 */
        {INT32_MIN, 2147483649u, "refused 16 1 1", "refused 16 1 1"},
        {INT32_MIN, UINT32_MAX, "refused 16 1 1", "refused 16 1 1"},
        {-1887436801, 1, "at 0", "at 0"},
        {-1887436800, 0, "at 0", "at 0"},
        {-1887436800, 1, "refused 16 1 1", "at 0"},
        {-1887436800, 3774873600u, "refused 16 1 1", "refused 16 1 1"},
        {-1, 1, "refused 16 1 1", "at 0"},
        {-1, UINT32_MAX, "refused 16 1 1", "refused 16 1 1"}, /* ends past 32 bits with a sign */
        {1887436799, 1, "refused 16 1 1", "refused 16 1 1"},
        {1887436799, UINT32_MAX, "refused 16 1 1", "refused 16 1 1"}, /* ends past 32 bits */
        {1887436800, 1, "at 0", "at 0"},
        {1887436800, 520093697u, "at 0", "at 0"},  /* would end at layer -1887436800 in 32 bits */
        {1887436800, 2407530497u, "at 0", "at 0"}, /* at layer 0 */
        {1887436800, UINT32_MAX, "at 0", "at 0"},
        {INT32_MAX, UINT32_MAX, "at 0", "at 0"},
    };
    for (size_t i = 0; i < sizeof lent / sizeof lent[0]; i++) {
        beside(1, lent[i].floor, lent[i].thickness, hg_book_add_plane, "N31A", lent[i].whole);
        beside(1, lent[i].floor, lent[i].thickness, hg_book_add_ground, "N31A", lent[i].from_ground);
    }
}

/* The refusal of a plane code, "refused number place", and of its box. */
static void bad(const char *code, const char *wanted) {
    char got[80];
    hg_refusal r = hg_plane_box((const uint8_t *)code, strlen(code)).refusal;
    snprintf(got, sizeof got, "refused %" PRIu32 " %" PRIu64, r.number, r.place);
    held(strcmp(got, wanted) == 0 && r.ordinal == 1, code, got);
    cell(code, wanted);
}

/* A reference code that is read, and one that is written. */
static void led(const char *code, const char *wanted) {
    uint8_t line[HG_REFERENCE_MOST];
    written(hg_reference_read((const uint8_t *)code, strlen(code), line, sizeof line, 0), line, wanted);
}

static void related(const char *base, const char *target, const char *wanted) {
    uint8_t line[HG_REFERENCE_MOST];
    written(hg_reference_write((const uint8_t *)base, strlen(base), (const uint8_t *)target, strlen(target), line, sizeof line, 0), line, wanted);
}

/* Wish 5: 7 is a garbled character and 20 a misplaced one, and the first bad one decides, in every call that reads a code. */
static void kinds(void) {
    held(HG_GARBLED == 7 && HG_MISPLACED == 20, "HG_GARBLED and HG_MISPLACED", "other numbers");
    for (int byte = 1; byte < 256; byte++) {
        int counts = (byte >= '0' && byte <= '9') || (byte >= 'A' && byte <= 'V');
        char first[] = "N60A", third[] = "N60A";
        first[0] = third[2] = (char)byte;
        if (byte != 'N' && byte != 'S') bad(first, counts ? "refused 20 0" : "refused 7 0");
        if (byte != '0') bad(third, counts ? "refused 20 2" : "refused 7 2");
    }
    bad("N00A", "refused 20 3");
    bad("n31A", "refused 7 0");
    bad("N31W", "refused 7 3");
    bad("N31-", "refused 7 3");
    bad("N7?A", "refused 20 1");
    bad("N?7A", "refused 7 1");
    bad("NV-A", "refused 20 1");
    bad("N-VA", "refused 7 1");
    bad("N00000010", "refused 20 8"); /* row 0 of a cap with another column */
    bad("S0000000000v", "refused 7 11");
    bad("N7?A0", "refused 6 0");
    for (int64_t edition = 1; edition <= 2; edition++) {
        layers(edition, "N031A64", "refused 20 6 1");
        layers(edition, "N031A6-", "refused 7 6 1");
        layers(edition, "NV-1A00", "refused 20 1 1"); /* the sign, and a plane character after it */
        layers(edition, "N-V1A00", "refused 7 1 1");
        layers(edition, "N0V1A?0", "refused 20 2 1"); /* a plane character, and a height after it */
        layers(edition, "N0?1AV0", "refused 7 2 1");
        layers(edition, "N0?1AV", "refused 6 0 1");
    }
    layers(3, "N0?1AV0", "refused 13 0 1");
    led("N31A0000000V10", "refused 20 11 1"); /* in place of the hyphen */
    led("N31A0000000+10", "refused 7 11 1");
    led("N31A0000000--0", "refused 7 12 1");
    led("N31A0000000-80", "refused 20 12 1");
    led("N31A0000000-8?", "refused 20 12 1");
    led("N31A0000000-?8", "refused 7 12 1");
    led("N31A0000000-1H", "refused 20 13 1");
    led("N31A000000--10", "refused 7 10 1");
    led("N31A000000V-?0", "refused 20 10 1");
    led("N31A-1V", "refused 20 6 1"); /* before 8 */
    led("N31A-10", "refused 8 0 1");
    related("N00A", "n31A", "refused 20 3 1"); /* the base first */
    related("n31A", "N00A", "refused 7 0 1");
    related("N31A", "N00A", "refused 20 3 2");
    related("N31A", "N31-", "refused 7 3 2");
    related("N31A", "NV?A", "refused 20 1 2");
    related("N31A", "", "refused 6 0 2");
    memset(book, 0, sizeof book);
    add_plane("N61A", 3, 1, 1, MOST, "refused 20 2 1"); /* before 14 */
    add_plane("N6-A", 3, 1, 1, MOST, "refused 7 2 1");
    add_ground("N61A", 3, 1, 1, MOST, "refused 20 2 1");
    add_ground("N6-A", 3, 1, 1, MOST, "refused 7 2 1");
    add_space("N031AV-", 3, 1, 1, MOST, "refused 20 5 1");
    add_space("N031A-V", 3, 1, 1, MOST, "refused 7 5 1");
    add_plane("N61A", 3, 1, 1, RECORDS, "refused 19 0 1");
}

/* A place book as it is lent, with room for one that is too long. */
static uint8_t places[HG_PLACES_BYTES + 65];
static size_t places_length;

/* A name looked up by both calls: "start name_length code_length", or their refusal. Nothing of the book changes. */
static void sought(const void *name, size_t name_length, const char *what, const char *wanted) {
    static uint8_t before[sizeof places];
    char got[80];
    memcpy(before, places, sizeof places);
    hg_refusal f = hg_place_find(name, name_length, places, places_length);
    hg_part p = hg_place_part(name, name_length, places, places_length);
    if (p.refusal.number != 0)
        snprintf(got, sizeof got, "refused %" PRIu32 " %" PRIu64 " %" PRIu32, p.refusal.number, p.refusal.place, p.refusal.ordinal);
    else
        snprintf(got, sizeof got, "%" PRIu64 " %" PRIu64 " %" PRIu64, p.start, p.name_length, p.code_length);
    held(strcmp(got, wanted) == 0, what, got);
    held(f.number == p.refusal.number && f.place == p.refusal.place && f.ordinal == p.refusal.ordinal, what, "another refusal in finding");
    held(p.refusal.number == 0 || (p.start == 0 && p.name_length == 0 && p.code_length == 0), what, "a refusal with a part");
    held(p.refusal.number != 0 || (f.ordinal == 0 && memcmp(places + p.start, name, name_length) == 0), what, "another part");
    held(memcmp(before, places, sizeof places) == 0, what, "a change of the place book");
}

static void seek(const char *name, const char *wanted) { sought(name, strlen(name), name, wanted); }

/* A short code, with room for so many bytes; no other byte changes, and with a refusal none. */
static void shortly(const char *code, size_t room, const char *wanted) {
    uint8_t line[HG_PLANE_MOST + 2];
    int same = 1;
    memset(line, '.', sizeof line);
    hg_written w = hg_short_read((const uint8_t *)code, strlen(code), places, places_length, line, room + 1, 1);
    written(w, line + 1, wanted);
    held(w.refusal.number == 0 || w.length == 0, code, "a refusal with a length");
    for (size_t i = 0; i < sizeof line; i++) same = same && (line[i] == '.' || (i > 0 && i <= w.length));
    held(same, code, "another change of the line");
}

/* Every call on a place book that is badly formed, whatever it is asked. */
static void badly_formed(const char *bytes, size_t length) {
    static const char *const name[] = {"a", "b", "mast", "", "-"}, *const code[] = {"a-10", "mast-10", "-10", "a+10", ""};
    memcpy(places, bytes, places_length = length);
    for (size_t i = 0; i < sizeof name / sizeof name[0]; i++) {
        seek(name[i], "refused 21 0 1");
        shortly(code[i], 0, "refused 21 0 1");
    }
}

static void lend_places(const place *list, size_t count) { places_length = make_places(places, list, count); }

/* Whether a place book of one or two entries is well formed. */
static void formed(const place *list, size_t count, const char *wanted) {
    lend_places(list, count);
    sought(list[0].name, list[0].name_length, list[0].code, wanted);
}

/* Wish 6: the header's examples, every cut of its book, and names that are in no book. */
static void names(void) {
    static const char mast[] = "\0\1\0\6\4\13mastN50J475492E";
    char longest[HG_NAME_MOST + 1];
    memset(longest, 'm', sizeof longest);
    for (size_t length = 0; length < 21; length++) badly_formed(mast, length);
    badly_formed(mast, 22);
    memcpy(places, mast, places_length = 21);
    seek("mast", "6 4 11");
    seek("mas", "refused 22 0 1");
    seek("masts", "refused 22 0 1");
    seek("Mast", "refused 22 0 1");
    seek("", "refused 22 0 1");
    seek("mast-", "refused 22 0 1");
    sought("mast", 5, "mast and a zero byte", "refused 22 0 1");
    sought(longest, sizeof longest, "65 bytes", "refused 22 0 1");
    shortly("mast-10", 11, "N50J475493E");
    shortly("mast+10", 11, "refused 7 4 1");
    shortly("mast-1H", 11, "refused 20 6 1");
    shortly("mill-10", 11, "refused 22 0 1");
    memcpy(places, "\0\0", places_length = 2);
    seek("mast", "refused 22 0 1");
    shortly("mast-10", 0, "refused 22 0 1");
}

/* Each refusal of a short code where those after it apply too. */
static void short_codes(void) {
    static const place list[] = {{"edge", 4, "N31V075A9EE"}, {"mast", 4, "N50J475492E"}, {"pole", 4, "N0000000000"}, {"wide", 4, "N31A"}};
    lend_places(list, 4);
    seek("edge", "18 4 11");
    seek("wide", "63 4 4");
    shortly("edge-0A", 11, "N31V075A9ED");
    shortly("-1?", 0, "refused 6 0 1");
    shortly("", 0, "refused 6 0 1");
    shortly("milV?0", 0, "refused 20 3 1");
    shortly("mill-?8", 0, "refused 7 5 1");
    shortly("wide-8?", 0, "refused 20 5 1"); /* before 8 */
    shortly("m-st-01", 0, "refused 22 0 1"); /* a hyphen in the name is looked up */
    shortly("--01", 0, "refused 22 0 1");
    shortly("N50J475492E-10", 0, "refused 22 0 1"); /* a reference code is no name */
    shortly("wide-01", 0, "refused 8 0 1");
    shortly("pole-01", 0, "refused 8 0 1");
    shortly("edge-01", 0, "refused 12 0 1");
    shortly("mast-10", 10, "refused 5 0 1");
}

/* What a place book asks of its names, codes and bodies. */
static void forms(void) {
    char name[256];
    memset(name, 'n', sizeof name);
    formed((place[]){{name, 64, "N31A"}}, 1, "6 64 4");
    formed((place[]){{name, 65, "N31A"}}, 1, "refused 21 0 1");
    formed((place[]){{name, 0, "N31A"}}, 1, "refused 21 0 1");
    formed((place[]){{"\0", 1, "N31A"}}, 1, "6 1 4");
    formed((place[]){{"\377", 1, "S00033"}}, 1, "6 1 6");
    formed((place[]){{"a-b", 3, "N31A"}}, 1, "refused 21 0 1");
    formed((place[]){{"a", 1, ""}}, 1, "refused 21 0 1");
    formed((place[]){{"a", 1, "N31A0"}}, 1, "refused 21 0 1");
    formed((place[]){{"a", 1, "n31A"}}, 1, "refused 21 0 1");
    formed((place[]){{"a", 1, "N61A"}}, 1, "refused 21 0 1");
    formed((place[]){{"a", 1, "N31A"}, {"a\0", 2, "N000"}}, 2, "10 1 4");
    formed((place[]){{"a\0", 2, "N31A"}, {"a", 1, "N000"}}, 2, "refused 21 0 1");
    formed((place[]){{"a", 1, "N31A"}, {"a", 1, "N31A"}}, 2, "refused 21 0 1");
    formed((place[]){{"10", 2, "N31A"}, {"9", 1, "N31A"}}, 2, "10 2 4"); /* by bytes, and not by length */
    formed((place[]){{"B", 1, "N31A"}, {"a", 1, "N31A"}}, 2, "10 1 4");
    formed((place[]){{"z", 1, "N31A"}, {"\200", 1, "N31A"}}, 2, "10 1 4"); /* bytes have no sign */
    badly_formed("\0\2\0\13\1\4\0\20\1\4.aN31AbN32A", 21); /* a gap before the first body, between both, and behind */
    badly_formed("\0\2\0\12\1\4\0\20\1\4aN31A.bN32A", 21);
    badly_formed("\0\2\0\12\1\4\0\17\1\4aN31AbN32A.", 21);
    badly_formed("\0\2\0\17\1\4\0\12\1\4bN32AaN31A", 20); /* in the other order */
    badly_formed("\0\2\0\12\1\4\0\16\1\4!N31AN32A", 19);   /* on one byte, A */
    badly_formed("\0\2\0\0\1\4\0\5\1\4aN31AbN32A", 20);    /* offsets from the bodies' start */
    badly_formed("\2\0\12\0\1\4\17\0\1\4aN31AbN32A", 20);  /* the lower byte first */
}

/* A book of so many entries in so many bytes, asked for its last name and for an absent one. */
static void filled(size_t count, size_t bytes, int good) {
    char wanted[80];
    place last = fill_places(places, count, places_length = bytes);
    snprintf(wanted, sizeof wanted, "%zu %zu 4", bytes - 4 - last.name_length, last.name_length);
    sought(last.name, last.name_length, "a long place book", good ? wanted : "refused 21 0 1");
    sought("absent", 6, "a long place book", good ? "refused 22 0 1" : "refused 21 0 1");
}

static void limits(void) {
    filled(HG_PLACES_MOST, 30000, 1);
    filled(HG_PLACES_MOST + 1, 30000, 0);
    filled(HG_PLACES_MOST, HG_PLACES_BYTES, 1);
    filled(HG_PLACES_MOST, HG_PLACES_BYTES + 1, 0);
}

int main(void) {
    plane(10, 0, 0, "N31A0000000000000000");                        /* P1 */
    plane(10, -1, 0, "N30A0000000000000000");                       /* P2 */
    plane(10, 0, -1, "S31A0000000000000000");                       /* P3 */
    plane(8, 857549557, 294861578, "N50J47539B825534");             /* P4 */
    plane(2, -44236800, 0, "N30AB0");                               /* P5 */
    plane(2, -44236801, 0, "N29A00");                               /* P6 */
    plane(1, 0, 648806399, "N31V");                                 /* P7 */
    plane(1, 0, 648806400, "N000");
    plane(1, 0, -648806400, "S31V");
    plane(1, 0, -648806401, "S000");
    plane(2, -1, 648806400, "N00030");                              /* P8 */
    plane(2, 884736000, 648806400, "N00020");
    plane(2, -1327104000, 648806400, "N00021");
    plane(3, 0, 656179200, "N000012");                              /* P9 */
    plane(3, 0, 659865600, "N000001");
    plane(10, -1, 663551999, "N0000000000000000000");               /* P10 */
    cell("N36J93078B3101524314", "10 255316321 277488284 1 1");     /* P11 */
    space(1, 10, 255316321, 277488284, 0, "N036J0093000780B3010010520430140");
    layers(1, "N036J0093000780B3010010520430140", "0 1");
    space(1, 1, 0, 0, -1, "N131A63");                               /* P12 */
    space(1, 4, 0, 0, 1843199, "N031A000000000E");
    reference("N50J475492E", "N50J475493E", "N50J475492E-10");      /* P13 */
    reference("N31A0000000", "S31A0000000", "N31A0000000-0A");
    reference("N30A0000000", "N31A0000000", "N30A0000000-10");
    received(418754.3184, 143996.1444, "N50J475493E");              /* 000, 8.1 */
    received(418745.9808, 143999.7012, "N50J475491E");
    received(418749.3540, 143996.5260, "N50J475492E");
    reference("N50J475491E", "N50J475493E", "N50J475491E-20");
    reference("N50J475491E", "N50J475492E", "N50J475491E-10");
    reference("N50J475493E", "N50J475491E", "N50J475493E-B0");
    reference("N50J475493E", "N50J475492E", "N50J475493E-A0");
    cell("N00A", "refused 20 3");                                   /* run, with the numbers of Wish 5 */
    cell("N61A", "refused 20 2");
    cell("", "refused 6 0");
    cell("n31A", "refused 7 0");
    cell("N31A", "1 0 0 44236800 29491200");
    editions();
    ends();
    day();
    refusals(hg_book_add_plane);
    refusals(hg_book_add_ground);
    globe();
    columns();
    kinds();
    names();
    short_codes();
    forms();
    limits();
    printf("%d cases, %d otherwise\n", asked, wrong);
    return wrong != 0;
}
