/* A worked example: the cell that a flight over a tower holds, and its neighbour, from a receiver's arc-seconds; the book of what flights hold; a
 * survey at the pole and at 180 degrees; an altimeter's code; a place name and an offset that a crew says; and codes that were heard wrong. Each is
 * a function that tells whether it went well.
 *
 *     cc -I ../target/hailgully plan.c ../target/hailgully/libhailgully.a -o plan && ./plan
 */
#include <stdbool.h>
#include <stdio.h>

#include "hailgully.h"

/* What the flights ask for: a position, its space code and its plane code. */
typedef struct {
    hg_units at;
    uint8_t space[HG_SPACE_MOST], plane[HG_PLANE_MOST];
    size_t space_length, plane_length;
} tower;

static bool refused(const char *what, hg_refusal r) {
    if (r.number == 0) return false;
    printf("%s: refused %u at %llu of code %u\n", what, (unsigned)r.number, (unsigned long long)r.place, (unsigned)r.ordinal);
    return true;
}

/* The receiver prints arc-seconds; the library works in units of 1/2048 arc-second, rounded down. The codes are of level 6 (2 seconds), the space code
 * of edition 1 and at layer 1,000. */
static bool position_and_codes(tower *t) {
    t->at = hg_arcseconds(418725.3, 143975.3);
    if (refused("position", t->at.refusal)) return false;
    printf("position %d %d\n", (int)t->at.longitude, (int)t->at.latitude);

    hg_written s = hg_space_write(1, 6, t->at.longitude, t->at.latitude, 1000, t->space, sizeof t->space, 0);
    hg_written p = hg_plane_write(6, t->at.longitude, t->at.latitude, t->plane, sizeof t->plane, 0);
    if (refused("space code", s.refusal) || refused("plane code", p.refusal)) return false;
    t->space_length = s.length;
    t->plane_length = p.length;
    return true;
}

/* A line that says which cell is held: the code is written behind the words, and read there. */
static bool held_cell(const tower *t) {
    uint8_t line[64] = "held: ";
    hg_written w = hg_space_write(1, 6, t->at.longitude, t->at.latitude, 1000, line, sizeof line, 6);
    if (refused("line", w.refusal)) return false;
    printf("%.*s\n", (int)(6 + w.length), (const char *)line);

    hg_space_cell cell = hg_space_read(1, line + 6, w.length);
    if (refused("space cell", cell.refusal)) return false;
    printf("level %u from %d %d, %u by %u units, layers %d to %lld\n", (unsigned)cell.level, (int)cell.west, (int)cell.south,
           (unsigned)cell.width, (unsigned)cell.height, (int)cell.floor, (long long)cell.floor + cell.thickness - 1);
    return true;
}

/* The plane cell one to the east, by a reference code. */
static bool neighbour(const tower *t) {
    uint8_t east[HG_PLANE_MOST], reference[HG_REFERENCE_MOST];
    hg_plane_cell cell = hg_plane_read(t->plane, t->plane_length);
    if (refused("plane cell", cell.refusal)) return false;
    hg_written e = hg_plane_write(6, (int64_t)t->at.longitude + cell.width, t->at.latitude, east, sizeof east, 0);
    if (refused("east", e.refusal)) return false;
    hg_written r = hg_reference_write(t->plane, t->plane_length, east, e.length, reference, sizeof reference, 0);
    if (refused("reference", r.refusal)) return false;
    printf("neighbour %.*s\n", (int)r.length, (const char *)reference);
    return true;
}

/* The scheduler's book, in which nothing is live at first. Flight 7 holds the space cell, the minutes 600 to 659. Flight 8 asks for all layers there: the
 * board shows who holds them, and flight 8 gets them after that. Then flight 7 has landed. */
static bool two_flights(const tower *t, hg_reservation *book) {
    hg_booked seven = hg_book_add_space(t->space, t->space_length, 7, 600, 660, book, HG_BOOK_MOST);
    if (refused("flight 7", seven.refusal)) return false;
    hg_booked eight = hg_book_add_plane(t->plane, t->plane_length, 8, 630, 690, book, HG_BOOK_MOST);
    if (eight.refusal.number == HG_CONFLICT) {
        const hg_reservation *held = &book[eight.refusal.place];
        printf("flight 8: refused, flight %u holds it until %u\n", (unsigned)held->flight, (unsigned)held->end);
        eight = hg_book_add_plane(t->plane, t->plane_length, 8, held->end, held->end + 60, book, HG_BOOK_MOST);
    }
    if (refused("flight 8", eight.refusal)) return false;
    const hg_reservation *got = &book[eight.at];
    printf("flight 8: record %llu, from %u to %u\n", (unsigned long long)eight.at, (unsigned)got->start, (unsigned)got->end);
    hg_booked landed = hg_book_release(7, book, HG_BOOK_MOST);
    if (refused("release", landed.refusal)) return false;
    printf("flight 7: record %llu released\n", (unsigned long long)landed.at);
    return true;
}

/* Flight 8 has the layers below ground too: flight 9 cannot slip under it in the valley. The ground vehicle 10 comes after flight 8 and holds the layers
 * from the ground up alone: flight 9 gets those below it. */
static bool below_ground(const tower *t, hg_reservation *book) {
    uint8_t below[HG_SPACE_MOST];
    hg_written w = hg_space_write(1, 6, t->at.longitude, t->at.latitude, -1000, below, sizeof below, 0);
    if (refused("below ground", w.refusal)) return false;
    hg_booked nine = hg_book_add_space(below, w.length, 9, 660, 720, book, HG_BOOK_MOST);
    if (nine.refusal.number == HG_CONFLICT) printf("flight 9: refused, flight %u holds every layer\n", (unsigned)book[nine.refusal.place].flight);
    hg_booked ten = hg_book_add_ground(t->plane, t->plane_length, 10, 720, 780, book, HG_BOOK_MOST);
    if (refused("vehicle 10", ten.refusal)) return false;
    nine = hg_book_add_space(below, w.length, 9, 720, 780, book, HG_BOOK_MOST);
    if (refused("flight 9", nine.refusal)) return false;
    const hg_reservation *under = &book[nine.at];
    printf("flight 9: under vehicle 10, layers %d to %lld\n", (int)under->floor, (long long)under->floor + under->thickness - 1);
    return true;
}

/* A polar survey's receiver prints 180 degrees east, 648,000 arc-seconds, and at the pole 90 degrees north. 180 is -180: a cell begins there. */
static bool polar_survey(void) {
    const double north[] = {302400.5, 324000.0};
    for (int i = 0; i < 2; i++) {
        uint8_t code[HG_PLANE_MOST];
        hg_units there = hg_arcseconds(648000.0, north[i]);
        if (refused("survey", there.refusal)) return false;
        hg_written w = hg_plane_write(6, there.longitude, there.latitude, code, sizeof code, 0);
        if (refused("survey's code", w.refusal)) return false;
        printf("survey %d %d: %.*s, west %d\n", (int)there.longitude, (int)there.latitude, (int)w.length, (const char *)code,
               (int)hg_plane_read(code, w.length).west);
    }
    return true;
}

/* An altimeter that cuts layers by bits sends codes of edition 2. In edition 1 this one is refused at its F; others are read as other layers. */
static bool altimeter(void) {
    const uint8_t *sent = (const uint8_t *)"N050J0047050390B8F";
    hg_space_cell theirs = hg_space_read(2, sent, 18), ours = hg_space_read(1, sent, 18);
    if (refused("altimeter", theirs.refusal)) return false;
    printf("altimeter: layers %d to %lld\n", (int)theirs.floor, (long long)theirs.floor + theirs.thickness - 1);
    return refused("in edition 1", ours.refusal);
}

/* A crew says where it is by a place name and an offset. The place book has one entry: its body begins at byte 6, with a name of 4 bytes and a code of
 * 11. Another crew says a name that the book lacks. */
static bool place_names(void) {
    const uint8_t places[] = "\0\1" "\0\6\4\13" "mastN50J475492E", *said = (const uint8_t *)"mast-10", *other = (const uint8_t *)"mill";
    const size_t length = sizeof places - 1; /* without the zero byte that ends the text */
    hg_part mast = hg_place_part(said, 4, places, length);
    if (refused("mast", mast.refusal)) return false;
    const uint64_t code = mast.start + mast.name_length;
    printf("mast: %.*s, at byte %llu of the place book\n", (int)mast.code_length, (const char *)places + code, (unsigned long long)code);

    uint8_t led[HG_PLANE_MOST];
    hg_written w = hg_short_read(said, 7, places, length, led, sizeof led, 0);
    if (refused("mast-10", w.refusal)) return false;
    printf("mast-10: %.*s\n", (int)w.length, (const char *)led);
    if (hg_place_find(other, 4, places, length).number == HG_NOT_IN_BOOK) printf("mill: not in the place book\n");
    return true;
}

/* Codes that were heard wrong by radio: the board shows which character, and whether it is garbled or stands in the wrong place. */
static bool heard_wrong(void) {
    const char *heard[] = {"N61A", "N31-"};
    for (int i = 0; i < 2; i++) {
        hg_refusal bad = hg_plane_read((const uint8_t *)heard[i], 4).refusal;
        if (bad.number == HG_GARBLED) printf("%s: character %llu is garbled\n", heard[i], (unsigned long long)bad.place);
        if (bad.number == HG_MISPLACED) printf("%s: character %llu is misplaced\n", heard[i], (unsigned long long)bad.place);
    }
    return true;
}

int main(void) {
    static hg_reservation book[HG_BOOK_MOST];
    tower t;
    bool well = position_and_codes(&t) && held_cell(&t) && neighbour(&t) && two_flights(&t, book) && below_ground(&t, book);
    return well && polar_survey() && altimeter() && place_names() && heard_wrong() ? 0 : 1;
}
