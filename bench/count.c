/* One row of the held counts: makes the row's inputs, then calls the library on some of them, so that counts.sh can count from outside.
 *
 *     count --names            the rows, a line each, with how many inputs each has
 *     count ROW CALLS          makes ROW's inputs, makes CALLS calls (at most as many), and prints the stack that they used
 *
 * The calls run on a stack of their own that was painted before: what is no longer painted was used. The inputs are the same on every machine.
 */
#include <stdio.h>
#include <stdlib.h>
#include <string.h>
#include <ucontext.h>

#include "../tests/dice.h"
#include "hailgully.h"

enum { MANY = 256, SOME = 16, STACK = 1 << 16, PAINT = 0xA5 };

typedef struct {
    int64_t edition, level, longitude, latitude, layer;
    uint8_t code[40], target[40];
    size_t length, target_length;
    double x, y;
    uint32_t start, end;
} input;

static input inputs[MANY];

static void need(int good, const char *what) {
    if (good) return;
    fprintf(stderr, "count: %s\n", what);
    exit(2);
}

/* ---- inputs: a position on the globe, below 88 degrees or from there on, and the code that it gets */

static void place(input *i, int64_t level, int polar) {
    int64_t latitude = polar ? between(648806400, 663551999) : between(0, 648806399);
    i->edition = 1;
    i->level = level;
    i->longitude = between(-1327104000, 1327103999);
    i->latitude = dice() % 2 ? latitude : -1 - latitude;
    i->layer = between(-1887436800, 1887436799);
    i->x = (double)i->longitude / 2048.0 + (double)(dice() % 1024) / 4194304.0;
    i->y = (double)i->latitude / 2048.0 + (double)(dice() % 1024) / 4194304.0;
}

static void plane_code(input *i) {
    hg_written w = hg_plane_write(i->level, i->longitude, i->latitude, i->code, sizeof i->code, 0);
    need(w.refusal.number == 0, "a plane code was refused");
    i->length = w.length;
}

static void space_code(input *i) {
    hg_written w = hg_space_write(i->edition, i->level, i->longitude, i->latitude, i->layer, i->code, sizeof i->code, 0);
    need(w.refusal.number == 0, "a space code was refused");
    i->length = w.length;
}

/* the same square in edition 2, with one of its layers */
static void space_code_2(input *i) {
    i->edition = 2;
    i->layer = between(HG_LAYER_LEAST_2, HG_LAYER_GREATEST_2);
    space_code(i);
}

/* a reference code of levels 5 to 10 with offsets of up to 7 cells, and its target; from 87 degrees on a target may be polar, so below it */
static void reference_code(input *i) {
    place(i, between(5, 10), 0);
    i->latitude = between(-641433600, 641433599);
    plane_code(i);
    memcpy(i->code + i->length, (uint8_t[]){'-', "01234567ABCDEFG"[dice() % 15], "01234567ABCDEFG"[dice() % 15]}, 3);
    i->length += 3;
    hg_written w = hg_reference_read(i->code, i->length, i->target, sizeof i->target, 0);
    need(w.refusal.number == 0, "a reference code was refused");
    i->target_length = w.length;
}

static void plane_10(input *i) { place(i, 10, 0), plane_code(i); }
static void plane_5(input *i) { place(i, 5, 0), plane_code(i); }
static void plane_1(input *i) { place(i, 1, 0), plane_code(i); }
static void polar_10(input *i) { place(i, 10, 1), plane_code(i); }
static void space_10(input *i) { place(i, 10, 0), space_code(i); }
static void space_5(input *i) { place(i, 5, 0), space_code(i); }
static void space_1(input *i) { place(i, 1, 0), space_code(i); }
static void polar_space_10(input *i) { place(i, 10, 1), space_code(i); }
static void space_2_10(input *i) { place(i, 10, 0), space_code_2(i); }
static void space_2_5(input *i) { place(i, 5, 0), space_code_2(i); }

/* ---- the book: 256 records of flights 0 to 255 near a tower, all live but the last; what is asked for conflicts with none of them */

enum { LAST = HG_BOOK_MOST - 1, TOWER_EAST = 857549557, TOWER_NORTH = 294861578, NEAR = 61440, DEGREE = HG_DEGREE, DAY = 1440 };
/* what a record does not share with what is asked: any minute; any longitude, though all else; something */
typedef enum { MINUTES, LONGITUDES, SOMETHING } apart;

static hg_reservation book[HG_BOOK_MOST];

static void some_minutes(uint32_t *start, uint32_t *end, int64_t least, int64_t greatest) {
    *start = (uint32_t)between(least, greatest - 15);
    *end = (uint32_t)between(*start + 15, *start + 180 < greatest ? *start + 180 : greatest);
}

static hg_reservation record(uint32_t flight, apart kind) {
    uint32_t level = (uint32_t)between(6, 8), size = UINT32_C(4096) >> 3 * (level - 6);
    hg_reservation r = {.live = 1, .flight = flight, .level = level, .west = TOWER_EAST, .south = TOWER_NORTH, .width = size, .height = size,
                        .floor = HG_LAYER_LEAST, .thickness = HG_LAYER_GREATEST - HG_LAYER_LEAST + 1, .end = DAY};
    r.west += (int32_t)(kind == LONGITUDES ? between(-DEGREE, DEGREE) : between(-NEAR, NEAR));
    r.south -= (int32_t)(kind == LONGITUDES ? size / 2 : between(-NEAR, NEAR));
    if (kind != LONGITUDES) some_minutes(&r.start, &r.end, kind == MINUTES ? DAY / 2 : 0, DAY);
    if (kind == SOMETHING && dice() % 2) r.floor = (int32_t)between(0, 8191), r.thickness = size;
    return r;
}

static hg_booked add_plane(const input *i) { return hg_book_add_plane(i->code, i->length, HG_BOOK_MOST, i->start, i->end, book, HG_BOOK_MOST); }
static hg_booked add_ground(const input *i) { return hg_book_add_ground(i->code, i->length, HG_BOOK_MOST, i->start, i->end, book, HG_BOOK_MOST); }
static hg_booked add_space(const input *i) { return hg_book_add_space(i->code, i->length, HG_BOOK_MOST, i->start, i->end, book, HG_BOOK_MOST); }

/* the book, with a row's first input, and what is asked of it */
static void ask(input *i, apart kind, void (*code)(input *), hg_booked (*add)(const input *)) {
    if (i == inputs)
        for (uint32_t n = 0; n < HG_BOOK_MOST; n++) book[n] = record(n, kind);
    uint32_t number = 1;
    for (int tries = 0; number != 0 && tries < 1000; tries++) {
        book[LAST].live = 0;
        place(i, 10, 0);
        i->longitude = TOWER_EAST + (kind == LONGITUDES ? between(-DEGREE, DEGREE) : between(-NEAR, NEAR));
        i->latitude = TOWER_NORTH + (kind == LONGITUDES ? 0 : between(-NEAR, NEAR));
        i->layer = between(0, 8191);
        some_minutes(&i->start, &i->end, 0, kind == MINUTES ? DAY / 2 : DAY);
        code(i);
        number = add(i).refusal.number;
    }
    need(number == 0, "nothing that is asked can be added");
    book[LAST].live = 0;
}

static void ask_minutes(input *i) { ask(i, MINUTES, plane_code, add_plane); }
static void ask_longitudes(input *i) { ask(i, LONGITUDES, plane_code, add_plane); }
static void ask_mixed(input *i) { ask(i, SOMETHING, plane_code, add_plane); }
static void ask_mixed_ground(input *i) { ask(i, SOMETHING, plane_code, add_ground); }
static void ask_mixed_space(input *i) { ask(i, SOMETHING, space_code, add_space); }
static void ask_release(input *i) { ask_mixed(i), book[LAST] = record(LAST, SOMETHING); }

/* ---- the place book: masts with codes of levels 5 to 10, whose names rise with their numbers; a row's inputs are short codes by names of it */

enum { NAME = 9, TEN = 10, BODY = NAME + HG_PLANE_MOST };

static uint8_t places[2 + (4 + BODY) * HG_PLACES_MOST];
static size_t places_length;

static void mast(uint8_t *name, int64_t number) {
    need(snprintf((char *)name, NAME + 1, "mast %04d", (int)number) == NAME, "a name");
}

static void make_places(size_t count) {
    size_t end = 2 + 4 * count;
    places[0] = (uint8_t)(count / 256), places[1] = (uint8_t)(count % 256);
    for (size_t n = 0; n < count; n++) {
        input i;
        place(&i, between(5, 10), 0), plane_code(&i);
        memcpy(places + 2 + 4 * n, (uint8_t[]){(uint8_t)(end / 256), (uint8_t)(end % 256), NAME, (uint8_t)i.length}, 4);
        mast(places + end, (int64_t)(9 * n) + between(0, 8));
        memcpy(places + end + NAME, i.code, i.length);
        end += NAME + i.length;
    }
    places_length = end;
}

/* the book, with a row's first input, and a short code */
static void short_code(input *i, size_t count) {
    if (i == inputs) make_places(count);
    const uint8_t *entry = places + 2 + 4 * (dice() % count);
    memcpy(i->code, places + 256 * entry[0] + entry[1], NAME);
    memcpy(i->code + NAME, (uint8_t[]){'-', "01234567ABCDEFG"[dice() % 15], "01234567ABCDEFG"[dice() % 15]}, 3);
    i->length = NAME + 3;
}

static void short_1000(input *i) { short_code(i, HG_PLACES_MOST); }
static void short_10(input *i) { short_code(i, TEN); }

/* ---- calls; each notes where the stack stands before it */

static char *before;
static volatile uint32_t seen;
#define NOTE() __asm__ volatile("mov %%rsp, %0" : "=r"(before)::"memory")

static void plane_write(input *i) { NOTE(); seen += hg_plane_write(i->level, i->longitude, i->latitude, i->target, sizeof i->target, 0).refusal.number; }
static void plane_read(input *i) { NOTE(); seen += hg_plane_read(i->code, i->length).refusal.number; }
static void plane_box(input *i) { NOTE(); seen += hg_plane_box(i->code, i->length).refusal.number; }
static void space_read(input *i) { NOTE(); seen += hg_space_read(i->edition, i->code, i->length).refusal.number; }
static void arcseconds(input *i) { NOTE(); seen += hg_arcseconds(i->x, i->y).refusal.number; }

static void space_write(input *i) {
    NOTE();
    seen += hg_space_write(i->edition, i->level, i->longitude, i->latitude, i->layer, i->target, sizeof i->target, 0).refusal.number;
}

static void reference_write(input *i) {
    uint8_t line[40];
    NOTE();
    seen += hg_reference_write(i->code, i->length - 3, i->target, i->target_length, line, sizeof line, 0).refusal.number;
}

static void reference_read(input *i) {
    uint8_t line[40];
    NOTE();
    seen += hg_reference_read(i->code, i->length, line, sizeof line, 0).refusal.number;
}

static void book_add_plane(input *i) {
    NOTE();
    seen += hg_book_add_plane(i->code, i->length, HG_BOOK_MOST, i->start, i->end, book, HG_BOOK_MOST).refusal.number;
    book[LAST].live = 0;
}

static void book_add_ground(input *i) {
    NOTE();
    seen += hg_book_add_ground(i->code, i->length, HG_BOOK_MOST, i->start, i->end, book, HG_BOOK_MOST).refusal.number;
    book[LAST].live = 0;
}

static void book_add_space(input *i) {
    NOTE();
    seen += hg_book_add_space(i->code, i->length, HG_BOOK_MOST, i->start, i->end, book, HG_BOOK_MOST).refusal.number;
    book[LAST].live = 0;
}

static void book_release(input *i) {
    (void)i;
    NOTE();
    seen += hg_book_release(LAST, book, HG_BOOK_MOST).refusal.number;
    book[LAST].live = 1;
}

static void place_find(input *i) {
    NOTE();
    seen += hg_place_find(i->code, i->length - 3, places, places_length).number;
}

static void place_part(input *i) {
    NOTE();
    seen += hg_place_part(i->code, i->length - 3, places, places_length).refusal.number;
}

static void short_read(input *i) {
    uint8_t line[40];
    NOTE();
    seen += hg_short_read(i->code, i->length, places, places_length, line, sizeof line, 0).refusal.number;
}

static const struct {
    const char *name;
    void (*make)(input *);
    void (*call)(input *);
    int inputs;
} rows[] = {
    {"plane write, level 10", plane_10, plane_write, MANY},
    {"plane write, level 5", plane_5, plane_write, MANY},
    {"plane write, level 1", plane_1, plane_write, MANY},
    {"plane read, level 10", plane_10, plane_read, MANY},
    {"plane read, level 5", plane_5, plane_read, MANY},
    {"plane read, level 1", plane_1, plane_read, MANY},
    {"polar plane write, level 10", polar_10, plane_write, MANY},
    {"polar plane read, level 10", polar_10, plane_read, MANY},
    {"plane box, level 10", plane_10, plane_box, MANY},
    {"space write, level 10", space_10, space_write, MANY},
    {"space write, level 5", space_5, space_write, MANY},
    {"space write, level 1", space_1, space_write, MANY},
    {"space read, level 10", space_10, space_read, MANY},
    {"space read, level 5", space_5, space_read, MANY},
    {"space read, level 1", space_1, space_read, MANY},
    {"polar space write, level 10", polar_space_10, space_write, MANY},
    {"polar space read, level 10", polar_space_10, space_read, MANY},
    {"space write, edition 2, level 10", space_2_10, space_write, MANY},
    {"space write, edition 2, level 5", space_2_5, space_write, MANY},
    {"space read, edition 2, level 10", space_2_10, space_read, MANY},
    {"space read, edition 2, level 5", space_2_5, space_read, MANY},
    {"reference write, levels 5 to 10", reference_code, reference_write, MANY},
    {"reference read, levels 5 to 10", reference_code, reference_read, MANY},
    {"arcseconds", plane_10, arcseconds, MANY},
    {"book add, minutes apart", ask_minutes, book_add_plane, SOME},
    {"book add, longitudes apart", ask_longitudes, book_add_plane, SOME},
    {"book add, mixed", ask_mixed, book_add_plane, SOME},
    {"book add, ground, mixed", ask_mixed_ground, book_add_ground, SOME},
    {"book add, space code, mixed", ask_mixed_space, book_add_space, SOME},
    {"book release, the last", ask_release, book_release, SOME},
    {"place find, 1000 names", short_1000, place_find, SOME},
    {"place find, 10 names", short_10, place_find, SOME},
    {"place part, 10 names", short_10, place_part, SOME},
    {"short read, 1000 names", short_1000, short_read, SOME},
    {"short read, 10 names", short_10, short_read, SOME},
};
enum { ROWS = sizeof rows / sizeof rows[0] };

static char stack[STACK];
static ucontext_t here, there;
static int row, calls;

static void make_calls(void) {
    for (int i = 0; i < calls; i++) rows[row].call(&inputs[i]);
}

int main(int words, char **word) {
    if (words == 2 && strcmp(word[1], "--names") == 0) {
        for (row = 0; row < ROWS; row++) printf("%s\t%d\n", rows[row].name, rows[row].inputs);
        return 0;
    }
    need(words == 3, "a row and a number of calls");
    while (row < ROWS && strcmp(rows[row].name, word[1]) != 0) row++;
    calls = atoi(word[2]);
    need(row < ROWS && 0 <= calls && calls <= rows[row].inputs, "no such row, or too many calls");
    for (int i = 0; i < rows[row].inputs; i++) rows[row].make(&inputs[i]);
    memset(stack, PAINT, STACK);
    need(getcontext(&there) == 0, "getcontext");
    there.uc_stack.ss_sp = stack;
    there.uc_stack.ss_size = STACK;
    there.uc_link = &here;
    makecontext(&there, make_calls, 0);
    need(swapcontext(&here, &there) == 0, "swapcontext");
    need(seen == 0, "a call was refused");
    char *used = stack;
    while (used < stack + STACK && *used == (char)PAINT) used++;
    printf("%ld\n", calls > 0 ? (long)(before - used) : 0L);
    return 0;
}
