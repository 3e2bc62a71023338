/* Every call on lines, codes, names and books that are lent at exactly their size, each between two pages that nobody may touch: against the page behind
 * it or against the page before it, in turn. What is lent for reading lies in pages that nobody may write, and so does a book that is too long. A call
 * that reads or writes outside what it was lent, or writes into a code, ends the program. Codes are also lent 256 and 65536 bytes longer, and are all
 * to be refused; place books are also cut at every length.
 *
 *     cc -I ../target/hailgully bounds.c ../target/hailgully/libhailgully.a -o bounds && ./bounds
 *
 * Prints how many calls were made, how many of them were refused, added or released something, found a name, or accepted what is too long or cut.
 * With the word 'outside', 'code' or 'book' it makes that fault itself, and must not come to its end.
 */
#define _DEFAULT_SOURCE
#include <stdio.h>
#include <stdlib.h>
#include <string.h>
#include <sys/mman.h>
#include <unistd.h>

#include "dice.h"
#include "hailgully.h"
#include "places.h"

static unsigned long calls, refused, accepted, booked, found;
static void count(hg_refusal r) {
    calls++;
    refused += r.number != 0;
}

/* Pages for what is lent: two codes, a book and a place book for reading, a line, and a book; each has room for the longest that is lent. */
enum { CODE, TARGET, LONG_BOOK, PLACES, LINE, BOOK, ARENAS };
enum { ROOM = 1 << 17 };
static uint8_t *pages[ARENAS];

static void need(int good, const char *what) {
    if (good) return;
    perror(what);
    exit(2);
}

static void set_up(void) {
    size_t page = (size_t)sysconf(_SC_PAGESIZE);
    need(ROOM % page == 0, "the machine's pages are too large");
    for (int i = 0; i < ARENAS; i++) {
        uint8_t *p = mmap(NULL, ROOM + 2 * page, PROT_NONE, MAP_PRIVATE | MAP_ANONYMOUS, -1, 0);
        need(p != MAP_FAILED, "mmap");
        pages[i] = p + page;
    }
}

/* n bytes at an edge of their pages, filled with what is given or with dots; what is lent for reading may then only be read. */
static uint8_t *lend(int arena, const uint8_t *bytes, size_t n) {
    uint8_t *b = dice() % 2 ? pages[arena] + ROOM - n : pages[arena];
    need(mprotect(pages[arena], ROOM, PROT_READ | PROT_WRITE) == 0, "mprotect");
    memset(b, '.', n);
    if (bytes) memcpy(b, bytes, n);
    if (arena < LINE) need(mprotect(pages[arena], ROOM, PROT_READ) == 0, "mprotect");
    return b;
}

/* A book of so many records, some of them live; most name nothing, so that something is added often. */
static hg_reservation *lend_book(int arena, size_t n) {
    static hg_reservation records[300];
    for (size_t i = 0; i < n; i++) {
        hg_reservation *r = &records[i];
        for (size_t at = 0; at < sizeof *r; at += 4) {
            uint32_t any = (uint32_t)dice();
            memcpy((uint8_t *)r + at, &any, 4);
        }
        r->live %= 3;
        r->flight %= 300;
        if (dice() % 8) r->height = 0;
    }
    return (hg_reservation *)(void *)lend(arena, (const uint8_t *)records, n * sizeof records[0]);
}

/* How long a book is: mostly short, or about as long as it may be. */
static size_t book_length(void) { return (size_t)(dice() % 8 ? between(0, 4) : between(255, 256)); }

/* Each adding call with a code, on a book of its own; one book in sixteen is too long. */
static void adders(const uint8_t *c, size_t n) {
    static hg_booked (*const add[])(const uint8_t *, size_t, uint32_t, uint32_t, uint32_t, hg_reservation *, size_t) = {
        hg_book_add_plane, hg_book_add_ground, hg_book_add_space};
    for (size_t i = 0; i < sizeof add / sizeof add[0]; i++) {
        uint32_t flight = (uint32_t)between(0, 400), start = (uint32_t)between(0, 5), end = (uint32_t)between(0, 50);
        int too_long = dice() % 16 == 0;
        size_t length = too_long ? (size_t)between(257, 300) : book_length();
        hg_reservation *book = lend_book(too_long ? LONG_BOOK : BOOK, length);
        hg_booked b = add[i](c, n, flight, start, end, book, length);
        count(b.refusal);
        booked += b.refusal.number == 0;
    }
}

static void releaser(void) {
    int too_long = dice() % 16 == 0;
    size_t length = too_long ? (size_t)between(257, 300) : book_length();
    hg_reservation *book = lend_book(too_long ? LONG_BOOK : BOOK, length);
    uint32_t flight = dice() % 2 && length ? book[dice() % length].flight : (uint32_t)between(0, 300);
    hg_booked b = hg_book_release(flight, book, length);
    count(b.refusal);
    booked += b.refusal.number == 0;
}

/* All calls of a place book that lies in its pages, with a code that lies in its own, as a name and as a short code; and the name that is found as it
 * stands in the book. */
static void lookers(const uint8_t *c, size_t n, const uint8_t *places, size_t length) {
    size_t room = (size_t)between(0, 24);
    uint8_t *line = lend(LINE, NULL, room);
    hg_part p = hg_place_part(c, n, places, length);
    hg_written w = hg_short_read(c, n, places, length, line, room, (size_t)between(0, 6));
    count(hg_place_find(c, n, places, length));
    count(p.refusal);
    count(w.refusal);
    found += (p.refusal.number == 0) + (w.refusal.number == 0);
    accepted += p.start + p.name_length + p.code_length > length;
    if (p.refusal.number == 0) count(hg_place_find(places + p.start, p.name_length, places, length));
}

/* A place book that has a code's first bytes, without its last three and with them, as names, if it may have them; one in four is then damaged, cut or
 * longer. */
static void places_about(const uint8_t *c, size_t n) {
    static const char *const codes[] = {"N50J475492E", "N31A", "S000", "N36J93078B3101524314", "N31V075A9EE", "S30A00000000"};
    static uint8_t book[256];
    place list[3] = {{"!", 1, codes[dice() % 6]}};
    size_t entries = 1;
    for (size_t name = n < 4 ? n : n - 3; name > 0 && name <= n && name <= HG_NAME_MOST; name += 3)
        if (!memchr(c, '-', name)) list[entries++] = (place){c, name, codes[dice() % 6]};
    size_t length = make_places(book, list, entries);
    switch (dice() % 16) {
    case 0: book[dice() % length] = (uint8_t)dice(); break;
    case 1: book[dice() % (2 + 4 * entries)]++; break;
    case 2: length = dice() % length; break;
    case 3: length++; break;
    }
    lookers(c, n, lend(PLACES, book, length), length);
}

static void readers(const uint8_t *code, size_t n) {
    uint8_t *c = lend(CODE, code, n);
    count(hg_plane_read(c, n).refusal);
    for (int64_t edition = 1; edition <= 3; edition++) count(hg_space_read(edition, c, n).refusal);
    count(hg_plane_box(c, n).refusal);
    adders(c, n);
    places_about(c, n);
    size_t room = (size_t)between(0, 24);
    uint8_t *line = lend(LINE, NULL, room);
    count(hg_reference_read(c, n, line, room, (size_t)between(0, 26)).refusal);
    uint8_t *t = lend(TARGET, code, n);
    count(hg_reference_write(c, n, t, n, line, room, (size_t)between(0, 26)).refusal);
}

/* The code longer by a number that would be lost in a cut to 8 or 16 bits. All are to be refused. */
static void longer(const uint8_t *code, size_t n) {
    static uint8_t long_code[65536 + 64];
    unsigned long before = calls - refused;
    memcpy(long_code, code, n);
    readers(long_code, 256 + n);
    readers(long_code, 65536 + n);
    accepted += calls - refused - before;
}

static void writers(int64_t edition, int64_t level, int64_t longitude, int64_t latitude, int64_t layer) {
    uint8_t code[64];
    memset(code, '0', sizeof code);
    hg_written w = hg_space_write(edition, level, longitude, latitude, layer, code, sizeof code, 0);
    count(w.refusal);
    if (w.refusal.number == 0) {
        readers(code, w.length);
        code[dice() % w.length] = (uint8_t)dice();
        readers(code, w.length);
    }
    w = hg_plane_write(level, longitude, latitude, code, sizeof code, 0);
    count(w.refusal);
    if (w.refusal.number == 0) {
        memcpy(code + w.length, "-1A", 3);
        readers(code, w.length);
        readers(code, w.length + 3);
        readers(code, (size_t)between(0, 40));
        if (dice() % 16 == 0) longer(code, w.length);
    }
    for (size_t room = 0; room <= 33; room += 1 + dice() % 5) {
        uint8_t *line = lend(LINE, NULL, room);
        size_t at = dice() % 8 ? (size_t)between(0, 34) : SIZE_MAX - (size_t)between(0, 40);
        count(hg_plane_write(level, longitude, latitude, line, room, at).refusal);
        count(hg_space_write(edition, level, longitude, latitude, layer, line, room, at).refusal);
    }
}

/* The first n bytes of a place book, asked for its last name, which has a hyphen, M and N behind it: a bad book finds nothing. */
static void cut(const uint8_t *book, size_t n, const place *last, int good) {
    unsigned long before = found;
    const uint8_t *places = lend(PLACES, book, n);
    lookers(lend(CODE, last->name, last->name_length), last->name_length, places, n);
    lookers(lend(CODE, last->name, last->name_length + 3), last->name_length + 3, places, n);
    if (!good) accepted += found - before;
}

/* A place book of so many entries in so many bytes, whole and cut at every length, a long one at some. */
static void cuts(size_t entries, size_t bytes) {
    static uint8_t book[ROOM];
    place last = fill_places(book, entries, bytes);
    for (size_t n = 0; n < bytes; n += bytes > 1000 ? 997 : 1) cut(book, n, &last, 0);
    cut(book, bytes - 1, &last, 0);
    cut(book, bytes, &last, entries <= HG_PLACES_MOST && bytes <= HG_PLACES_BYTES);
}

/* A number of a range, or one past it; often an end, or one past it. */
static int64_t about(int64_t least, int64_t greatest) {
    switch (dice() % 8) {
    case 0: return between(least - 1, least);
    case 1: return between(greatest, greatest + 1);
    default: return between(least - 1, greatest + 1);
    }
}

int main(int words, char **word) {
    set_up();
    static uint8_t cut[ROOM]; /* a code of level 1 whose last character lies outside: a reader has to look at it, the three before it being right */
    memcpy(cut + ROOM - 3, "N31", 3);
    if (words > 1 && strcmp(word[1], "outside") == 0) hg_plane_read(lend(CODE, cut, ROOM) + ROOM - 3, 4);
    if (words > 1 && strcmp(word[1], "code") == 0) hg_plane_write(1, 0, 0, lend(CODE, NULL, 4), 4, 0);
    static const hg_reservation live = {.live = 1};
    if (words > 1 && strcmp(word[1], "book") == 0)
        hg_book_release(0, (hg_reservation *)(void *)lend(LONG_BOOK, (const uint8_t *)&live, sizeof live), 1);
    for (int i = 0; i < 2000; i++) {
        int polar = dice() % 3 == 0;
        int64_t latitude = polar ? between(648806400, 663551999) : about(HG_LATITUDE_LEAST, HG_LATITUDE_GREATEST);
        if (dice() % 2) latitude = -1 - latitude;
        int64_t edition = dice() % 8 ? between(1, 2) : between(-1, 4);
        int64_t longitude = about(HG_LONGITUDE_LEAST, HG_LONGITUDE_GREATEST);
        writers(edition, between(0, 11), longitude, latitude, between(HG_LAYER_LEAST_2 - 1, HG_LAYER_GREATEST_2 + 1));
        count(hg_arcseconds((double)longitude / 2048.0, (double)latitude / 2048.0).refusal);
        count(hg_arcseconds((double)between(-1400000000, 1400000000) / 2048.0, (double)between(-700000000, 700000000) / 2048.0).refusal);
        releaser();
    }
    cuts(3, 40);
    cuts(20, 500);
    cuts(1000, 65535);
    cuts(1000, 65536);
    cuts(1001, 30000);
    printf("%lu calls, %lu refused, %lu added or released, %lu found, %lu accepted what is too long or cut\n", calls, refused, booked, found, accepted);
    return calls > 10000 && refused > 1000 && booked > 1000 && found > 1000 && accepted == 0 ? 0 : 1;
}
