/* Place books for the C tests, good or not: of names and codes as they are given, and of so many entries and bytes. */
#include <stddef.h>
#include <stdint.h>
#include <string.h>

typedef struct { const void *name; size_t name_length; const char *code; } place;

/* Writes the book, and hands back its length. */
static size_t make_places(uint8_t *book, const place *list, size_t count) {
    size_t start = 2 + 4 * count;
    book[0] = (uint8_t)(count >> 8);
    book[1] = (uint8_t)count;
    for (size_t i = 0; i < count; i++) {
        size_t name = list[i].name_length, code = strlen(list[i].code);
        uint8_t entry[] = {(uint8_t)(start >> 8), (uint8_t)start, (uint8_t)name, (uint8_t)code};
        memcpy(book + 2 + 4 * i, entry, sizeof entry);
        memcpy(book + start, list[i].name, name);
        memcpy(book + start + name, list[i].code, code);
        start += name + code;
    }
    return start;
}

/* Writes a book of so many entries in so many bytes, and hands back its last entry. Behind that name stand a hyphen, M and N. */
static place fill_places(uint8_t *book, size_t count, size_t bytes) {
    static place list[1001];
    static char name[1001][64 + 3];
    size_t left = bytes - 2;
    for (size_t i = 0; i < count; i++) {
        size_t length = left / (count - i) - 8;
        left -= length + 8;
        memset(name[i], 'n', length);
        name[i][0] = (char)('@' + i / 32);
        name[i][1] = (char)('@' + i % 32);
        memcpy(name[i] + length, "-1A", 3);
        list[i] = (place){name[i], length, "N000"};
    }
    make_places(book, list, count);
    return list[count - 1];
}
