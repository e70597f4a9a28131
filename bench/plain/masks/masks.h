// The letters of a table as bits, from the bytes of its records: two fragments, and two columns, are compared by a few operations on words.
#ifndef MASKS_H
#define MASKS_H
#include "records.h"

enum { HALF = 64 };

// Where a line has A, and where it has B: a record at its cells, a fragment at the columns, a column in the fragments.
// Of 128 places, in two words, the first is the lowest bit.
typedef struct {
    uint64_t a[2], b[2];
} line;

// The two words as one, to be shifted.
typedef unsigned __int128 places;
static inline places joined(const uint64_t *words) { return (places)words[1] << HALF | words[0]; }

// By the half of a byte, two cells: the bits for A, and 16 times those for B.
static const uint8_t TWOS[16] = {0, 1, 16, 17, 2, 3, 18, 19, 32, 33, 48, 49, 34, 35, 50, 51};

// The letters of some bytes of cells, four to a byte: a half of a line. A code's low bit is for A, and its high bit for B.
static inline void fill_half(const uint8_t *bytes, size_t count, line *x, size_t h) {
    uint64_t a = 0, b = 0;
    for (size_t j = count; j-- > 0;) {
        uint64_t four = TWOS[bytes[j] % 16] + 4 * TWOS[bytes[j] / 16];
        a = a << 4 | four % 16;
        b = b << 4 | four / 16;
    }
    x->a[h] = a;
    x->b[h] = b;
}

static inline line letters_of(const uint8_t *record) {
    line x;
    fill_half(record + 8, 16, &x, 0);
    fill_half(record + 24, 8, &x, 1);
    return x;
}

static void fill_lines(const uint8_t *table, size_t m, line *lines) {
    for (size_t i = 0; i < m; i++) {
        line x = letters_of(table + RECORD * i);
        size_t start = start_of(table + RECORD * i);
        places a = joined(x.a) << start, b = joined(x.b) << start;
        lines[i] = (line){{a, a >> HALF}, {b, b >> HALF}};
    }
}

// Where one line has A and the other B, in a half.
static inline uint64_t unlike(const line *x, const line *y, size_t h) { return (x->a[h] & y->b[h]) | (x->b[h] & y->a[h]); }
#endif
