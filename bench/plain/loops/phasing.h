// First lawful sides, blocks and the answer's bytes, by loops over the cells of two fragments.
#ifndef PHASING_H
#define PHASING_H
#include "components.h"

static inline bool conflict(uint8_t x, uint8_t y) { return (x == A && y == B) || (x == B && y == A); }

static bool kept_conflict(size_t n, const uint8_t *row, const uint8_t *other, const uint8_t *cols) {
    for (size_t c = 0; c < n; c++)
        if (cols[c] && conflict(row[c], other[c])) return true;
    return false;
}

// The pairs of kept fragments that conflict on a kept column.
static void fill_pairs(size_t m, size_t n, const uint8_t *cells, const uint8_t *cols, const uint8_t *kept, uint8_t *pairs) {
    memset(pairs, 0, MATRIX);
    for (size_t i = 0; i < m; i++)
        for (size_t j = i + 1; j < m; j++)
            if (kept[i] && kept[j] && kept_conflict(n, cells + i * MOST, cells + j * MOST, cols)) {
                pairs[i * MOST + j] = 1;
                pairs[j * MOST + i] = 1;
            }
}

// The answer of sides that are known, with their blocks.
static void fill_answer(size_t m, size_t n, const uint8_t *cells, const uint8_t *cols, const uint8_t *sides, uint8_t *answer) {
    uint8_t pairs[MATRIX], spare[MOST], blocks[MOST];
    fill_pairs(m, n, cells, cols, sides, pairs);
    components(m, pairs, sides, spare, blocks);
    fill_parts(m, n, cells, cols, sides, blocks, answer);
}

// Whether the kept fragments are error-free on the kept columns; on a yes the answer is written.
static bool phase(size_t m, size_t n, const uint8_t *cells, const uint8_t *cols, const uint8_t *kept, uint8_t *answer) {
    uint8_t pairs[MATRIX], sides[MOST], blocks[MOST];
    fill_pairs(m, n, cells, cols, kept, pairs);
    if (!components(m, pairs, kept, sides, blocks)) return false;
    fill_parts(m, n, cells, cols, sides, blocks, answer);
    return true;
}
#endif
