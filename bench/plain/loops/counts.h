// On how many columns two fragments conflict, by loops over their cells.
#ifndef COUNTS_H
#define COUNTS_H
#include "phasing.h"

static uint8_t conflicts(size_t n, const uint8_t *row, const uint8_t *other) {
    uint8_t count = 0;
    for (size_t c = 0; c < n; c++) count += conflict(row[c], other[c]);
    return count;
}

// The counts of all pairs in rows of m: half of them are computed, and the other half is the same.
static void fill_counts(size_t m, size_t n, const uint8_t *cells, uint8_t *counts) {
    for (size_t i = 0; i < m; i++) {
        counts[i * m + i] = 0;
        for (size_t j = i + 1; j < m; j++) {
            uint8_t count = conflicts(n, cells + i * MOST, cells + j * MOST);
            counts[i * m + j] = count;
            counts[j * m + i] = count;
        }
    }
}
#endif
