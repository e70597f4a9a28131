// On how many columns each two fragments conflict, by their lines: half of the counts are computed, and the other half is the same.
#ifndef COUNTING_H
#define COUNTING_H
#include "rules.h"

static inline uint8_t conflicts(const line *x, const line *y) { return __builtin_popcountll(unlike(x, y, 0)) + __builtin_popcountll(unlike(x, y, 1)); }

static outcome conflict_counts(size_t n, const uint8_t *table, size_t length, uint8_t *restrict counts) {
    outcome rest = rules_fault(n, table, length, false);
    if (rest.number != 0) return rest;
    size_t m = rest.value;
    line lines[MOST];
    fill_lines(table, m, lines);
    for (size_t i = 0; i < m; i++) {
        counts[i * m + i] = 0;
        for (size_t j = i + 1; j < m; j++) counts[i * m + j] = counts[j * m + i] = conflicts(lines + i, lines + j);
    }
    return accepted(m);
}
#endif
