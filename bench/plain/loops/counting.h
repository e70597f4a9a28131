// On how many columns each two fragments conflict: the rules, the cells, and the counts.
#ifndef COUNTING_H
#define COUNTING_H
#include "counts.h"

static outcome conflict_counts(size_t n, const uint8_t *table, size_t length, uint8_t *counts) {
    outcome rest = table_fault(n, table, length);
    if (rest.number != 0) return rest;
    size_t m = rest.value;
    uint8_t cells[MATRIX];
    fill_cells(table, m, MOST, cells);
    fill_counts(m, n, cells, counts);
    return accepted(m);
}
#endif
