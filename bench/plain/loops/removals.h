// Check, the least SNP removal and the least fragment removal: the rules, the cells, what goes, and the answer of the rest.
#ifndef REMOVALS_H
#define REMOVALS_H
#include "fragments.h"
#include "phasing.h"
#include "snps.h"

// The rules of a table for S and F, whose programmes need gapless records.
static outcome gapless_fault(size_t n, const uint8_t *table, size_t length) {
    outcome sizes = size_fault(n, length);
    return sizes.number != 0 ? sizes : records_fault(n, table, sizes.value, true);
}

static outcome check(size_t n, const uint8_t *table, size_t length, uint8_t *answer) {
    outcome rest = table_fault(n, table, length);
    if (rest.number != 0) return rest;
    size_t m = rest.value;
    uint8_t cells[MATRIX], kept[MOST];
    memset(kept, 1, MOST);
    fill_cells(table, m, MOST, cells);
    return accepted(phase(m, n, cells, kept, kept, answer) ? 0 : 1);
}

static outcome least_snp_removal(size_t n, const uint8_t *table, size_t length, uint16_t *work, size_t work_length, uint8_t *answer) {
    outcome rest = gapless_fault(n, table, length);
    if (rest.number != 0) return rest;
    size_t m = rest.value;
    uint8_t cells[MATRIX], cols[MOST], kept[MOST];
    memset(kept, 1, MOST);
    fill_cells(table, m, MOST, cells);
    size_t count = snp_keep_marks(m, n, cells, cols);
    phase(m, n, cells, cols, kept, answer);
    memset(work, 0, work_length * sizeof *work);
    return accepted(count);
}

static outcome least_fragment_removal(size_t n, const uint8_t *table, size_t length, uint16_t *work, size_t work_length, uint8_t *answer) {
    outcome rest = gapless_fault(n, table, length);
    if (rest.number != 0) return rest;
    size_t m = rest.value;
    uint8_t cells[MATRIX], cols[MOST], kept[MOST];
    memset(cols, 1, MOST);
    fill_cells(table, m, MOST, cells);
    size_t count = fragment_keep_marks(m, n, cells, work, work_length, kept);
    phase(m, n, cells, cols, kept, answer);
    return accepted(count);
}
#endif
