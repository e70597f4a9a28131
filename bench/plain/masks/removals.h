// Check, the least SNP removal and the least fragment removal: the rules, the lines, what goes, and the answer of the rest.
#ifndef REMOVALS_H
#define REMOVALS_H
#include "fragments.h"
#include "phasing.h"
#include "rules.h"
#include "snps.h"

static outcome check(size_t n, const uint8_t *table, size_t length, uint8_t *answer) {
    outcome rest = rules_fault(n, table, length, false);
    if (rest.number != 0) return rest;
    size_t m = rest.value;
    line lines[MOST];
    uint8_t kept[MOST];
    memset(kept, 1, MOST);
    fill_lines(table, m, lines);
    return accepted(phase(m, n, lines, kept, kept, NULL, answer) ? 0 : 1);
}

static outcome least_snp_removal(size_t n, const uint8_t *table, size_t length, uint16_t *work, size_t work_length, uint8_t *answer) {
    outcome rest = rules_fault(n, table, length, true);
    if (rest.number != 0) return rest;
    size_t m = rest.value;
    line lines[MOST];
    uint8_t cols[MOST], kept[MOST];
    memset(kept, 1, MOST);
    fill_lines(table, m, lines);
    size_t count = snp_keep_marks(m, n, lines, cols);
    phase(m, n, lines, cols, kept, NULL, answer);
    memset(work, 0, work_length * sizeof *work);
    return accepted(count);
}

static outcome least_fragment_removal(size_t n, const uint8_t *table, size_t length, uint16_t *work, size_t work_length, uint8_t *answer) {
    outcome rest = rules_fault(n, table, length, true);
    if (rest.number != 0) return rest;
    size_t m = rest.value;
    line lines[MOST];
    uint8_t cols[MOST], kept[MOST];
    memset(cols, 1, MOST);
    fill_lines(table, m, lines);
    size_t count = fragment_keep_marks(m, lines, work, work_length, kept);
    phase(m, n, lines, cols, kept, NULL, answer);
    return accepted(count);
}
#endif
