// The corrections of least total weight: the rules, the cells, the elimination, and the answer of the corrected cells.
#ifndef CORRECTIONS_H
#define CORRECTIONS_H
#include "phasing.h"
#include "elimination.h"

static outcome least_corrections(size_t n, const uint8_t *table, size_t length, uint16_t *work, size_t work_length, uint8_t *answer, uint8_t *corrected) {
    outcome rest = table_fault(n, table, length);
    if (rest.number != 0) return rest;
    size_t m = rest.value, total = 0;
    uint8_t cells[MATRIX], weights[MOST], cols[MOST], sides[MOST] = {0};
    spans s;
    memset(cols, 1, MOST);
    fill_cells(table, m, MOST, cells);
    fill_weights(table, m, weights);
    fill_spans(m, n, cells, &s);
    size_t deep = first_deep(m, n, &s);
    if (deep < n) return refused(12, deep);
    least_cost_sides(m, n, cells, weights, &s, sides);
    for (size_t c = 0; c < n; c++) total += correct(m, cells, weights, sides, 1, c) + correct(m, cells, weights, sides, 2, c);
    fill_answer(m, n, cells, cols, sides, answer);
    rewrite(table, m, cells, corrected);
    memset(work, 0, work_length * sizeof *work);
    return accepted(total);
}
#endif
