// The corrections of least total weight: the rules, the cells, the elimination, and the answer by the lines of the corrected records.
#ifndef CORRECTIONS_H
#define CORRECTIONS_H
#include "elimination.h"
#include "phasing.h"
#include "rules.h"

static outcome least_corrections(size_t n, const uint8_t *table, size_t length, uint16_t *work, size_t work_length, uint8_t *answer, uint8_t *corrected) {
    outcome rest = rules_fault(n, table, length, false);
    if (rest.number != 0) return rest;
    size_t m = rest.value, total = 0;
    uint8_t cells[MATRIX], weights[MOST], cols[MOST], sides[MOST] = {0};
    line lines[MOST];
    spans s;
    memset(cols, 1, MOST);
    fill_cells(table, m, MOST, cells);
    fill_weights(table, m, weights);
    fill_spans(m, n, cells, &s);
    size_t deep = first_deep(m, n, &s);
    if (deep < n) return refused(12, deep);
    least_cost_sides(m, n, cells, weights, &s, sides);
    for (size_t c = 0; c < n; c++) total += correct(m, cells, weights, sides, 1, c) + correct(m, cells, weights, sides, 2, c);
    rewrite(table, m, cells, corrected);
    fill_lines(corrected, m, lines);
    phase(m, n, lines, cols, sides, sides, answer);
    memset(work, 0, work_length * sizeof *work);
    return accepted(total);
}
#endif
