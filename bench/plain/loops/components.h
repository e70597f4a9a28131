// Components of fragments that conflict, the haplotypes of their sides, and the answer's bytes, over a cell matrix of 128 cells to a fragment.
#ifndef COMPONENTS_H
#define COMPONENTS_H
#include "records.h"

// Takes the component hi into lo, its sides turned over or not.
static void relabel(size_t m, uint8_t *sides, uint8_t *labels, uint8_t lo, uint8_t hi, bool turn) {
    for (size_t k = 0; k < m; k++)
        if (labels[k] == hi) {
            labels[k] = lo;
            if (turn) sides[k] = 3 - sides[k];
        }
}

// Quick-find: each kept fragment's component by its lowest member, and a side in it. No where a pair lies on one side.
static bool components(size_t m, const uint8_t *pairs, const uint8_t *kept, uint8_t *sides, uint8_t *labels) {
    for (size_t k = 0; k < m; k++) {
        labels[k] = kept[k] ? k : 255;
        sides[k] = kept[k] ? 1 : 0;
    }
    bool ok = true;
    for (size_t i = 0; i < m; i++)
        for (size_t j = 0; j < m; j++) {
            if (!pairs[i * MOST + j]) continue;
            bool turn = sides[i] == sides[j];
            uint8_t a = labels[i], b = labels[j];
            if (a < b) relabel(m, sides, labels, a, b, turn);
            else if (b < a) relabel(m, sides, labels, b, a, turn);
            else if (turn) ok = false;
        }
    return ok;
}

static uint8_t haplotype_at(size_t m, const uint8_t *cells, const uint8_t *sides, uint8_t side, size_t c) {
    for (size_t i = 0; i < m; i++)
        if (sides[i] == side && is_call(cells[i * MOST + c])) return cells[i * MOST + c];
    return HOLE;
}

static void fill_haplotype(size_t m, size_t n, const uint8_t *cells, const uint8_t *cols, const uint8_t *sides, uint8_t side, uint8_t *row) {
    for (size_t c = 0; c < n; c++) row[c] = cols[c] ? haplotype_at(m, cells, sides, side, c) : NO_CALL;
}

// Keep marks, haplotypes, sides, blocks.
static void fill_parts(size_t m, size_t n, const uint8_t *cells, const uint8_t *cols, const uint8_t *sides, const uint8_t *blocks, uint8_t *answer) {
    memcpy(answer, cols, n);
    fill_haplotype(m, n, cells, cols, sides, 1, answer + n);
    fill_haplotype(m, n, cells, cols, sides, 2, answer + 2 * n);
    memcpy(answer + 3 * n, sides, m);
    memcpy(answer + 3 * n + m, blocks, m);
}
#endif
