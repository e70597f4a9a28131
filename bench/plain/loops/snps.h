// The least SNP removal: the programme over suffixes of the columns, two of which are compared cell by cell.
#ifndef SNPS_H
#define SNPS_H
#include "ranks.h"

static bool column_mixed(size_t m, const uint8_t *cells, size_t c) {
    bool a = false, b = false;
    for (size_t f = 0; f < m; f++) {
        a |= cells[f * MOST + c] == A;
        b |= cells[f * MOST + c] == B;
    }
    return a && b;
}

// Some fragment calls both columns with one letter, and some with two.
static bool columns_conflict(size_t m, const uint8_t *cells, size_t a, size_t c) {
    bool alike = false, unlike = false;
    for (size_t f = 0; f < m; f++) {
        uint8_t x = cells[f * MOST + a], y = cells[f * MOST + c];
        if (!is_call(x) || !is_call(y)) continue;
        if (x == y) alike = true;
        else unlike = true;
        if (alike && unlike) return true;
    }
    return false;
}

// State j is the last kept mixed column plus one, or 0 for none.
static size_t snp_keep_marks(size_t m, size_t n, const uint8_t *cells, uint8_t *keep) {
    uint16_t counts[MOST + 1] = {0};
    uint64_t highs[MOST + 1] = {0}, lows[MOST + 1] = {0};
    ranks t = {counts, highs, lows};
    for (size_t i = n; i-- > 0;) {
        if (!column_mixed(m, cells, i)) continue;
        rank out = rank_single(1, i), kept = rank_get(t, i + 1);
        for (size_t j = 0; j <= i; j++) {
            rank best = rank_plus(out, rank_get(t, j));
            if (j == 0 || !columns_conflict(m, cells, j - 1, i)) best = rank_lesser(best, kept);
            rank_put(t, j, best);
        }
    }
    rank r = rank_get(t, 0);
    for (size_t p = 0; p < n; p++) keep[p] = 1 - rank_digit(r, p);
    return r.count;
}
#endif
