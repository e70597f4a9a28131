// The least SNP removal: the programme over suffixes of the columns, two of which are compared by their lines.
#ifndef SNPS_H
#define SNPS_H
#include "masks.h"
#include "ranks.h"

// The letters of at most 64 fragments at column c: a half of its line.
static inline void fill_column(size_t count, const line *lines, size_t c, line *x, size_t h) {
    uint64_t a = 0, b = 0;
    for (size_t i = count; i-- > 0;) {
        a = a << 1 | (lines[i].a[c / HALF] >> c % HALF & 1);
        b = b << 1 | (lines[i].b[c / HALF] >> c % HALF & 1);
    }
    x->a[h] = a;
    x->b[h] = b;
}

static void fill_columns(size_t m, size_t n, const line *lines, line *columns) {
    size_t low = m < HALF ? m : HALF;
    for (size_t c = 0; c < n; c++) {
        fill_column(low, lines, c, columns + c, 0);
        fill_column(m - low, lines + low, c, columns + c, 1);
    }
}

static inline bool column_mixed(const line *x) { return (x->a[0] | x->a[1]) && (x->b[0] | x->b[1]); }

static inline uint64_t alike(const line *x, const line *y, size_t h) { return (x->a[h] & y->a[h]) | (x->b[h] & y->b[h]); }

// Some fragment calls both columns with one letter, and some with two.
static inline bool columns_conflict(const line *x, const line *y) {
    return (alike(x, y, 0) | alike(x, y, 1)) && (unlike(x, y, 0) | unlike(x, y, 1));
}

// State j is the last kept mixed column plus one, or 0 for none.
static size_t snp_keep_marks(size_t m, size_t n, const line *lines, uint8_t *keep) {
    line columns[MOST];
    uint16_t counts[MOST + 1] = {0};
    uint64_t highs[MOST + 1] = {0}, lows[MOST + 1] = {0};
    ranks t = {counts, highs, lows};
    fill_columns(m, n, lines, columns);
    for (size_t i = n; i-- > 0;) {
        if (!column_mixed(columns + i)) continue;
        rank out = rank_single(1, i), kept = rank_get(t, i + 1);
        for (size_t j = 0; j <= i; j++) {
            rank best = rank_plus(out, rank_get(t, j));
            if (j == 0 || !columns_conflict(columns + j - 1, columns + i)) best = rank_lesser(best, kept);
            rank_put(t, j, best);
        }
    }
    rank r = rank_get(t, 0);
    for (size_t p = 0; p < n; p++) keep[p] = 1 - rank_digit(r, p);
    return r.count;
}
#endif
