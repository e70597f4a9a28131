// The least fragment removal: the programme over pairs of furthest-reaching fragments, whose rows are compared cell by cell.
#ifndef FRAGMENTS_H
#define FRAGMENTS_H
#include "phasing.h"
#include "states.h"

static bool rows_conflict(size_t n, const uint8_t *row, const uint8_t *other) {
    for (size_t c = 0; c < n; c++)
        if (conflict(row[c], other[c])) return true;
    return false;
}

static size_t fragment_keep_marks(size_t m, size_t n, const uint8_t *cells, uint16_t *work, size_t work_length, uint8_t *keep) {
    uint8_t reaches[STATES], agrees[STATES];
    static uint64_t highs[STATES * STATES], lows[STATES * STATES];
    ranks t = {work, highs, lows};
    memset(work, 0, work_length * sizeof *work);
    memset(highs, 0, sizeof highs);
    memset(lows, 0, sizeof lows);
    reaches[0] = 0;
    for (size_t s = 1; s <= m; s++) reaches[s] = past_calls(n, cells + (s - 1) * MOST);
    for (size_t i = m; i-- > 0;) {
        agrees[0] = 1;
        for (size_t s = 1; s <= i; s++) agrees[s] = !rows_conflict(n, cells + (s - 1) * MOST, cells + i * MOST);
        add_fragment(t, agrees, reaches, rank_single(1, i), i);
    }
    rank r = rank_get(t, 0);
    for (size_t p = 0; p < m; p++) keep[p] = 1 - rank_digit(r, p);
    memset(work, 0, work_length * sizeof *work);
    return r.count;
}
#endif
