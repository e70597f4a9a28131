// The least fragment removal: the programme over pairs of furthest-reaching fragments, by the weights of what is kept, of which the greatest is sought.
// State 0 is none, and state s fragment s - 1. The sides are alike, so a pair of states has one place, in the row of the later one.
#ifndef FRAGMENTS_H
#define FRAGMENTS_H
#include "masks.h"
#include "ranks.h"

enum { STATES = MOST + 1, PAIRS = STATES * (STATES + 1) / 2 };

// One past the last column that a fragment calls, and 0 where it calls none.
static uint8_t reach(const line *x) {
    uint64_t low = x->a[0] | x->b[0], high = x->a[1] | x->b[1];
    if (high) return 2 * HALF - __builtin_clzll(high);
    return low ? HALF - __builtin_clzll(low) : 0;
}

// The first column that a fragment calls, and 0 where it calls none.
static uint8_t line_start(const line *x) {
    uint64_t low = x->a[0] | x->b[0], high = x->a[1] | x->b[1];
    if (low) return __builtin_ctzll(low);
    return high ? HALF + __builtin_ctzll(high) : 0;
}

static inline bool agree(const line *x, const line *y) { return !(unlike(x, y, 0) | unlike(x, y, 1)); }

static inline size_t row_start(size_t h) { return h * (h + 1) / 2; }

static inline bool rank_below(rank a, rank b) {
    if (a.count != b.count) return a.count < b.count;
    return a.high != b.high ? a.high < b.high : a.low < b.low;
}

static inline rank rank_greater(rank a, rank b) { return rank_below(a, b) ? b : a; }

// The weight of a pair of states with a fragment on a side that it carries on, to where the pair weighs `far`, or that reaches as far already.
static inline rank rank_joined(rank here, bool on, rank far, rank own) { return on ? rank_greater(here, far) : rank_plus(own, here); }

// Fragment i, which weighs `own`, before those of the table, at every pair of states from d on. Where it joins neither side nothing changes.
static void add_fragment(ranks t, const uint8_t *restrict agrees, const uint8_t *restrict reaches, rank own, size_t i, size_t d) {
    uint8_t end = reaches[i + 1];
    for (size_t h = d; h <= i; h++) {
        size_t here = row_start(h), next = row_start(reaches[h] < end ? i + 1 : h);
        rank far = rank_plus(own, rank_get(t, row_start(i + 1) + h));
        if (agrees[h])
            for (size_t l = d; l <= h; l++) {
                rank best = rank_get(t, here + l);
                if (agrees[l]) best = rank_joined(best, reaches[l] < end, far, own);
                rank_put(t, here + l, rank_greater(best, rank_plus(own, rank_get(t, next + l))));
            }
        else
            for (size_t l = d; l <= h; l++)
                if (agrees[l]) rank_put(t, here + l, rank_joined(rank_get(t, here + l), reaches[l] < end, far, own));
    }
}

// States that reach no further than the fragments still to come start are alike: the last of the first ones, d, stands for them.
static size_t last_dead(const uint8_t *reaches, uint8_t start, size_t most) {
    size_t d = 0;
    while (d < most && reaches[d + 1] <= start) d++;
    return d;
}

// State s has the weights of the next state, with every state up to n.
static void give_birth(ranks t, size_t s, size_t n) {
    for (size_t h = s + 1; h <= n; h++) rank_put(t, row_start(h) + s, rank_get(t, row_start(h) + s + 1));
    rank_put(t, row_start(s) + s, rank_get(t, row_start(s + 1) + s + 1));
}

static size_t fragment_keep_marks(size_t m, const line *lines, uint16_t *work, size_t work_length, uint8_t *keep) {
    uint8_t reaches[STATES] = {0}, agrees[STATES] = {1};
    static uint64_t highs[PAIRS], lows[PAIRS];
    ranks t = {work, highs, lows};
    memset(work, 0, work_length * sizeof *work);
    memset(highs, 0, sizeof highs);
    memset(lows, 0, sizeof lows);
    for (size_t s = 1; s <= m; s++) reaches[s] = reach(lines + s - 1);
    size_t d = m;
    for (size_t i = m; i-- > 0;) {
        size_t first = last_dead(reaches, line_start(lines + i), d < i ? d : i);
        while (d > first) give_birth(t, --d, i + 1);
        for (size_t s = d > 1 ? d : 1; s <= i; s++) agrees[s] = agree(lines + s - 1, lines + i);
        add_fragment(t, agrees, reaches, rank_single(1, i), i, d);
    }
    rank r = rank_get(t, 0);
    for (size_t p = 0; p < m; p++) keep[p] = rank_digit(r, p);
    memset(work, 0, work_length * sizeof *work);
    return m - r.count;
}
#endif
