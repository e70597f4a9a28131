// An ordered weight: a count, and a set of positions below 128 as two words, position 0 highest. The least weight is the first least choice.
#ifndef RANKS_H
#define RANKS_H
#include "records.h"

typedef struct {
    uint32_t count;
    uint64_t high, low;
} rank;

// A table of weights, as three arrays.
typedef struct {
    uint16_t *counts;
    uint64_t *highs, *lows;
} ranks;

static inline rank rank_get(ranks t, size_t j) { return (rank){t.counts[j], t.highs[j], t.lows[j]}; }

static inline void rank_put(ranks t, size_t j, rank r) {
    t.counts[j] = r.count;
    t.highs[j] = r.high;
    t.lows[j] = r.low;
}

static inline rank rank_single(uint32_t count, size_t p) {
    if (p < 64) return (rank){count, (uint64_t)1 << (63 - p), 0};
    return (rank){count, 0, (uint64_t)1 << (127 - p)};
}

static inline rank rank_plus(rank a, rank b) {
    uint64_t low = a.low + b.low;
    return (rank){a.count + b.count, a.high + b.high + (low < a.low), low};
}

static inline rank rank_lesser(rank a, rank b) {
    if (a.count != b.count) return a.count < b.count ? a : b;
    if (a.high != b.high) return a.high < b.high ? a : b;
    return a.low < b.low ? a : b;
}

static inline uint8_t rank_digit(rank r, size_t p) { return p < 64 ? r.high >> (63 - p) & 1 : r.low >> (127 - p) & 1; }
#endif
