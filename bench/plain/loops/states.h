// The states of the least fragment removal: one fragment more at every pair of furthest-reaching ones. State 0 is none, and state s fragment s - 1.
#ifndef STATES_H
#define STATES_H
#include "ranks.h"

enum { STATES = MOST + 1 };

// Fragment i, before those of the table, at every pair of states. The records are by start, as the programme needs them.
static void add_fragment(ranks t, const uint8_t *restrict agrees, const uint8_t *restrict reaches, rank out, size_t i) {
    for (size_t h = 0; h <= i; h++) {
        size_t one = reaches[h] < reaches[i + 1] ? i + 1 : h;
        for (size_t l = 0; l <= i; l++) {
            size_t two = reaches[l] < reaches[i + 1] ? i + 1 : l;
            rank best = rank_plus(out, rank_get(t, h * STATES + l));
            if (agrees[l]) best = rank_lesser(best, rank_get(t, h * STATES + two));
            if (agrees[h]) best = rank_lesser(best, rank_get(t, one * STATES + l));
            rank_put(t, h * STATES + l, best);
        }
    }
}
#endif
