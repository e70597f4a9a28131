// The sides of least total weight, by the elimination over columns that at most 8 fragments cover, and the corrections that they ask for.
#ifndef ELIMINATION_H
#define ELIMINATION_H
#include "ranks.h"

enum { SLOTS = 8, MASKS = 1 << SLOTS };

// What a correction costs in a fragment of each grade.
static const uint8_t WEIGHTS[GRADES] = {1, 1, 2, 3, 4, 6, 8, 10, 13, 16, 20, 25, 31, 38, 46, 60};

static void fill_weights(const uint8_t *table, size_t m, uint8_t *weights) {
    for (size_t i = 0; i < m; i++) weights[i] = WEIGHTS[grade_of(table + RECORD * i)];
}

// Each fragment's first call and one past its last, between which it covers every column, and its slot, which no other has that covers one of these.
typedef struct {
    size_t starts[MOST], ends[MOST], slots[MOST];
} spans;

static void fill_spans(size_t m, size_t n, const uint8_t *cells, spans *s) {
    for (size_t i = 0; i < m; i++) {
        const uint8_t *row = cells + i * MOST;
        size_t start = 0, end = n;
        while (start < n && !is_call(row[start])) start++;
        while (end > 0 && !is_call(row[end - 1])) end--;
        s->starts[i] = start;
        s->ends[i] = end;
    }
}

// The lowest column that more than 8 fragments cover, holes included, and n where there is none.
static size_t first_deep(size_t m, size_t n, const spans *s) {
    for (size_t c = 0; c < n; c++) {
        size_t covering = 0;
        for (size_t i = 0; i < m; i++) covering += s->starts[i] <= c && c < s->ends[i];
        if (covering > SLOTS) return c;
    }
    return n;
}

// Whether a fragment that entered before f has slot b at column c.
static bool slot_used(size_t m, const spans *s, size_t c, size_t f, size_t b) {
    for (size_t x = 0; x < m; x++) {
        bool sooner = s->starts[x] < c || (s->starts[x] == c && x < f);
        if (sooner && c < s->ends[x] && s->slots[x] == b) return true;
    }
    return false;
}

static void fill_slots(size_t m, size_t n, spans *s) {
    for (size_t c = 0; c < n; c++)
        for (size_t f = 0; f < m; f++) {
            if (s->starts[f] != c) continue;
            size_t b = 0;
            while (b < SLOTS && slot_used(m, s, c, f, b)) b++;
            s->slots[f] = b;
        }
}

// What it costs to correct a slot's A at a column, and its B: the fragment's weight, and 0 where it has not that letter.
typedef struct {
    uint8_t a[SLOTS], b[SLOTS];
} prices;

// The prices of column c, slot by slot.
static void gather(size_t m, const uint8_t *cells, const uint8_t *weights, const spans *s, size_t c, prices *p) {
    memset(p, 0, sizeof *p);
    for (size_t i = 0; i < m; i++)
        if (s->starts[i] <= c && c < s->ends[i]) {
            uint8_t code = cells[i * MOST + c];
            if (code == A) p->a[s->slots[i]] = weights[i];
            if (code == B) p->b[s->slots[i]] = weights[i];
        }
}

static inline uint32_t lesser(uint32_t a, uint32_t b) { return a < b ? a : b; }

// What a side pattern costs at the prices of a column.
static uint32_t mask_cost(const prices *p, size_t mask) {
    uint32_t a1 = 0, b1 = 0, a2 = 0, b2 = 0;
    for (size_t k = 0; k < SLOTS; k++)
        if (mask >> k & 1) {
            a2 += p->a[k];
            b2 += p->b[k];
        } else {
            a1 += p->a[k];
            b1 += p->b[k];
        }
    return lesser(a1, b1) + lesser(a2, b2);
}

// Fragment f enters at slot b: side 1, or side 2 where that costs less.
static void enter(ranks t, size_t f, size_t b) {
    rank out = rank_single(0, f);
    size_t bit = (size_t)1 << b;
    for (size_t mask = 0; mask < MASKS; mask++) {
        if (mask & bit) rank_put(t, mask, rank_get(t, mask - bit));
        else rank_put(t, mask, rank_lesser(rank_get(t, mask), rank_plus(out, rank_get(t, mask + bit))));
    }
}

// The first side list of least cost.
static void least_cost_sides(size_t m, size_t n, const uint8_t *cells, const uint8_t *weights, spans *s, uint8_t *sides) {
    uint16_t counts[MASKS] = {0};
    uint64_t highs[MASKS] = {0}, lows[MASKS] = {0};
    prices p;
    ranks t = {counts, highs, lows};
    fill_slots(m, n, s);
    for (size_t c = n; c-- > 0;) {
        gather(m, cells, weights, s, c, &p);
        for (size_t mask = 0; mask < MASKS; mask++) counts[mask] += mask_cost(&p, mask);
        for (size_t f = m; f-- > 0;)
            if (s->starts[f] == c) enter(t, f, s->slots[f]);
    }
    rank r = rank_get(t, 0);
    for (size_t p = 0; p < m; p++) sides[p] = 1 + rank_digit(r, p);
}

// Turns the lighter letter of a column and side; on equal weights the Bs become A. The weight of the calls that it turns.
static size_t correct(size_t m, uint8_t *cells, const uint8_t *weights, const uint8_t *sides, uint8_t side, size_t c) {
    size_t totals[3] = {0}, changed = 0;
    for (size_t i = 0; i < m; i++)
        if (sides[i] == side) totals[cells[i * MOST + c]] += weights[i];
    uint8_t letter = totals[A] < totals[B] ? B : A;
    for (size_t i = 0; i < m; i++) {
        uint8_t *cell = &cells[i * MOST + c];
        if (sides[i] != side || *cell == HOLE || *cell == letter) continue;
        *cell = letter;
        changed += weights[i];
    }
    return changed;
}

// The records with the codes of the matrix in the cells of their spans.
static void rewrite(const uint8_t *table, size_t m, const uint8_t *cells, uint8_t *corrected) {
    memcpy(corrected, table, m * RECORD);
    for (size_t i = 0; i < m; i++) {
        uint8_t *record = corrected + RECORD * i;
        const uint8_t *row = cells + i * MOST + start_of(record);
        for (size_t k = 0; k < span_of(record); k++) {
            unsigned shift = 2 * (k % 4);
            record[8 + k / 4] = (record[8 + k / 4] & ~(3u << shift)) | row[k] << shift;
        }
    }
}
#endif
