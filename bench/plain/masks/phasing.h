// First lawful sides, blocks and the answer's bytes, by the lines of the fragments.
#ifndef PHASING_H
#define PHASING_H
#include "masks.h"

// Takes the component hi into lo, its sides turned over or not. Without a jump, so that the compilers take many at once.
static void relabel(size_t m, uint8_t *restrict sides, uint8_t *restrict labels, uint8_t lo, uint8_t hi, bool turn) {
    uint8_t turned = turn ? 1 ^ 2 : 0;
    for (size_t k = 0; k < m; k++) {
        sides[k] ^= labels[k] == hi ? turned : 0;
        labels[k] = labels[k] == hi ? lo : labels[k];
    }
}

// Joins the components of two fragments that conflict. No where they are on one side of one.
static bool join(size_t m, uint8_t *sides, uint8_t *labels, size_t i, size_t j) {
    bool turn = sides[i] == sides[j];
    uint8_t a = labels[i], b = labels[j];
    if (a == b) return !turn;
    relabel(m, sides, labels, a < b ? a : b, a < b ? b : a, turn);
    return true;
}

static inline bool kept_conflict(const line *x, const line *y, const uint64_t *keep) {
    return (keep[0] & unlike(x, y, 0)) | (keep[1] & unlike(x, y, 1));
}

// Quick-find: each kept fragment's component by its lowest member, and a side in it. It ends at the first pair on one side, with a no.
static bool components(size_t m, const line *lines, const uint64_t *keep, const uint8_t *kept, uint8_t *sides, uint8_t *labels) {
    for (size_t k = 0; k < m; k++) {
        labels[k] = kept[k] ? k : 255;
        sides[k] = kept[k] ? 1 : 0;
    }
    for (size_t i = 0; i < m; i++) {
        if (!kept[i]) continue;
        line x = lines[i];
        for (size_t j = i + 1; j < m; j++)
            if (kept[j] && kept_conflict(&x, lines + j, keep) && !join(m, sides, labels, i, j)) return false;
    }
    return true;
}

static inline bool has(const uint64_t *words, size_t c) { return words[c / HALF] >> c % HALF & 1; }

// A side's fragments merged, column by column: they agree on what is kept.
static void fill_haplotype(size_t m, size_t n, const line *lines, const uint8_t *cols, const uint8_t *sides, uint8_t side, uint8_t *row) {
    line x = {{0, 0}, {0, 0}};
    for (size_t i = 0; i < m; i++)
        if (sides[i] == side)
            for (size_t h = 0; h < 2; h++) {
                x.a[h] |= lines[i].a[h];
                x.b[h] |= lines[i].b[h];
            }
    for (size_t c = 0; c < n; c++) row[c] = !cols[c] ? NO_CALL : has(x.a, c) ? A : has(x.b, c) ? B : HOLE;
}

// The answer of the known sides, or of the first lawful ones where none are known: keep marks, haplotypes, sides, blocks.
// No where the kept fragments are not error-free on the kept columns, and nothing is written.
static bool phase(size_t m, size_t n, const line *lines, const uint8_t *cols, const uint8_t *kept, const uint8_t *known, uint8_t *answer) {
    uint64_t keep[2] = {0, 0};
    uint8_t found[MOST], blocks[MOST];
    for (size_t c = 0; c < n; c++) keep[c / HALF] |= (uint64_t)(cols[c] != 0) << c % HALF;
    if (!components(m, lines, keep, kept, found, blocks)) return false;
    const uint8_t *sides = known ? known : found;
    memcpy(answer, cols, n);
    fill_haplotype(m, n, lines, cols, sides, 1, answer + n);
    fill_haplotype(m, n, lines, cols, sides, 2, answer + 2 * n);
    memcpy(answer + 3 * n, sides, m);
    memcpy(answer + 3 * n + m, blocks, m);
    return true;
}
#endif
