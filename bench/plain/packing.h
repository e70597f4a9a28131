// Pack: cells, tags and grades to a table's records.
#ifndef PACKING_H
#define PACKING_H
#include "records.h"

static bool any_unknown(size_t n, const uint8_t *row) {
    for (size_t c = 0; c < n; c++)
        if (row[c] > B) return true;
    return false;
}

static bool tag_repeats(const uint32_t *tags, size_t i) {
    for (size_t h = 0; h < i; h++)
        if (tags[h] == tags[i]) return true;
    return false;
}

// Fragment i by 5, 6, 17, 4, 9, 13. `last` is the order of the fragment before it, and then its own.
static outcome fragment_fault(size_t n, const uint8_t *row, const uint32_t *tags, const uint8_t *grades, size_t i, uint64_t *last) {
    if (grades[i] >= GRADES) return refused(5, i);
    if (any_unknown(n, row)) return refused(6, i);
    size_t end = past_calls(n, row);
    if (end == 0) return refused(17, i);
    size_t start = first_call(n, row);
    if (end - start > CELLS) return refused(4, i);
    if (tag_repeats(tags, i)) return refused(9, i);
    uint64_t order = order_of(start, tags[i]);
    if (order < *last) return refused(13, i);
    *last = order;
    return accepted(0);
}

// The sizes by 3, 1, 2, 11, then the fragments: the first fault, or their number.
static outcome pack_fault(size_t n, const uint8_t *cells, size_t cells_length, const uint32_t *tags, size_t m, const uint8_t *grades, size_t grades_length,
                          size_t length) {
    if (n > MOST) return refused(3, 0);
    if (cells_length != m * n || grades_length != m) return refused(1, 0);
    if (m > MOST) return refused(2, 0);
    if (length != m * RECORD) return refused(11, 0);
    uint64_t last = 0;
    for (size_t i = 0; i < m; i++) {
        outcome fault = fragment_fault(n, cells + i * n, tags, grades, i, &last);
        if (fault.number != 0) return fault;
    }
    return accepted(m);
}

static void write_record(uint32_t tag, uint8_t grade, size_t n, const uint8_t *row, uint8_t *record) {
    size_t start = first_call(n, row), span = past_calls(n, row) - start;
    memset(record, 0, RECORD);
    for (size_t k = 0; k < 4; k++) record[k] = tag >> 8 * k;
    record[4] = start;
    record[6] = span;
    record[7] = grade;
    for (size_t k = 0; k < span; k++) record[8 + k / 4] |= row[start + k] << 2 * (k % 4);
}

static outcome pack(size_t n, const uint8_t *cells, size_t cells_length, const uint32_t *tags, size_t m, const uint8_t *grades, size_t grades_length,
                    uint8_t *table, size_t length) {
    outcome rest = pack_fault(n, cells, cells_length, tags, m, grades, grades_length, length);
    if (rest.number != 0) return rest;
    for (size_t i = 0; i < m; i++) write_record(tags[i], grades[i], n, cells + i * n, table + RECORD * i);
    return rest;
}
#endif
