// The 32-byte record: its fields and cells, the rules 1 to 9 and 13 of a table, unpack and find.
#ifndef RECORDS_H
#define RECORDS_H
#include <stdbool.h>
#include <stddef.h>
#include <stdint.h>
#include <string.h>

enum { MOST = 128, RECORD = 32, CELLS = 96, MATRIX = MOST * MOST, GRADES = 16 };
enum { HOLE = 0, A = 1, B = 2, NO_CALL = 3 };

// An acceptance has number 0 and a count, a refusal a number and a place.
typedef struct {
    unsigned number;
    size_t value;
} outcome;

static inline outcome accepted(size_t count) { return (outcome){0, count}; }
static inline outcome refused(unsigned number, size_t place) { return (outcome){number, place}; }

static inline uint32_t tag_of(const uint8_t *record) {
    return record[0] | (uint32_t)record[1] << 8 | (uint32_t)record[2] << 16 | (uint32_t)record[3] << 24;
}

static inline size_t start_of(const uint8_t *record) { return record[4] | (size_t)record[5] << 8; }
static inline size_t span_of(const uint8_t *record) { return record[6]; }
static inline uint8_t grade_of(const uint8_t *record) { return record[7]; }
static inline uint8_t cell_of(const uint8_t *record, size_t i) { return record[8 + i / 4] >> 2 * (i % 4) & 3; }
static inline bool is_call(uint8_t code) { return code == A || code == B; }

// What the records of a table rise by: the start, and at one start the tag.
static inline uint64_t order_of(size_t start, uint32_t tag) { return (uint64_t)start << 32 | tag; }

// The first called column of a row, and one past the last; 0 without calls.
static size_t first_call(size_t n, const uint8_t *row) {
    for (size_t c = 0; c < n; c++)
        if (is_call(row[c])) return c;
    return 0;
}

static size_t past_calls(size_t n, const uint8_t *row) {
    for (size_t c = n; c > 0; c--)
        if (is_call(row[c - 1])) return c;
    return 0;
}

static bool out_of_frame(size_t n, const uint8_t *record) {
    size_t start = start_of(record), span = span_of(record);
    return span > CELLS || start + span > n || (span == 0 && start != 0);
}

static bool stray_bits(const uint8_t *record) {
    if (grade_of(record) >= GRADES) return true;
    for (size_t i = span_of(record); i < CELLS; i++)
        if (cell_of(record, i) != HOLE) return true;
    return false;
}

static bool any_code(const uint8_t *record, uint8_t code) {
    size_t span = span_of(record);
    for (size_t i = 0; i < span; i++)
        if (cell_of(record, i) == code) return true;
    return false;
}

static bool open_end(const uint8_t *record) {
    size_t span = span_of(record);
    return span > 0 && (cell_of(record, 0) == HOLE || cell_of(record, span - 1) == HOLE);
}

static bool tag_before(const uint8_t *table, size_t i) {
    uint32_t sought = tag_of(table + RECORD * i);
    for (size_t h = 0; h < i; h++)
        if (tag_of(table + RECORD * h) == sought) return true;
    return false;
}

static inline uint64_t order_at(const uint8_t *table, size_t i) {
    const uint8_t *record = table + RECORD * i;
    return order_of(start_of(record), tag_of(record));
}

static bool out_of_order(const uint8_t *table, size_t i) { return i > 0 && order_at(table, i) < order_at(table, i - 1); }

// Record i by 4 to 7, 9 and 13, and by 8 where it must be gapless.
static outcome record_fault(size_t n, const uint8_t *table, size_t i, bool gapless) {
    const uint8_t *record = table + RECORD * i;
    if (out_of_frame(n, record)) return refused(4, i);
    if (stray_bits(record)) return refused(5, i);
    if (any_code(record, NO_CALL)) return refused(6, i);
    if (open_end(record)) return refused(7, i);
    if (gapless && any_code(record, HOLE)) return refused(8, i);
    if (tag_before(table, i)) return refused(9, i);
    if (out_of_order(table, i)) return refused(13, i);
    return accepted(0);
}

static outcome records_fault(size_t n, const uint8_t *table, size_t m, bool gapless) {
    for (size_t i = 0; i < m; i++) {
        outcome fault = record_fault(n, table, i, gapless);
        if (fault.number != 0) return fault;
    }
    return accepted(m);
}

static outcome size_fault(size_t n, size_t length) {
    if (n > MOST) return refused(3, 0);
    if (length % RECORD != 0) return refused(1, 0);
    if (length / RECORD > MOST) return refused(2, 0);
    return accepted(length / RECORD);
}

// A table by 3, 1, 2, then its records, which may have a hole between mates: the first fault, or the number of records.
static outcome table_fault(size_t n, const uint8_t *table, size_t length) {
    outcome sizes = size_fault(n, length);
    return sizes.number != 0 ? sizes : records_fault(n, table, sizes.value, false);
}

// The cells of a table's records in rows of a given width, holes elsewhere.
static void fill_cells(const uint8_t *table, size_t m, size_t width, uint8_t *cells) {
    memset(cells, HOLE, m * width);
    for (size_t i = 0; i < m; i++) {
        const uint8_t *record = table + RECORD * i;
        uint8_t *row = cells + i * width + start_of(record);
        size_t span = span_of(record);
        for (size_t k = 0; k < span; k++) row[k] = cell_of(record, k);
    }
}

static outcome unpack(size_t n, const uint8_t *table, size_t length, uint8_t *cells, uint32_t *tags, uint8_t *grades) {
    outcome rest = table_fault(n, table, length);
    if (rest.number != 0) return rest;
    size_t m = rest.value;
    fill_cells(table, m, n, cells);
    for (size_t i = 0; i < m; i++) {
        tags[i] = tag_of(table + RECORD * i);
        grades[i] = grade_of(table + RECORD * i);
    }
    return accepted(m);
}

// Where the first whole record with the tag begins; the table's length where none has it.
static size_t find(uint32_t tag, const uint8_t *table, size_t length) {
    for (size_t at = 0; length - at >= RECORD; at += RECORD)
        if (tag_of(table + at) == tag) return at;
    return length;
}
#endif
