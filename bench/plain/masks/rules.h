// The rules of a table, those on cells by the letters of a record.
#ifndef RULES_H
#define RULES_H
#include "masks.h"

// A record's cells by 5 to 7, and by 8 where it must be gapless.
static outcome cells_fault(const uint8_t *record, size_t i, bool gapless) {
    line x = letters_of(record);
    size_t span = span_of(record);
    places a = joined(x.a), b = joined(x.b), calls = a | b, inside = ((places)1 << span) - 1;
    if (grade_of(record) >= GRADES || calls & ~inside) return refused(5, i);
    if (a & b) return refused(6, i);
    if (span > 0 && !(calls & calls >> (span - 1) & 1)) return refused(7, i);
    if (gapless && inside & ~calls) return refused(8, i);
    return accepted(0);
}

// Record i by 4 to 7, 9 and 13, and by 8 where it must be gapless.
static outcome letters_fault(size_t n, const uint8_t *table, size_t i, bool gapless) {
    const uint8_t *record = table + RECORD * i;
    if (out_of_frame(n, record)) return refused(4, i);
    outcome fault = cells_fault(record, i, gapless);
    if (fault.number != 0) return fault;
    if (tag_before(table, i)) return refused(9, i);
    if (out_of_order(table, i)) return refused(13, i);
    return accepted(0);
}

// A table by 3, 1, 2, then its records, which must be gapless for S and F: the first fault, or the number of records.
static outcome rules_fault(size_t n, const uint8_t *table, size_t length, bool gapless) {
    outcome sizes = size_fault(n, length);
    if (sizes.number != 0) return sizes;
    for (size_t i = 0; i < sizes.value; i++) {
        outcome fault = letters_fault(n, table, i, gapless);
        if (fault.number != 0) return fault;
    }
    return sizes;
}
#endif
