// The services as one table of functions, the only name that is visible outside: BUILD, which the compiler's command line gives,
// so that several builds link into one program and no call is inlined into the loop that times it.
// What compares fragments and columns (corrections.h, counting.h, removals.h) is of loops or of masks, by the include path: the loops stay as they are,
// a measure of before and after, and the masks go the library's way.
#include "corrections.h"
#include "counting.h"
#include "packing.h"
#include "removals.h"

typedef struct {
    outcome (*unpack)(size_t n, const uint8_t *table, size_t length, uint8_t *cells, uint32_t *tags, uint8_t *grades);
    outcome (*pack)(size_t n, const uint8_t *cells, size_t cells_length, const uint32_t *tags, size_t m, const uint8_t *grades, size_t grades_length,
                    uint8_t *table, size_t length);
    size_t (*find)(uint32_t tag, const uint8_t *table, size_t length);
    outcome (*check)(size_t n, const uint8_t *table, size_t length, uint8_t *answer);
    outcome (*least_snp_removal)(size_t n, const uint8_t *table, size_t length, uint16_t *work, size_t work_length, uint8_t *answer);
    outcome (*least_fragment_removal)(size_t n, const uint8_t *table, size_t length, uint16_t *work, size_t work_length, uint8_t *answer);
    outcome (*least_corrections)(size_t n, const uint8_t *table, size_t length, uint16_t *work, size_t work_length, uint8_t *answer, uint8_t *corrected);
    outcome (*conflict_counts)(size_t n, const uint8_t *table, size_t length, uint8_t *counts);
} services;

extern const services BUILD;
const services BUILD = {unpack, pack, find, check, least_snp_removal, least_fragment_removal, least_corrections, conflict_counts};
