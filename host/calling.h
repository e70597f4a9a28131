/* What the test programs share: each service by its number, with its buffers as bytes; rooms; and a table from a file. C11 and C++17. */
#ifndef PIKONDAUR_CALLING_H
#define PIKONDAUR_CALLING_H

#include "haplotypes.h"

#include <stdio.h>
#include <stdlib.h>

enum service { UNPACK, PACK, FIND, CHECK, CONFLICT_COUNTS, SNPS, FRAGMENTS, CORRECTIONS, SERVICES };

enum { GIVEN = 3, LENT = 3 }; /* the most inputs and outputs of a service */

struct given {
    const void *bytes;
    size_t length; /* in bytes, of tags and work too */
};

struct lent {
    void *bytes;
    size_t length;
};

struct output {
    const char *name;
    size_t unit; /* bytes of an element; 0: the service has no such output */
};

static const char *const service_names[SERVICES] = {"unpack", "pack", "find", "check", "conflict_counts", "S", "F", "C"};

static const struct output service_outputs[SERVICES][LENT] = {
    {{"cells", 1}, {"tags", 4}, {"grades", 1}},
    {{"table", 1}, {"", 0}, {"", 0}},
    {{"", 0}, {"", 0}, {"", 0}},
    {{"answer", 1}, {"", 0}, {"", 0}},
    {{"counts", 1}, {"", 0}, {"", 0}},
    {{"work", 2}, {"answer", 1}, {"", 0}},
    {{"work", 2}, {"answer", 1}, {"", 0}},
    {{"work", 2}, {"answer", 1}, {"corrected table", 1}},
};

/* The bytes of each output for n columns and m fragments. */
static inline void exact_lengths(enum service service, size_t n, size_t m, size_t *lengths)
{
    const size_t answer = haplotypes_answer_length(n, m), work = 2 * HAPLOTYPES_WORK, table = HAPLOTYPES_RECORD * m;
    const size_t exact[SERVICES][LENT] = {
        {m * n, 4 * m, m}, {table, 0, 0}, {0, 0, 0}, {answer, 0, 0}, {m * m, 0, 0}, {work, answer, 0}, {work, answer, 0}, {work, answer, table},
    };
    for (size_t k = 0; k < LENT; k++)
        lengths[k] = exact[service][k];
}

/* n: the columns; for find, the tag */
static inline uint64_t call(enum service service, size_t n, const struct given *in, const struct lent *out)
{
    const uint8_t *first = (const uint8_t *)in[0].bytes;
    const size_t length = in[0].length;
    uint8_t *answer = (uint8_t *)out[1].bytes;
    uint16_t *work = (uint16_t *)out[0].bytes;
    const size_t numbers = out[0].length / 2;
    switch (service) {
    case UNPACK:
        return haplotypes_unpack(n, first, length, (uint8_t *)out[0].bytes, out[0].length, (uint32_t *)out[1].bytes, out[1].length / 4,
                                 (uint8_t *)out[2].bytes, out[2].length);
    case PACK:
        return haplotypes_pack(n, first, length, (const uint32_t *)in[1].bytes, in[1].length / 4, (const uint8_t *)in[2].bytes, in[2].length,
                               (uint8_t *)out[0].bytes, out[0].length);
    case FIND:
        return haplotypes_find((uint32_t)n, first, length);
    case CHECK:
        return haplotypes_check(n, first, length, (uint8_t *)out[0].bytes, out[0].length);
    case CONFLICT_COUNTS:
        return haplotypes_conflict_counts(n, first, length, (uint8_t *)out[0].bytes, out[0].length);
    case SNPS:
        return haplotypes_least_snp_removal(n, first, length, work, numbers, answer, out[1].length);
    case FRAGMENTS:
        return haplotypes_least_fragment_removal(n, first, length, work, numbers, answer, out[1].length);
    case CORRECTIONS:
        return haplotypes_least_corrections(n, first, length, work, numbers, answer, out[1].length, (uint8_t *)out[2].bytes, out[2].length);
    case SERVICES:
        break;
    }
    return 0;
}

/* An exact allocation; a byte even for length 0, since no pointer may be null. */
static inline void *room(size_t length)
{
    void *bytes = malloc(length ? length : 1);
    if (!bytes) {
        fprintf(stderr, "host: no memory\n");
        exit(2);
    }
    return bytes;
}

/* A grade for the fragment at a position, where tests may take any: 15, 6, 13 and so on, and each once in sixteen. */
static inline uint8_t mixed_grade(size_t position) { return (uint8_t)((15 + 7 * position) % 16); }

/* Gives every whole record such a grade. */
static inline void mix_grades(uint8_t *table, size_t length)
{
    for (size_t at = 0; at + HAPLOTYPES_RECORD <= length; at += HAPLOTYPES_RECORD)
        table[at + 7] = mixed_grade(at / HAPLOTYPES_RECORD);
}

/* Reads a table of at most 128 fragments, and its columns, the largest start + span; false where that is not possible. */
static inline int read_table(const char *name, uint8_t *table, size_t *length, size_t *columns)
{
    enum { ROOM = HAPLOTYPES_RECORD * HAPLOTYPES_MOST_FRAGMENTS };
    FILE *file = fopen(name, "rb");
    if (!file)
        return 0;
    *length = fread(table, 1, ROOM, file);
    const int whole = fgetc(file) == EOF && !ferror(file);
    fclose(file);
    *columns = 0;
    for (size_t at = 0; at + HAPLOTYPES_RECORD <= *length; at += HAPLOTYPES_RECORD) {
        const size_t end = (size_t)table[at + 4] + 256 * (size_t)table[at + 5] + table[at + 6];
        if (*columns < end)
            *columns = end;
    }
    return whole && *columns <= HAPLOTYPES_MOST_COLUMNS;
}

#endif
