/* Pikondaur's eight services for programs in C (C11 and later) and C++ (C++17 and later).
 * Link target/staticlib/libhaplotypes.a, which `host/build library` proves and builds. It needs nothing but the C library's memcpy and memset.
 *
 * Tables. A table has m fragments of 32 bytes each and n columns (SNPs), m and n at most 128. Its bytes tell m; n comes with the call. Numbers
 * in it are little-endian; columns and positions of fragments count from 0.
 *
 *   bytes 0-3   tag, another in each record         byte  7      grade, 0 to 15
 *   bytes 4-5   start, the first called column      bytes 8-31   96 cells of two bits: 0 a hole, 1 A, 2 B
 *   byte  6     span, 0 to 96
 *
 * Cell i stands in byte 8 + i / 4, at the two bits from bit 2 * (i % 4) on, and belongs to column start + i. The span's first and last cells are
 * calls, and those after it 0. Two mates are one fragment, with holes between them, which all services but S and F take. A fragment without calls
 * has span 0 and start 0; stored tables may have it, and all services take it but pack, which does not write it.
 *
 * Records rise by start, and at one start by tag, as 32-bit numbers. A fragment without calls stands by its tag among those at start 0.
 *
 * Grades. A fragment's grade, as the sequencer states it, decides what it costs C to correct one of its calls, its weight:
 *
 *   grade    0   1   2   3   4   5   6   7   8   9  10  11  12  13  14  15
 *   weight   1   1   2   3   4   6   8  10  13  16  20  25  31  38  46  60
 *
 * C finds the least total of weights, and no other answer depends on grades. Unpack and pack carry them, and C's table keeps them.
 *
 * Answers. An answer has 3n + 2m bytes, in five sections:
 *
 *   keep marks    n   1 a kept column, 0 a removed one (by S alone)
 *   haplotype 1   n   1 A, 2 B (after correction, for C), 0 where no kept fragment of side 1 has a call, 3 at a removed column
 *   haplotype 2   n   the same of side 2
 *   sides         m   1 or 2, 0 for a removed fragment (by F alone)
 *   blocks        m   the position of the block's first fragment, 255 for a removed fragment. A chain of kept fragments, each in conflict with the
 *                     next on a kept column (after correction, for C), joins a block. Sides of different blocks say nothing of each other
 *
 * What a call returns. check: a verdict, 0 for yes, 1 for no, 1000 * number + place for a refusal. find: an offset. The others: a count (C: a total
 * of weights), below 2^32, or 2^32 * number + place for a refusal. The two forms differ, so each has a type, and readers by the type's name, below.
 *
 * What is written. A refusal, and a no from check, leave every byte as it was. Every other call writes every byte of every output, whatever stood
 * there before: outputs need not be cleared. Nothing else is written.
 *
 * What the caller must see to, in every call. Nothing checks it, and the library is proved only where it holds:
 *   - Each pointer is valid for its length, aligned for its type, and never null, not even for length 0. A length counts elements: bytes, or
 *     32-bit tags, or 16-bit numbers of work. All bytes of a buffer together are fewer than 2^63.
 *   - An output overlaps no other buffer of the call. Inputs may overlap each other.
 *   - Until the call returns nothing else writes to its buffers, and nothing else reads its outputs.
 *   - The stack that the service takes is free (below).
 * Threads: any number of them may make any calls at once, each with outputs of its own, and share inputs. The library has no variables: nothing
 * is kept between calls.
 *
 * Refusals. The first rule that is broken decides:
 *
 *   unpack, check, conflict_counts   3, 1, 2, 11; then the records from 0 on, each by 4, 5, 6, 7, 9, 13
 *   S, F                             3, 1, 2, 10, 11; then the records from 0 on, each by 4, 5, 6, 7, 8, 9, 13
 *   C                                3, 1, 2, 10, 11; then the records as for check; then 12
 *   pack                             3, 1, 2, 11; then the fragments from 0 on, each by 5, 6, 17, 4, 9, 13
 *   find                             refuses nothing
 */
#ifndef PIKONDAUR_HAPLOTYPES_H
#define PIKONDAUR_HAPLOTYPES_H

#include <stddef.h>
#include <stdint.h>

#ifdef __cplusplus
extern "C" {
#endif

enum {
    HAPLOTYPES_RECORD = 32,         /* bytes of a fragment in a table */
    HAPLOTYPES_MOST_FRAGMENTS = 128,
    HAPLOTYPES_MOST_COLUMNS = 128,
    HAPLOTYPES_HIGHEST_GRADE = 15,
    HAPLOTYPES_MOST_TOTAL = 30720,  /* no total of C is over it: 60 for half of 8 calls in each of 128 columns */
    HAPLOTYPES_WORK = 32768         /* the least numbers of a work buffer: 64 KiB */
};

/* codes of cells and haplotypes, and the marks of what is removed */
enum {
    HAPLOTYPES_HOLE = 0,
    HAPLOTYPES_A = 1,
    HAPLOTYPES_B = 2,
    HAPLOTYPES_REMOVED_CODE = 3,    /* in a haplotype */
    HAPLOTYPES_REMOVED_SIDE = 0,
    HAPLOTYPES_REMOVED_BLOCK = 255
};

/* The refusals by their numbers. The place is the fragment's position for 4 to 9, 13 and 17, the lowest such column for 12, and else 0. */
enum {
    HAPLOTYPES_ACCEPTED = 0,            /* none */
    HAPLOTYPES_RAGGED = 1,              /* bytes not a multiple of 32; for pack, cells not m * n or grades not m */
    HAPLOTYPES_TOO_MANY_FRAGMENTS = 2,  /* m over 128 */
    HAPLOTYPES_TOO_MANY_SNPS = 3,       /* n over 128 */
    HAPLOTYPES_OUT_OF_FRAME = 4,        /* span over 96; start + span over n; span 0 and start not 0; for pack, calls over more than 96 columns */
    HAPLOTYPES_STRAY_BITS = 5,          /* a grade over 15; a cell after the span that is not 0 */
    HAPLOTYPES_UNKNOWN_CALL = 6,        /* code 3 in the span; for pack, a cell over 2 */
    HAPLOTYPES_OPEN_END = 7,            /* the span's first or last cell is a hole */
    HAPLOTYPES_GAPPED = 8,              /* by S and F alone: a hole between two calls */
    HAPLOTYPES_TAG_TWICE = 9,           /* the tag of an earlier fragment */
    HAPLOTYPES_SHORT_WORK = 10,         /* work under 32768 numbers */
    HAPLOTYPES_WRONG_BUFFER = 11,       /* an output's length is not exact */
    HAPLOTYPES_TOO_DEEP = 12,           /* by C alone: over 8 fragments whose stretch from first to last call covers a column */
    HAPLOTYPES_OUT_OF_ORDER = 13,       /* a start below that of the fragment before, or the same start and a lower tag */
    HAPLOTYPES_NO_CALLS = 17            /* by pack alone: a fragment without calls */
};

/* The bytes of stack that must be free below the caller's frame: what was measured on full tables, with some room. host/stack/test measures
 * again and holds every service to its figure. F's words alone are 134,160 bytes, more than the whole stack of a thread on some systems. A thread's
 * own frames, and its thread-local variables where the C library puts them on the stack, come on top.
 *
 * Where there is less, the call touches the page below the stack before anything further down, and the system ends the program (SIGSEGV): it
 * returns no wrong number and writes to no other memory. Outputs may be written in part by then, for a program that goes on all the same. This takes
 * an inaccessible page below the stack. The system has one below the first thread's stack and each that it makes; memory that a program lends as a
 * stack itself (pthread_attr_setstack, makecontext) needs one too. */
enum {
    HAPLOTYPES_STACK_UNPACK = 8 * 1024,
    HAPLOTYPES_STACK_PACK = 8 * 1024,
    HAPLOTYPES_STACK_FIND = 8 * 1024,
    HAPLOTYPES_STACK_CHECK = 12 * 1024,
    HAPLOTYPES_STACK_CONFLICT_COUNTS = 28 * 1024,
    HAPLOTYPES_STACK_LEAST_SNP_REMOVAL = 20 * 1024,
    HAPLOTYPES_STACK_LEAST_FRAGMENT_REMOVAL = 148 * 1024,
    HAPLOTYPES_STACK_LEAST_CORRECTIONS = 52 * 1024
};

typedef uint64_t haplotypes_verdict; /* what check returns */
typedef uint64_t haplotypes_count;   /* what unpack, pack, conflict_counts, S, F and C return */

/* A null pointer, or a result that nobody reads, is a warning. */
#ifdef __GNUC__
#define HAPLOTYPES_SERVICE __attribute__((nonnull, warn_unused_result))
#else
#define HAPLOTYPES_SERVICE
#endif

/* The table's m * n cells, one byte each by fragment and then column, its m tags and its m grades, one byte each. Returns m. A record without calls
 * gives n holes, which pack will not write again (17).
 * Exact: cells_length is m * n, and tags_length and grades_length are m, or the call is refused (11). */
HAPLOTYPES_SERVICE haplotypes_count haplotypes_unpack(size_t n, const uint8_t *table, size_t table_length,
                                                      uint8_t *cells, size_t cells_length, uint32_t *tags, size_t tags_length,
                                                      uint8_t *grades, size_t grades_length);

/* The table of m fragments, m being tags_length, from their cells, tags and grades: the reverse of unpack, for tables in which every span is over 0.
 * Returns m.
 * Exact: cells_length is m * n and grades_length is m, or the call is refused (1), and table_length is 32 * m (11). No grade is over 15 (5). Each
 * fragment has a call (17). The fragments are given in the order of the records (13): they rise by their first called column, and then by tag. */
HAPLOTYPES_SERVICE haplotypes_count haplotypes_pack(size_t n, const uint8_t *cells, size_t cells_length,
                                                    const uint32_t *tags, size_t tags_length, const uint8_t *grades, size_t grades_length,
                                                    uint8_t *table, size_t table_length);

/* The byte at which the first whole record with the tag starts; table_length where none has it.
 * Takes any bytes, whole records or not, in any order; what follows the last whole record is not looked at. */
HAPLOTYPES_SERVICE size_t haplotypes_find(uint32_t tag, const uint8_t *table, size_t table_length);

/* Can the table's fragments be put in two classes with no conflict inside a class? On a yes the answer has the first such classes as sides;
 * a no leaves it as it was.
 * Exact: answer_length is 3n + 2m, or the call is refused (11). */
HAPLOTYPES_SERVICE haplotypes_verdict haplotypes_check(size_t n, const uint8_t *table, size_t table_length, uint8_t *answer, size_t answer_length);

/* For each two fragments the number of columns on which they conflict: one calls A and the other B. The m * m bytes stand row by row, that of
 * fragments i and j at m * i + j. A number is at most 96, the same for j and i, and 0 for a fragment against itself. Returns m.
 * Exact: counts_length is m * m, or the call is refused (11). */
HAPLOTYPES_SERVICE haplotypes_count haplotypes_conflict_counts(size_t n, const uint8_t *table, size_t table_length,
                                                               uint8_t *counts, size_t counts_length);

/* S: the fewest columns to remove so that the rest is error-free. Returns their number, which is that of the keep marks 0.
 * Exact: answer_length is 3n + 2m, or the call is refused (11). Work has HAPLOTYPES_WORK numbers or more (10), and is all 0 afterwards.
 * No fragment has a hole between two calls, or the call is refused (8). */
HAPLOTYPES_SERVICE haplotypes_count haplotypes_least_snp_removal(size_t n, const uint8_t *table, size_t table_length,
                                                                 uint16_t *work, size_t work_length, uint8_t *answer, size_t answer_length);

/* F: the fewest fragments to remove so that the rest is error-free. Returns their number, which is that of the sides 0.
 * Lengths, work and holes as for S. Takes 148 KiB of stack. */
HAPLOTYPES_SERVICE haplotypes_count haplotypes_least_fragment_removal(size_t n, const uint8_t *table, size_t table_length,
                                                                      uint16_t *work, size_t work_length, uint8_t *answer, size_t answer_length);

/* C: the calls of least total to correct, A to B or B to A, so that the table is error-free. Returns the total, at most HAPLOTYPES_MOST_TOTAL: the sum
 * of the fragments' weights over the cells in which the corrected table differs from the one given, and so their number where all grades are 0. No other
 * bit differs. On each column and side the letter whose fragments weigh less together is corrected, and B where they weigh the same.
 * Lengths and work as for S, and corrected_length is table_length (11). At most 8 fragments, each from its first to its last call, cover a column,
 * or the call is refused (12). */
HAPLOTYPES_SERVICE haplotypes_count haplotypes_least_corrections(size_t n, const uint8_t *table, size_t table_length,
                                                                 uint16_t *work, size_t work_length, uint8_t *answer, size_t answer_length,
                                                                 uint8_t *corrected, size_t corrected_length);

/* ---- readers of a count, from unpack, pack, conflict_counts, S, F and C. An accepted count is the number itself. */

static inline int haplotypes_count_accepted(haplotypes_count count) { return count >> 32 == 0; }

/* a refusal's number, or HAPLOTYPES_ACCEPTED */
static inline uint64_t haplotypes_count_refusal(haplotypes_count count) { return count >> 32; }

/* a refusal's place, and 0 where there is none */
static inline uint64_t haplotypes_count_place(haplotypes_count count) { return haplotypes_count_accepted(count) ? 0 : count & UINT32_MAX; }

/* ---- readers of a verdict, from check */

static inline int haplotypes_verdict_yes(haplotypes_verdict verdict) { return verdict == 0; }

static inline int haplotypes_verdict_no(haplotypes_verdict verdict) { return verdict == 1; }

/* a refusal's number, or HAPLOTYPES_ACCEPTED for a yes or a no */
static inline uint64_t haplotypes_verdict_refusal(haplotypes_verdict verdict) { return verdict / 1000; }

/* a refusal's place, and 0 where there is none */
static inline uint64_t haplotypes_verdict_place(haplotypes_verdict verdict) { return verdict < 1000 ? 0 : verdict % 1000; }

/* ---- an answer's length, and where its sections start */

static inline size_t haplotypes_answer_length(size_t n, size_t m) { return 3 * n + 2 * m; }

static inline size_t haplotypes_answer_keep_marks(void) { return 0; }

static inline size_t haplotypes_answer_haplotype_1(size_t n) { return n; }

static inline size_t haplotypes_answer_haplotype_2(size_t n) { return 2 * n; }

static inline size_t haplotypes_answer_sides(size_t n) { return 3 * n; }

static inline size_t haplotypes_answer_blocks(size_t n, size_t m) { return 3 * n + m; }

#undef HAPLOTYPES_SERVICE

#ifdef __cplusplus
}
#endif

#endif
