/* Calls every service through haplotypes.h: what is returned, and every byte of every buffer. C11 and C++17.
 * Buffers are exact allocations, so that a sanitizer or valgrind sees any byte beyond them. They are dirty before a call; an accepted call is made
 * once more on buffers that were never written, where valgrind sees a byte that is read before it is written, or is left out.
 * Prints the number of cases; a case that fails ends the program with status 1, the case's name and the byte. */
#include "calling.h"

#include <inttypes.h>
#include <string.h>

#define COUNT(array) (sizeof(array) / sizeof((array)[0]))
#define ALL(array) {array, sizeof(array)}
#define NONE {"", 0}
#define LEFT(length) {NULL, length} /* an output that the call must leave as it was */
#define REFUSED(number, place) ((UINT64_C(1) << 32) * (number) + (place))
#define CHECK_REFUSED(number, place) (1000 * (number) + (place))
#define UNGRADED(m) {no_grades, m} /* m grades of 0 */
#define RECORD(tag, start, span, cells) GRADED(tag, start, span, 0, cells)
#define GRADED(tag, start, span, grade, cells) {tag, 0, 0, 0, start, 0, span, grade, cells} /* the first four cells in a byte */
#define AAA(tag, grade) GRADED(tag, 0, 3, grade, 0x15)
#define BAA(tag, grade) GRADED(tag, 0, 3, grade, 0x16)
#define HBB(tag, grade) GRADED(tag, 1, 2, grade, 0x0A) /* -BB */
#define TAGGED(a, b, c, d) {a, b, c, d, 0, 0, 1, 0, 1} /* A on column 0, under a tag of four bytes */

struct row {
    const char *name;
    enum service service;
    size_t n; /* for find, the tag */
    uint64_t code;
    struct given in[GIVEN];
    struct given out[LENT]; /* what each output holds after the call. Inputs and outputs that the service does not have may be left out */
};

static unsigned cases;

/* ---- tables, and the bytes that the services make of them */

/* AA-, BAA, -BB: the table printed in the paper, and its listing */
static const uint8_t printed[][32] = {RECORD(10, 0, 2, 0x05), RECORD(11, 0, 3, 0x16), RECORD(12, 1, 2, 0x0A)};
static const uint8_t printed_cells[] = {1, 1, 0, 2, 1, 1, 0, 2, 2};
static const uint32_t printed_tags[] = {10, 11, 12};
static const uint8_t printed_s[] = {1, 0, 1, 1, 3, 2, 2, 3, 1, 1, 2, 1, 0, 0, 0};   /* 101 A#B B#A 121 0,0,0 */
static const uint8_t printed_f[] = {1, 1, 1, 1, 1, 0, 2, 1, 1, 1, 2, 0, 0, 0, 255}; /* 111 AA- BAA 120 0,0,- */
static const uint8_t printed_c[] = {1, 1, 1, 1, 1, 1, 0, 2, 2, 1, 1, 2, 0, 0, 0};   /* 111 AAA -BB 112 0,0,0 */
static const uint8_t corrected[][32] = {RECORD(10, 0, 2, 0x05), RECORD(11, 0, 3, 0x15), RECORD(12, 1, 2, 0x0A)};
static const uint8_t printed_counts[] = {0, 1, 1, 1, 0, 2, 1, 2, 0}; /* 0 and 1: column 0; 0 and 2: column 1; 1 and 2: columns 1, 2 */
static const uint16_t work[HAPLOTYPES_WORK] = {0}, more_work[HAPLOTYPES_WORK + 1] = {0};
static const uint8_t no_grades[129] = {0};

static const uint8_t pair[][32] = {RECORD(1, 0, 1, 1), RECORD(2, 0, 1, 2)}; /* A, B */
static const uint8_t pair_cells[] = {1, 2}, pair_answer[] = {1, 1, 2, 1, 2, 0, 0}, pair_counts[] = {0, 1, 1, 0};
static const uint8_t same[][32] = {RECORD(1, 0, 2, 5), RECORD(2, 0, 2, 5)}; /* AA, AA */
static const uint8_t same_answer[] = {1, 1, 1, 1, 0, 0, 1, 1, 0, 1};
static const uint8_t opposite[][32] = {RECORD(1, 0, 2, 5), RECORD(2, 0, 2, 10)}; /* AA, BB */
static const uint8_t opposite_counts[] = {0, 2, 2, 0};
static const uint8_t apart[][32] = {RECORD(1, 0, 1, 1), RECORD(2, 0, 0, 0), RECORD(3, 2, 1, 2)}; /* A--, ---, --B */
static const uint8_t apart_answer[] = {1, 1, 1, 1, 0, 2, 0, 0, 0, 1, 1, 1, 0, 1, 2};

/* AB-, B-A, -AB: the gapped triangle, in which each two conflict on a column of their own; C turns the B of the second */
static const uint8_t triangle[][32] = {RECORD(10, 0, 2, 0x09), RECORD(11, 0, 3, 0x12), RECORD(12, 1, 2, 0x09)};
static const uint8_t triangle_cells[] = {1, 2, 0, 2, 0, 1, 0, 1, 2};
static const uint8_t triangle_counts[] = {0, 1, 1, 1, 0, 1, 1, 1, 0};
static const uint8_t triangle_c[] = {1, 1, 1, 1, 2, 1, 0, 1, 2, 1, 1, 2, 0, 0, 0}; /* 111 ABA -AB 112 0,0,0 */
static const uint8_t triangle_corrected[][32] = {RECORD(10, 0, 2, 0x09), RECORD(11, 0, 3, 0x11), RECORD(12, 1, 2, 0x09)};
/* AB-, -AB, B-A: the last starts before the second */
static const uint8_t triangle_unordered[][32] = {RECORD(10, 0, 2, 0x09), RECORD(11, 1, 2, 0x09), RECORD(12, 0, 3, 0x12)};
static const uint8_t triangle_unordered_cells[] = {1, 2, 0, 0, 1, 2, 2, 0, 1};

static const uint8_t mates[][32] = {RECORD(1, 0, 3, 0x21), RECORD(2, 0, 3, 0x12)}; /* A-B, B-A */
static const uint8_t mates_cells[] = {1, 0, 2, 2, 0, 1}, mates_counts[] = {0, 2, 2, 0};
static const uint8_t mates_answer[] = {1, 1, 1, 1, 0, 2, 2, 0, 1, 1, 2, 0, 0}; /* 111 A-B B-A 12 0,0 */
static const uint32_t mates_tags[] = {1, 2};
/* A--A, A--B, B---, error-free but for the far mates; C turns the B of the second */
static const uint8_t far_error[][32] = {RECORD(1, 0, 4, 0x41), RECORD(2, 0, 4, 0x81), RECORD(3, 0, 1, 0x02)};
static const uint8_t far_error_c[] = {1, 1, 1, 1, 1, 0, 0, 1, 2, 0, 0, 0, 1, 1, 2, 0, 0, 0}; /* 1111 A--A B--- 112 0,0,0 */
static const uint8_t far_error_corrected[][32] = {RECORD(1, 0, 4, 0x41), RECORD(2, 0, 4, 0x41), RECORD(3, 0, 1, 0x02)};

/* AAA, BAA, BAA, -BB: the first three are on one side, and the Bs of column 0 turn by their weight, 2 against 60, or the A by its number. In the last table
 * the Bs weigh 3, and it costs 2 to turn -BB to the side of AAA */
static const uint8_t light_bs[][32] = {AAA(10, 15), BAA(11, 0), BAA(12, 0), HBB(13, 15)};
static const uint8_t light_bs_c[] = {1, 1, 1, 1, 1, 1, 0, 2, 2, 1, 1, 1, 2, 0, 0, 0, 0}; /* 111 AAA -BB 1112 0,0,0,0 */
static const uint8_t light_bs_corrected[][32] = {AAA(10, 15), AAA(11, 0), AAA(12, 0), HBB(13, 15)};
static const uint8_t fewer_as[][32] = {AAA(10, 0), BAA(11, 0), BAA(12, 0), HBB(13, 0)};
static const uint8_t fewer_as_c[] = {1, 1, 1, 2, 1, 1, 0, 2, 2, 1, 1, 1, 2, 0, 0, 0, 0}; /* 111 BAA -BB 1112 0,0,0,0 */
static const uint8_t fewer_as_corrected[][32] = {BAA(10, 0), BAA(11, 0), BAA(12, 0), HBB(13, 0)};
static const uint8_t light_last[][32] = {AAA(10, 15), BAA(11, 2), BAA(12, 0), HBB(13, 0)};
static const uint8_t light_last_c[] = {1, 1, 1, 1, 1, 1, 2, 1, 1, 1, 2, 2, 1, 0, 0, 0, 3}; /* 111 AAA BAA 1221 0,0,0,3 */
static const uint8_t light_last_corrected[][32] = {AAA(10, 15), BAA(11, 2), BAA(12, 0), GRADED(13, 1, 2, 0, 0x05)};
/* the gapped triangle, and A--A, A--B, B---, the second of weight 60 and the others of 1: where grades are 0 it is the second's B that turns */
static const uint8_t heavy_triangle[][32] = {GRADED(10, 0, 2, 0, 0x09), GRADED(11, 0, 3, 15, 0x12), GRADED(12, 1, 2, 0, 0x09)};
static const uint8_t heavy_triangle_corrected[][32] = {GRADED(10, 0, 2, 0, 0x0A), GRADED(11, 0, 3, 15, 0x12), GRADED(12, 1, 2, 0, 0x09)};
static const uint8_t heavy_triangle_c[] = {1, 1, 1, 2, 2, 1, 0, 1, 2, 1, 1, 2, 0, 0, 0}; /* 111 BBA -AB 112 0,0,0 */
static const uint8_t heavy_error[][32] = {GRADED(1, 0, 4, 0, 0x41), GRADED(2, 0, 4, 15, 0x81), GRADED(3, 0, 1, 0, 0x02)};
static const uint8_t heavy_error_corrected[][32] = {GRADED(1, 0, 4, 0, 0x81), GRADED(2, 0, 4, 15, 0x81), GRADED(3, 0, 1, 0, 0x02)};
static const uint8_t heavy_error_c[] = {1, 1, 1, 1, 1, 0, 0, 2, 2, 0, 0, 0, 1, 1, 2, 0, 0, 0}; /* 1111 A--B B--- 112 0,0,0 */

static const uint8_t wide_tags[][32] = {TAGGED(0xEF, 0xCD, 0xAB, 0x89), TAGGED(0xFF, 0xFF, 0xFF, 0xFF)};
static const uint32_t wide_tags_read[] = {0x89ABCDEF, 0xFFFFFFFF};
static const uint8_t a_cells[] = {1, 1, 1, 1, 1, 1}; /* the cells of up to six fragments A */
static const uint8_t no_columns[][32] = {RECORD(1, 0, 0, 0), RECORD(2, 0, 0, 0)};
static const uint8_t no_columns_answer[] = {1, 1, 0, 1}; /* . . . 11 0,1 */

/* in order: tags that rise while their low bytes fall, and up to and over the high bit; A-, -A, -B, of which the first has the highest tag; fragments
 * without calls before, between and after A and B, by their tags */
static const uint8_t rising_tags[][32] = {TAGGED(0xFF, 0, 0, 0), TAGGED(0, 1, 0, 0),             TAGGED(0xFF, 0xFF, 0, 0),
                                          TAGGED(0, 0, 1, 0),    TAGGED(0xFF, 0xFF, 0xFF, 0x7F), TAGGED(0, 0, 0, 0x80)};
static const uint32_t rising_tags_read[] = {0xFF, 0x100, 0xFFFF, 0x10000, 0x7FFFFFFF, 0x80000000};
static const uint8_t rising_tags_answer[] = {1, 1, 0, 1, 1, 1, 1, 1, 1, 0, 1, 2, 3, 4, 5}; /* 1 A - 111111 0,1,2,3,4,5 */
static const uint8_t rising_start[][32] = {RECORD(3, 0, 1, 1), RECORD(1, 1, 1, 1), RECORD(2, 1, 1, 2)};
static const uint8_t rising_start_cells[] = {1, 0, 0, 1, 0, 2};
static const uint32_t rising_start_tags[] = {3, 1, 2};
static const uint8_t rising_start_answer[] = {1, 1, 1, 1, 0, 2, 1, 1, 2, 0, 1, 1}; /* 11 AA -B 112 0,1,1 */
static const uint8_t among[][32] = {RECORD(1, 0, 0, 0), RECORD(2, 0, 1, 1), RECORD(3, 0, 0, 0), RECORD(4, 0, 1, 2), RECORD(5, 0, 0, 0)};
static const uint8_t among_cells[] = {0, 1, 0, 2, 0};
static const uint32_t among_tags[] = {1, 2, 3, 4, 5};
static const uint8_t among_answer[] = {1, 1, 2, 1, 1, 1, 2, 1, 0, 1, 2, 1, 4}; /* 1 A B 11121 0,1,2,1,4 */

static const uint8_t long_span[][32] = {RECORD(1, 0, 97, 1)};
static const uint8_t start_alone[][32] = {RECORD(1, 1, 0, 0)};
static const uint8_t stray_cell[][32] = {RECORD(1, 0, 1, 5)};
static const uint8_t unknown[][32] = {RECORD(1, 0, 1, 3)};
static const uint8_t open_end[][32] = {RECORD(1, 0, 2, 1)};
static const uint8_t open_gapped[][32] = {RECORD(1, 0, 4, 0x11)};                                         /* A-A-, with the last hole in the span */
static const uint8_t gapped_first[][32] = {RECORD(1, 0, 3, 0x11), RECORD(2, 3, 1, 1)};                    /* A-A; A past three columns */
static const uint8_t gapped_twice[][32] = {RECORD(1, 0, 1, 1), RECORD(1, 0, 3, 0x11)};                    /* A--, A-A */
static const uint8_t gapped_last[][32] = {RECORD(1, 0, 1, 1), RECORD(1, 0, 1, 2), RECORD(2, 0, 3, 0x11)}; /* A--, B--, A-A */
static const uint8_t twice[][32] = {RECORD(1, 0, 1, 1), RECORD(1, 0, 1, 2)};

/* out of order */
static const uint8_t falling_tags[][32] = {RECORD(2, 0, 1, 1), RECORD(1, 0, 1, 2)};                      /* A, B */
static const uint8_t falling_tags_later[][32] = {RECORD(2, 1, 1, 1), RECORD(1, 1, 1, 2)};                /* -A, -B */
static const uint8_t falling_start[][32] = {RECORD(1, 1, 1, 1), RECORD(2, 0, 1, 1)};                     /* -A, A- */
static const uint8_t falling_numbers[][32] = {TAGGED(0, 1, 0, 0), TAGGED(0xFF, 0, 0, 0)};                /* 256 and 255 */
static const uint8_t falling_high_bits[][32] = {TAGGED(0, 0, 0, 0x80), TAGGED(0xFF, 0xFF, 0xFF, 0x7F)};  /* 2^31 and one less */
static const uint8_t falling_no_columns[][32] = {RECORD(2, 0, 0, 0), RECORD(1, 0, 0, 0)};
static const uint8_t empty_after_tag[][32] = {RECORD(5, 0, 1, 1), RECORD(3, 0, 0, 0)};                   /* A, - */
static const uint8_t empty_after_start[][32] = {RECORD(1, 1, 1, 1), RECORD(2, 0, 0, 0)};                 /* -A, -- */
static const uint8_t after_first[][32] = {RECORD(1, 0, 1, 1), RECORD(2, 2, 1, 1), RECORD(3, 1, 1, 1)};   /* A--, --A, -A- */
static const uint8_t falling_twice[][32] = {RECORD(3, 0, 1, 1), RECORD(2, 0, 1, 1), RECORD(1, 0, 1, 1)}; /* A, A, A */
static const uint8_t falling_first[][32] = {RECORD(2, 0, 1, 1), RECORD(1, 0, 1, 1), RECORD(3, 3, 1, 1)}; /* A--, A--; A past three columns */
static const uint8_t falling_again[][32] = {RECORD(1, 0, 1, 1), RECORD(2, 1, 1, 1), RECORD(1, 0, 1, 1)}; /* A-, -A, A-, with the first tag */

/* a fragment without calls, which pack alone refuses, beside what every service does */
static const uint8_t empty_twice[][32] = {RECORD(1, 0, 1, 1), RECORD(1, 0, 0, 0)};                             /* A, -, with one tag */
static const uint8_t empty_between_twice[][32] = {RECORD(1, 0, 1, 1), RECORD(2, 0, 0, 0), RECORD(1, 0, 1, 1)}; /* A, -, A, with the first tag */
static const uint8_t empty_after_twice[][32] = {RECORD(1, 0, 1, 1), RECORD(1, 0, 1, 1), RECORD(2, 0, 0, 0)};   /* A, A, with one tag, - */
static const uint8_t empty_after_falling[][32] = {RECORD(2, 0, 1, 1), RECORD(1, 0, 1, 1), RECORD(3, 0, 0, 0)}; /* A, A, - */

/* a grade over 15, beside what else the fragment breaks, and between fragments that break another rule */
static const uint8_t high[][32] = {RECORD(1, 0, 1, 1), GRADED(2, 0, 1, 16, 1)};                                              /* A, A */
static const uint8_t high_twice[][32] = {RECORD(1, 0, 1, 1), GRADED(1, 0, 1, 16, 1)};                                        /* A, A, with one tag */
static const uint8_t high_falling[][32] = {RECORD(1, 1, 1, 1), GRADED(2, 0, 1, 16, 1)};                                      /* -A, A- */
static const uint8_t high_unknown[][32] = {GRADED(1, 0, 1, 16, 3)}, high_open[][32] = {GRADED(1, 0, 2, 16, 1)};              /* A- in the span */
static const uint8_t high_gapped[][32] = {GRADED(1, 0, 3, 16, 0x11)}, high_empty[][32] = {GRADED(1, 0, 0, 16, 0)};           /* A-A; --- */
static const uint8_t high_start_alone[][32] = {GRADED(1, 1, 0, 16, 0)}, high_long_span[][32] = {GRADED(1, 0, 97, 16, 1)};
static const uint8_t highest_stray[][32] = {GRADED(1, 0, 1, 15, 5)};
static const uint8_t unknown_around_high[][32] = {RECORD(1, 0, 1, 3), GRADED(2, 0, 1, 16, 1), RECORD(3, 0, 1, 3)};
static const uint8_t empty_around_high[][32] = {RECORD(1, 0, 0, 0), GRADED(2, 0, 1, 16, 1), RECORD(3, 0, 0, 0)};             /* -, A, - */
static const uint8_t long_around_high[][32] = {RECORD(1, 0, 97, 1), GRADED(2, 0, 1, 16, 1), RECORD(3, 0, 97, 1)};
static const uint8_t open_around_high[][32] = {RECORD(1, 0, 2, 1), GRADED(2, 0, 1, 16, 1), RECORD(3, 0, 2, 1)};
static const uint8_t gapped_around_high[][32] = {RECORD(1, 0, 3, 0x11), GRADED(2, 0, 1, 16, 1), RECORD(3, 0, 3, 0x11)};      /* A-A, A--, A-A */
static const uint8_t twice_around_high[][32] = {RECORD(1, 0, 1, 1), RECORD(1, 0, 1, 1), GRADED(2, 0, 1, 16, 1), RECORD(2, 0, 1, 1)};
static const uint8_t falling_around_high[][32] = {RECORD(2, 0, 1, 1), RECORD(1, 0, 1, 1), GRADED(4, 0, 1, 16, 1), RECORD(3, 0, 1, 1)};
static const uint8_t high_grades[129] = {16}, last_high[] = {15, 16};

static const uint8_t unknown_cells[] = {1, 1, 0, 2, 3, 1, 0, 2, 2};
static const uint8_t unknown_around_empty_cells[] = {0, 4, 0, 0, 0, 0, 0, 0, 3}; /* no fragment has a call */
static const uint8_t falling_unknown_cells[] = {0, 0, 1, 3, 1, 0, 0, 1, 1}, falling_before_unknown_cells[] = {0, 1, 0, 1, 0, 0, 3, 0, 0};
static const uint32_t same_tags[] = {10, 11, 10};

static const uint8_t no_conflicts[128 * 128] = {0}; /* the counts of up to 128 fragments */

/* made at the start: 129 fragments A at column 0, the answer of 128 of them for 1 and for 128 columns; these 128, the last two exchanged, and the last
 * without its call, and the last of grade 16; their cells and tags; rows of a call at column 96, of calls at 97 columns, of none, and again of calls at
 * 97 columns; 128 fragments that call columns 32 to 127, As and Bs by turns, and their counts */
static uint8_t crowd[129][32], crowd_answer[3 + 256], wide_crowd_answer[3 * 128 + 256], falling_crowd[128][32], empty_last_crowd[128][32];
static uint8_t high_last_crowd[128][32], crowd_cells[128];
static uint32_t crowd_tags[128];
static uint8_t long_rows[4][97], turns[128][32], turns_counts[128 * 128];

/* made at the start too: 8 fragments A-A, their answer, and after them -A-; a fragment of A at column 32 and B at column 127, its cells and its answer */
static uint8_t stretches[9][32], stretches_answer[3 * 3 + 16], far_apart[1][32], far_apart_cells[128], far_apart_answer[3 * 128 + 2];

/* made at the start too: 8 fragments over columns 0 to 63 and 8 over the others, C's answer and its table. The 64 columns of each 8 are all ways to call
 * A and B, with A for the first and an even number of Bs; so the cost of sides depends on their sizes alone: 196, 154, 164, 148 and 160 calls where the
 * larger has 8, 7, 6, 5 and 4 fragments. The first of 148 are 11111222: 100 for the five, and 48 for the three */
static uint8_t deepest[16][32], deepest_answer[3 * 128 + 32], deepest_corrected[16][32];

/* the letter that most of some fragments have, an odd number of them */
static uint8_t common_letter(const uint8_t *letters, size_t count)
{
    size_t bs = 0;
    for (size_t i = 0; i < count; i++)
        bs += letters[i] == 2;
    return bs > count / 2 ? 2 : 1;
}

static void make_deepest(void)
{
    memset(deepest_answer, 1, 128);
    for (size_t i = 0; i < COUNT(deepest); i++) {
        const size_t group = i / 8;
        deepest[i][0] = (uint8_t)i;
        deepest[i][4] = (uint8_t)(64 * group);
        deepest[i][6] = 64;
        memcpy(deepest_corrected[i], deepest[i], 8);
        deepest_answer[3 * 128 + i] = i % 8 < 5 ? 1 : 2;
        deepest_answer[3 * 128 + 16 + i] = (uint8_t)(8 * group);
    }
    for (size_t c = 0; c < 128; c++) {
        uint8_t letters[8] = {1}, *const haplotype_1 = deepest_answer + 128 + c, *const haplotype_2 = deepest_answer + 2 * 128 + c;
        size_t bs = 0;
        for (size_t i = 1; i < 8; i++) {
            const size_t b = i < 7 ? c >> (i - 1) & 1 : bs & 1;
            letters[i] = b ? 2 : 1;
            bs += b;
        }
        *haplotype_1 = common_letter(letters, 5);
        *haplotype_2 = common_letter(letters + 5, 3);
        for (size_t i = 0; i < 8; i++) {
            const size_t fragment = c / 64 * 8 + i, byte = 8 + c % 64 / 4, bit = 2 * (c % 4);
            deepest[fragment][byte] |= (uint8_t)(letters[i] << bit);
            deepest_corrected[fragment][byte] |= (uint8_t)((i < 5 ? *haplotype_1 : *haplotype_2) << bit);
        }
    }
}

static void make_stretches(void)
{
    for (size_t i = 0; i < COUNT(stretches); i++) {
        stretches[i][0] = (uint8_t)i;
        stretches[i][4] = i == 8;
        stretches[i][6] = i == 8 ? 1 : 3;
        stretches[i][8] = i == 8 ? 1 : 0x11;
    }
    memset(stretches_answer, 1, 3);
    stretches_answer[3] = stretches_answer[5] = 1;
    memset(stretches_answer + 9, 1, 8);
    for (size_t i = 0; i < 8; i++)
        stretches_answer[17 + i] = (uint8_t)i;
}

static void make_far_apart(void)
{
    far_apart[0][0] = 1;
    far_apart[0][4] = 32;
    far_apart[0][6] = 96;
    far_apart[0][8] = 1;
    far_apart[0][31] = 2 << 6;
    memset(far_apart_answer, 1, 128);
    far_apart_cells[32] = far_apart_answer[128 + 32] = 1;
    far_apart_cells[127] = far_apart_answer[128 + 127] = 2;
    far_apart_answer[3 * 128] = 1;
}

static void make_tables(void)
{
    for (size_t i = 0; i < COUNT(crowd); i++) {
        crowd[i][0] = (uint8_t)i;
        crowd[i][6] = crowd[i][8] = 1;
    }
    crowd_answer[0] = crowd_answer[1] = 1;
    memset(crowd_answer + 3, 1, 128);
    memset(wide_crowd_answer, 1, 128 + 1);
    memset(wide_crowd_answer + 3 * 128, 1, 128);
    for (size_t i = 0; i < 128; i++) /* each a block by itself */
        crowd_answer[3 + 128 + i] = wide_crowd_answer[3 * 128 + 128 + i] = (uint8_t)i;
    memcpy(falling_crowd, crowd, sizeof falling_crowd);
    memcpy(falling_crowd[126], crowd[127], 32);
    memcpy(falling_crowd[127], crowd[126], 32);
    memcpy(empty_last_crowd, crowd, sizeof empty_last_crowd);
    empty_last_crowd[127][6] = empty_last_crowd[127][8] = 0;
    memcpy(high_last_crowd, crowd, sizeof high_last_crowd);
    high_last_crowd[127][7] = 16;
    memset(crowd_cells, 1, sizeof crowd_cells);
    for (size_t i = 0; i < COUNT(crowd_tags); i++)
        crowd_tags[i] = (uint32_t)i;
    long_rows[0][96] = 2;
    memset(long_rows[1], 2, sizeof long_rows[1]);
    memset(long_rows[3], 2, sizeof long_rows[3]);
    for (size_t i = 0; i < COUNT(turns); i++) {
        turns[i][0] = (uint8_t)i;
        turns[i][4] = 32;
        turns[i][6] = 96;
        memset(turns[i] + 8, i % 2 ? 0xAA : 0x55, 24);
        for (size_t j = 0; j < COUNT(turns); j++)
            turns_counts[128 * i + j] = i % 2 == j % 2 ? 0 : 96;
    }
}

/* ---- calls by hand: one line each */

static const struct row rows[] = {
    {"unpack", UNPACK, 3, 3, {ALL(printed)}, {ALL(printed_cells), ALL(printed_tags), UNGRADED(3)}},
    {"unpack no records", UNPACK, 0, 0, {NONE}, {NONE}},
    {"unpack tags of four bytes", UNPACK, 1, 2, {ALL(wide_tags)}, {{a_cells, 2}, ALL(wide_tags_read), UNGRADED(2)}},
    {"unpack fragments, no columns", UNPACK, 0, 2, {ALL(no_columns)}, {NONE, ALL(mates_tags), UNGRADED(2)}},
    {"unpack the gapped triangle", UNPACK, 3, 3, {ALL(triangle)}, {ALL(triangle_cells), ALL(printed_tags), UNGRADED(3)}},
    {"unpack mates", UNPACK, 3, 2, {ALL(mates)}, {ALL(mates_cells), ALL(mates_tags), UNGRADED(2)}},
    {"unpack mates over 96 columns", UNPACK, 128, 1, {ALL(far_apart)}, {ALL(far_apart_cells), {mates_tags, 4}, UNGRADED(1)}},
    {"unpack rising tags", UNPACK, 1, 6, {ALL(rising_tags)}, {ALL(a_cells), ALL(rising_tags_read), UNGRADED(6)}},
    {"unpack rising starts", UNPACK, 2, 3, {ALL(rising_start)}, {ALL(rising_start_cells), ALL(rising_start_tags), UNGRADED(3)}},
    {"unpack no calls among others", UNPACK, 1, 5, {ALL(among)}, {ALL(among_cells), ALL(among_tags), UNGRADED(5)}},
    {"unpack 128 fragments", UNPACK, 1, 128, {{crowd, 32 * 128}}, {ALL(crowd_cells), ALL(crowd_tags), UNGRADED(128)}},
    {"unpack 129 columns, a grade less", UNPACK, 129, REFUSED(3, 0), {ALL(pair)}, {LEFT(2 * 129), LEFT(8), LEFT(1)}},
    {"unpack a ragged table, a grade less", UNPACK, 3, REFUSED(1, 0), {{printed, 65}}, {LEFT(6), LEFT(8), LEFT(1)}},
    {"unpack 129 fragments, a grade less", UNPACK, 1, REFUSED(2, 0), {ALL(crowd)}, {LEFT(129), LEFT(4 * 129), LEFT(128)}},
    {"unpack no records, a grade", UNPACK, 0, REFUSED(11, 0), {NONE}, {NONE, NONE, LEFT(1)}},

    {"pack", PACK, 3, 3, {ALL(printed_cells), ALL(printed_tags), UNGRADED(3)}, {ALL(printed)}},
    {"pack no fragments", PACK, 0, 0, {NONE}, {NONE}},
    {"pack tags of four bytes", PACK, 1, 2, {{a_cells, 2}, ALL(wide_tags_read), UNGRADED(2)}, {ALL(wide_tags)}},
    {"pack 129 columns", PACK, 129, REFUSED(3, 0), {ALL(printed_cells), ALL(printed_tags), UNGRADED(3)}, {LEFT(96)}},
    {"pack 9 cells for 2 columns", PACK, 2, REFUSED(1, 0), {ALL(printed_cells), ALL(printed_tags), UNGRADED(3)}, {LEFT(96)}},
    {"pack 129 fragments", PACK, 0, REFUSED(2, 0), {NONE, {work, 4 * 129}, UNGRADED(129)}, {LEFT(32 * 129)}},
    {"pack an unknown call", PACK, 3, REFUSED(6, 1), {ALL(unknown_cells), ALL(printed_tags), UNGRADED(3)}, {LEFT(96)}},
    {"pack an unknown call and no other", PACK, 3, REFUSED(6, 0), {ALL(unknown_around_empty_cells), ALL(printed_tags), UNGRADED(3)}, {LEFT(96)}},
    {"pack no calls before an unknown call", PACK, 3, REFUSED(17, 0), {{unknown_around_empty_cells + 3, 6}, {printed_tags, 8}, UNGRADED(2)}, {LEFT(64)}},
    {"pack calls over 97 columns", PACK, 97, REFUSED(4, 0), {ALL(long_rows[1]), {printed_tags, 4}, UNGRADED(1)}, {LEFT(32)}},
    {"pack calls over 97 columns before no calls", PACK, 97, REFUSED(4, 0), {{long_rows[1], 2 * 97}, {printed_tags, 8}, UNGRADED(2)}, {LEFT(64)}},
    {"pack no calls before calls over 97 columns", PACK, 97, REFUSED(17, 0), {{long_rows[2], 2 * 97}, {printed_tags, 8}, UNGRADED(2)}, {LEFT(64)}},
    {"pack the gapped triangle", PACK, 3, 3, {ALL(triangle_cells), ALL(printed_tags), UNGRADED(3)}, {ALL(triangle)}},
    {"pack mates", PACK, 3, 2, {ALL(mates_cells), ALL(mates_tags), UNGRADED(2)}, {ALL(mates)}},
    {"pack mates over 96 columns", PACK, 128, 1, {ALL(far_apart_cells), {mates_tags, 4}, UNGRADED(1)}, {ALL(far_apart)}},
    {"pack a tag twice", PACK, 3, REFUSED(9, 2), {ALL(printed_cells), ALL(same_tags), UNGRADED(3)}, {LEFT(96)}},
    {"pack a hole and a tag twice", PACK, 3, REFUSED(9, 2), {ALL(triangle_cells), ALL(same_tags), UNGRADED(3)}, {LEFT(96)}},
    {"pack rising tags", PACK, 1, 6, {ALL(a_cells), ALL(rising_tags_read), UNGRADED(6)}, {ALL(rising_tags)}},
    {"pack rising starts", PACK, 2, 3, {ALL(rising_start_cells), ALL(rising_start_tags), UNGRADED(3)}, {ALL(rising_start)}},
    {"pack no calls among others", PACK, 1, REFUSED(17, 0), {ALL(among_cells), ALL(among_tags), UNGRADED(5)}, {LEFT(160)}},
    {"pack no calls among others, a wrong table", PACK, 1, REFUSED(11, 0), {ALL(among_cells), ALL(among_tags), UNGRADED(5)}, {LEFT(159)}},
    {"pack an unknown call, out of order", PACK, 3, REFUSED(6, 1), {ALL(falling_unknown_cells), ALL(printed_tags), UNGRADED(3)}, {LEFT(96)}},
    {"pack an unknown call after one out of order", PACK, 3, REFUSED(13, 1), {ALL(falling_before_unknown_cells), ALL(printed_tags), UNGRADED(3)}, {LEFT(96)}},
    {"pack calls over 97 columns, out of order", PACK, 97, REFUSED(4, 1), {{long_rows, 2 * 97}, {printed_tags, 8}, UNGRADED(2)}, {LEFT(64)}},
    {"pack fragments out of order, a wrong table", PACK, 3, REFUSED(11, 0), {ALL(triangle_unordered_cells), ALL(printed_tags), UNGRADED(3)}, {LEFT(95)}},
    {"pack 128 fragments", PACK, 1, 128, {ALL(crowd_cells), ALL(crowd_tags), UNGRADED(128)}, {{crowd, 32 * 128}}},
    {"pack 129 columns, a grade less", PACK, 129, REFUSED(3, 0), {ALL(printed_cells), ALL(printed_tags), UNGRADED(2)}, {LEFT(96)}},
    {"pack 129 fragments, a grade less", PACK, 0, REFUSED(1, 0), {NONE, {work, 4 * 129}, UNGRADED(128)}, {LEFT(32 * 129)}},
    {"pack a grade less, a wrong table", PACK, 3, REFUSED(1, 0), {ALL(printed_cells), ALL(printed_tags), UNGRADED(2)}, {LEFT(95)}},
    {"pack no columns, a grade less", PACK, 0, REFUSED(1, 0), {NONE, ALL(mates_tags), UNGRADED(1)}, {LEFT(64)}},
    {"pack no fragments, a grade", PACK, 0, REFUSED(1, 0), {NONE, NONE, UNGRADED(1)}, {NONE}},

    {"find the first record", FIND, 10, 0, {ALL(printed)}, {NONE}},
    {"find the last record", FIND, 12, 64, {ALL(printed)}, {NONE}},
    {"find the first of two", FIND, 1, 0, {ALL(twice)}, {NONE}},
    {"find a tag out of order", FIND, 1, 64, {ALL(falling_twice)}, {NONE}},
    {"find a record without calls", FIND, 3, 64, {ALL(among)}, {NONE}},
    {"find a tag of four bytes", FIND, 0xFFFFFFFF, 32, {ALL(wide_tags)}, {NONE}},
    {"find an absent tag", FIND, 13, 96, {ALL(printed)}, {NONE}},
    {"find a tag before a ragged end", FIND, 11, 32, {{printed, 95}}, {NONE}},
    {"find a tag in a ragged end", FIND, 12, 95, {{printed, 95}}, {NONE}},
    {"find in no bytes", FIND, 0, 0, {NONE}, {NONE}},

    {"check printed", CHECK, 3, 1, {ALL(printed)}, {LEFT(15)}},
    {"check pair", CHECK, 1, 0, {ALL(pair)}, {ALL(pair_answer)}},
    {"check same", CHECK, 2, 0, {ALL(same)}, {ALL(same_answer)}},
    {"check apart", CHECK, 3, 0, {ALL(apart)}, {ALL(apart_answer)}},
    {"check corrected", CHECK, 3, 0, {ALL(corrected)}, {ALL(printed_c)}},
    {"check empty", CHECK, 0, 0, {NONE}, {NONE}},
    {"check 128 fragments", CHECK, 1, 0, {{crowd, 32 * 128}}, {ALL(crowd_answer)}},
    {"check 128 fragments, 128 columns", CHECK, 128, 0, {{crowd, 32 * 128}}, {ALL(wide_crowd_answer)}},
    {"check the gapped triangle", CHECK, 3, 1, {ALL(triangle)}, {LEFT(15)}},
    {"check the triangle corrected", CHECK, 3, 0, {ALL(triangle_corrected)}, {ALL(triangle_c)}},
    {"check mates", CHECK, 3, 0, {ALL(mates)}, {ALL(mates_answer)}},
    {"check mates, an error on the far one", CHECK, 4, 1, {ALL(far_error)}, {LEFT(18)}},
    {"check mates over 96 columns", CHECK, 128, 0, {ALL(far_apart)}, {ALL(far_apart_answer)}},
    {"check fragments, no columns", CHECK, 0, 0, {ALL(no_columns)}, {ALL(no_columns_answer)}},
    {"check rising tags", CHECK, 1, 0, {ALL(rising_tags)}, {ALL(rising_tags_answer)}},
    {"check rising starts", CHECK, 2, 0, {ALL(rising_start)}, {ALL(rising_start_answer)}},
    {"check no calls among others", CHECK, 1, 0, {ALL(among)}, {ALL(among_answer)}},
    {"check a record out of order, a wrong answer", CHECK, 2, CHECK_REFUSED(11, 0), {ALL(falling_start)}, {LEFT(9)}},

    {"conflict_counts", CONFLICT_COUNTS, 3, 3, {ALL(printed)}, {ALL(printed_counts)}},
    {"conflict_counts of pair", CONFLICT_COUNTS, 1, 2, {ALL(pair)}, {ALL(pair_counts)}},
    {"conflict_counts of same", CONFLICT_COUNTS, 2, 2, {ALL(same)}, {{no_conflicts, 4}}},
    {"conflict_counts of opposite", CONFLICT_COUNTS, 2, 2, {ALL(opposite)}, {ALL(opposite_counts)}},
    {"conflict_counts of apart", CONFLICT_COUNTS, 3, 3, {ALL(apart)}, {{no_conflicts, 9}}},
    {"conflict_counts of no records", CONFLICT_COUNTS, 0, 0, {NONE}, {NONE}},
    {"conflict_counts of fragments, no columns", CONFLICT_COUNTS, 0, 2, {ALL(no_columns)}, {{no_conflicts, 4}}},
    {"conflict_counts of 128 fragments", CONFLICT_COUNTS, 1, 128, {{crowd, 32 * 128}}, {ALL(no_conflicts)}},
    {"conflict_counts of 128 fragments, 128 columns", CONFLICT_COUNTS, 128, 128, {ALL(turns)}, {ALL(turns_counts)}},
    {"conflict_counts of the gapped triangle", CONFLICT_COUNTS, 3, 3, {ALL(triangle)}, {ALL(triangle_counts)}},
    {"conflict_counts on both mates", CONFLICT_COUNTS, 3, 2, {ALL(mates)}, {ALL(mates_counts)}},
    {"conflict_counts of rising tags", CONFLICT_COUNTS, 1, 6, {ALL(rising_tags)}, {{no_conflicts, 36}}},

    {"S", SNPS, 3, 1, {ALL(printed)}, {ALL(work), ALL(printed_s)}},
    {"S with more work", SNPS, 3, 1, {ALL(printed)}, {ALL(more_work), ALL(printed_s)}},
    {"S of no records", SNPS, 0, 0, {NONE}, {ALL(work)}},
    {"S of 128 fragments, 128 columns", SNPS, 128, 0, {{crowd, 32 * 128}}, {ALL(work), ALL(wide_crowd_answer)}},
    {"S of rising starts", SNPS, 2, 0, {ALL(rising_start)}, {ALL(work), ALL(rising_start_answer)}},
    {"S of no calls among others", SNPS, 1, 0, {ALL(among)}, {ALL(work), ALL(among_answer)}},

    {"F", FRAGMENTS, 3, 1, {ALL(printed)}, {ALL(work), ALL(printed_f)}},
    {"F with more work", FRAGMENTS, 3, 1, {ALL(printed)}, {ALL(more_work), ALL(printed_f)}},
    {"F of no records", FRAGMENTS, 0, 0, {NONE}, {ALL(work)}},
    {"F of 128 fragments, 128 columns", FRAGMENTS, 128, 0, {{crowd, 32 * 128}}, {ALL(work), ALL(wide_crowd_answer)}},
    {"F of rising starts", FRAGMENTS, 2, 0, {ALL(rising_start)}, {ALL(work), ALL(rising_start_answer)}},
    {"F of no calls among others", FRAGMENTS, 1, 0, {ALL(among)}, {ALL(work), ALL(among_answer)}},

    {"C", CORRECTIONS, 3, 1, {ALL(printed)}, {ALL(work), ALL(printed_c), ALL(corrected)}},
    {"C with more work", CORRECTIONS, 3, 1, {ALL(printed)}, {ALL(more_work), ALL(printed_c), ALL(corrected)}},
    {"C of no records", CORRECTIONS, 0, 0, {NONE}, {ALL(work)}},
    {"C of 9 calls in a column", CORRECTIONS, 1, REFUSED(12, 0), {{crowd, 32 * 9}}, {LEFT(65536), LEFT(21), LEFT(32 * 9)}},
    {"C of 8 stretches over a column that no one calls", CORRECTIONS, 3, 0, {{stretches, 32 * 8}}, {ALL(work), ALL(stretches_answer), {stretches, 32 * 8}}},
    {"C of 9 stretches over a column that one calls", CORRECTIONS, 3, REFUSED(12, 1), {ALL(stretches)}, {LEFT(65536), LEFT(27), LEFT(32 * 9)}},
    {"C of the gapped triangle", CORRECTIONS, 3, 1, {ALL(triangle)}, {ALL(work), ALL(triangle_c), ALL(triangle_corrected)}},
    {"C of mates", CORRECTIONS, 3, 0, {ALL(mates)}, {ALL(work), ALL(mates_answer), ALL(mates)}},
    {"C of mates, an error on the far one", CORRECTIONS, 4, 1, {ALL(far_error)}, {ALL(work), ALL(far_error_c), ALL(far_error_corrected)}},
    {"C of mates over 96 columns", CORRECTIONS, 128, 0, {ALL(far_apart)}, {ALL(work), ALL(far_apart_answer), ALL(far_apart)}},
    {"C of rising starts", CORRECTIONS, 2, 0, {ALL(rising_start)}, {ALL(work), ALL(rising_start_answer), ALL(rising_start)}},
    {"C of no calls among others", CORRECTIONS, 1, 0, {ALL(among)}, {ALL(work), ALL(among_answer), ALL(among)}},
    {"C of 8 fragments over each of 128 columns", CORRECTIONS, 128, 2 * 148, {ALL(deepest)}, {ALL(work), ALL(deepest_answer), ALL(deepest_corrected)}},
};

/* What depends on grades. The rows above have none, and are tested with other grades too. */
static const struct row graded_rows[] = {
    {"unpack a grade over 15, a grade less", UNPACK, 1, REFUSED(11, 0), {ALL(high)}, {LEFT(2), LEFT(8), LEFT(1)}},
    {"pack a grade over 15, 129 columns", PACK, 129, REFUSED(3, 0), {ALL(printed_cells), ALL(printed_tags), {high_grades, 3}}, {LEFT(96)}},
    {"pack a grade over 15, 9 cells for 2 columns", PACK, 2, REFUSED(1, 0), {ALL(printed_cells), ALL(printed_tags), {high_grades, 3}}, {LEFT(96)}},
    {"pack a grade over 15, 129 fragments", PACK, 0, REFUSED(2, 0), {NONE, {work, 4 * 129}, ALL(high_grades)}, {LEFT(32 * 129)}},
    {"pack a grade over 15, a grade less", PACK, 3, REFUSED(1, 0), {ALL(printed_cells), ALL(printed_tags), {high_grades, 2}}, {LEFT(96)}},
    {"pack a grade over 15, a wrong table", PACK, 3, REFUSED(11, 0), {ALL(printed_cells), ALL(printed_tags), {high_grades, 3}}, {LEFT(95)}},
    {"pack a grade over 15, a cell of 4", PACK, 3, REFUSED(5, 0), {ALL(unknown_around_empty_cells), ALL(printed_tags), {high_grades, 3}}, {LEFT(96)}},
    {"pack a grade over 15, calls over 97 columns", PACK, 97, REFUSED(5, 0), {ALL(long_rows[1]), {printed_tags, 4}, {high_grades, 1}}, {LEFT(32)}},
    {"pack a grade over 15, then calls over 97 columns", PACK, 97, REFUSED(5, 0), {{long_rows, 2 * 97}, {printed_tags, 8}, {high_grades, 2}}, {LEFT(64)}},
    {"pack calls over 97 columns, then a grade over 15", PACK, 97, REFUSED(4, 0), {{long_rows[1], 2 * 97}, {printed_tags, 8}, ALL(last_high)}, {LEFT(64)}},

    {"C of light Bs", CORRECTIONS, 3, 2, {ALL(light_bs)}, {ALL(work), ALL(light_bs_c), ALL(light_bs_corrected)}},
    {"C of fewer As", CORRECTIONS, 3, 1, {ALL(fewer_as)}, {ALL(work), ALL(fewer_as_c), ALL(fewer_as_corrected)}},
    {"C of other sides by weights", CORRECTIONS, 3, 2, {ALL(light_last)}, {ALL(work), ALL(light_last_c), ALL(light_last_corrected)}},
    {"C of a heavy fragment in the triangle", CORRECTIONS, 3, 1, {ALL(heavy_triangle)}, {ALL(work), ALL(heavy_triangle_c), ALL(heavy_triangle_corrected)}},
    {"C of heavy mates", CORRECTIONS, 4, 1, {ALL(heavy_error)}, {ALL(work), ALL(heavy_error_c), ALL(heavy_error_corrected)}},
};

/* A and B on one column, for every service: each is accepted with the grades 0 to 15, and but for find refused with a higher one. */
static const struct row pair_rows[] = {
    {"unpack", UNPACK, 1, 2, {ALL(pair)}, {ALL(pair_cells), ALL(mates_tags), UNGRADED(2)}},
    {"pack", PACK, 1, 2, {ALL(pair_cells), ALL(mates_tags), UNGRADED(2)}, {ALL(pair)}},
    {"find", FIND, 2, 32, {ALL(pair)}, {NONE}},
    {"check", CHECK, 1, 0, {ALL(pair)}, {ALL(pair_answer)}},
    {"conflict_counts", CONFLICT_COUNTS, 1, 2, {ALL(pair)}, {ALL(pair_counts)}},
    {"S", SNPS, 1, 0, {ALL(pair)}, {ALL(work), ALL(pair_answer)}},
    {"F", FRAGMENTS, 1, 0, {ALL(pair)}, {ALL(work), ALL(pair_answer)}},
    {"C", CORRECTIONS, 1, 0, {ALL(pair)}, {ALL(work), ALL(pair_answer), ALL(pair)}},
};

/* Tables that are refused, and by whom: every service but pack and find, S and F alone, which take no holes, the others alone, or none of them; and
 * whether pack refuses their fragments so. */
enum refusing { EVERY, GAPLESS, OTHERS, NO_OTHER };

static const struct {
    const char *name;
    size_t n;
    struct given table;
    uint32_t number, place;
    enum refusing by;
    int and_pack;
} refused[] = {
    {"129 columns", 129, ALL(pair), 3, 0, EVERY, 0},
    {"129 columns before ragged", 129, {printed, 33}, 3, 0, EVERY, 0},
    {"ragged", 3, {printed, 33}, 1, 0, EVERY, 0},
    {"129 fragments", 1, ALL(crowd), 2, 0, EVERY, 0},
    {"no columns for its calls", 0, ALL(pair), 4, 0, EVERY, 0},
    {"a span of 97", 128, ALL(long_span), 4, 0, EVERY, 0},
    {"a start without calls", 3, ALL(start_alone), 4, 0, EVERY, 0},
    {"a cell after the span", 2, ALL(stray_cell), 5, 0, EVERY, 0},
    {"a cell after the span, grade 15", 2, ALL(highest_stray), 5, 0, EVERY, 0},
    {"an unknown call", 1, ALL(unknown), 6, 0, EVERY, 1},
    {"an open end", 2, ALL(open_end), 7, 0, EVERY, 0},
    {"a hole and an open end", 4, ALL(open_gapped), 7, 0, EVERY, 0},
    {"the gapped triangle", 3, ALL(triangle), 8, 1, GAPLESS, 0},
    {"a hole and a tag twice", 3, ALL(gapped_twice), 8, 1, GAPLESS, 0},
    {"a hole and a tag twice", 3, ALL(gapped_twice), 9, 1, OTHERS, 1},
    {"a hole before a record out of frame", 3, ALL(gapped_first), 8, 0, GAPLESS, 0},
    {"a hole before a record out of frame", 3, ALL(gapped_first), 4, 1, OTHERS, 0},
    {"a tag twice", 1, ALL(twice), 9, 1, EVERY, 1},
    {"a tag twice before a hole", 3, ALL(gapped_last), 9, 1, EVERY, 1},
    {"falling tags at one start", 1, ALL(falling_tags), 13, 1, EVERY, 1},
    {"falling tags at start 1", 2, ALL(falling_tags_later), 13, 1, EVERY, 1},
    {"a falling start", 2, ALL(falling_start), 13, 1, EVERY, 1},
    {"falling tags whose low bytes rise", 1, ALL(falling_numbers), 13, 1, EVERY, 1},
    {"falling tags by the high bit", 1, ALL(falling_high_bits), 13, 1, EVERY, 1},
    {"falling tags, no columns", 0, ALL(falling_no_columns), 13, 1, EVERY, 0},
    {"no calls and a lower tag at start 0", 1, ALL(empty_after_tag), 13, 1, EVERY, 0},
    {"no calls after a start of 1", 2, ALL(empty_after_start), 13, 1, EVERY, 0},
    {"a record before the second, but not the first", 3, ALL(after_first), 13, 2, EVERY, 1},
    {"two records out of order", 1, ALL(falling_twice), 13, 1, EVERY, 1},
    {"a record out of order before one out of frame", 3, ALL(falling_first), 13, 1, EVERY, 0},
    {"a tag twice, out of order", 2, ALL(falling_again), 9, 2, EVERY, 1},
    {"the gapped triangle, out of order", 3, ALL(triangle_unordered), 8, 2, GAPLESS, 0},
    {"the gapped triangle, out of order", 3, ALL(triangle_unordered), 13, 2, OTHERS, 1},
    {"128 calls in a column, the last out of order", 1, ALL(falling_crowd), 13, 127, EVERY, 1},
    {"no calls, the tag before", 1, ALL(empty_twice), 9, 1, EVERY, 0},
    {"no calls before a tag twice", 1, ALL(empty_between_twice), 9, 2, EVERY, 0},
    {"no calls after a tag twice", 1, ALL(empty_after_twice), 9, 1, EVERY, 1},
    {"no calls after a record out of order", 1, ALL(empty_after_falling), 13, 1, EVERY, 1},
    {"no calls, and no columns", 0, ALL(no_columns), 17, 0, NO_OTHER, 1},
    {"no calls between others", 3, ALL(apart), 17, 1, NO_OTHER, 1},
    {"no calls after a call", 1, {among[1], 64}, 17, 1, NO_OTHER, 1},
    {"no calls after 127 calls", 1, ALL(empty_last_crowd), 17, 127, NO_OTHER, 1},
    {"no calls, falling tags, and no columns", 0, ALL(falling_no_columns), 17, 0, NO_OTHER, 1},
    {"no calls and a lower tag at start 0", 1, ALL(empty_after_tag), 17, 1, NO_OTHER, 1},
    {"no calls after a start of 1", 2, ALL(empty_after_start), 17, 1, NO_OTHER, 1},
    {"no calls, the tag before", 1, ALL(empty_twice), 17, 1, NO_OTHER, 1},
    {"no calls before a tag twice", 1, ALL(empty_between_twice), 17, 1, NO_OTHER, 1},
    {"grade 16", 1, ALL(high), 5, 1, EVERY, 1},
    {"grade 16, a span of 97", 128, ALL(high_long_span), 4, 0, EVERY, 0},
    {"grade 16, a start without calls", 3, ALL(high_start_alone), 4, 0, EVERY, 0},
    {"grade 16, an unknown call", 1, ALL(high_unknown), 5, 0, EVERY, 1},
    {"grade 16, no calls", 3, ALL(high_empty), 5, 0, EVERY, 1},
    {"grade 16, no calls, and no columns", 0, ALL(high_empty), 5, 0, EVERY, 1},
    {"grade 16, an open end", 2, ALL(high_open), 5, 0, EVERY, 1},
    {"grade 16, a hole", 3, ALL(high_gapped), 5, 0, EVERY, 1},
    {"grade 16, a tag twice", 1, ALL(high_twice), 5, 1, EVERY, 1},
    {"grade 16, out of order", 2, ALL(high_falling), 5, 1, EVERY, 1},
    {"grade 16 after a record out of frame", 128, {long_around_high, 64}, 4, 0, EVERY, 0},
    {"grade 16 before a record out of frame", 128, {long_around_high[1], 64}, 5, 0, EVERY, 0},
    {"grade 16 after an unknown call", 1, {unknown_around_high, 64}, 6, 0, EVERY, 1},
    {"grade 16 before an unknown call", 1, {unknown_around_high[1], 64}, 5, 0, EVERY, 1},
    {"grade 16 after no calls", 1, {empty_around_high, 64}, 5, 1, EVERY, 0},
    {"grade 16 after no calls", 1, {empty_around_high, 64}, 17, 0, NO_OTHER, 1},
    {"grade 16 before no calls", 1, {empty_around_high[1], 64}, 5, 0, EVERY, 1},
    {"grade 16 after an open end", 2, {open_around_high, 64}, 7, 0, EVERY, 0},
    {"grade 16 before an open end", 2, {open_around_high[1], 64}, 5, 0, EVERY, 1},
    {"grade 16 after a hole", 3, {gapped_around_high, 64}, 8, 0, GAPLESS, 0},
    {"grade 16 after a hole", 3, {gapped_around_high, 64}, 5, 1, OTHERS, 1},
    {"grade 16 before a hole", 3, {gapped_around_high[1], 64}, 5, 0, EVERY, 1},
    {"grade 16 after a tag twice", 1, {twice_around_high, 96}, 9, 1, EVERY, 1},
    {"grade 16 before a tag twice", 1, {twice_around_high[2], 64}, 5, 0, EVERY, 1},
    {"grade 16 after a record out of order", 1, {falling_around_high, 96}, 13, 1, EVERY, 1},
    {"grade 16 before a record out of order", 1, {falling_around_high[2], 64}, 5, 0, EVERY, 1},
    {"128 calls in a column, the last of grade 16", 1, ALL(high_last_crowd), 5, 127, EVERY, 1},
};

/* ---- a case */

/* made at the start: what an output holds before a call, as no service would write it. No output is longer */
static uint8_t dirt[sizeof more_work];

static void make_dirt(void)
{
    for (size_t i = 0; i < sizeof dirt; i++)
        dirt[i] = (uint8_t)(157 + 31 * i);
}

/* By memcmp first: work buffers are long, and many are compared. */
static void same_bytes(const char *name, const char *buffer, const void *found, const void *expected, size_t length)
{
    const uint8_t *bytes = (const uint8_t *)found, *wanted = expected ? (const uint8_t *)expected : dirt;
    size_t i = 0;
    if (memcmp(bytes, wanted, length) == 0)
        return;
    while (bytes[i] == wanted[i])
        i++;
    fprintf(stderr, "host: %s: byte %zu of the %s is %u, expected %u%s\n", name, i, buffer, bytes[i], wanted[i], expected ? "" : ", as before");
    exit(1);
}

static void same_number(const char *name, const char *what, uint64_t found, uint64_t expected)
{
    if (found != expected) {
        fprintf(stderr, "host: %s: %s is %" PRIu64 ", expected %" PRIu64 "\n", name, what, found, expected);
        exit(1);
    }
}

/* The call of a row, on dirty outputs or on fresh ones. */
static void make_call(const struct row *row, int dirty)
{
    static const char *const input_names[GIVEN] = {"first input", "second input", "third input"};
    struct given in[GIVEN];
    struct lent out[LENT];
    for (size_t k = 0; k < GIVEN; k++) {
        void *copy = room(row->in[k].length);
        if (row->in[k].length)
            memcpy(copy, row->in[k].bytes, row->in[k].length);
        in[k].bytes = copy;
        in[k].length = row->in[k].length;
    }
    for (size_t k = 0; k < LENT; k++) {
        out[k].length = row->out[k].length;
        out[k].bytes = room(out[k].length);
        if (dirty)
            memcpy(out[k].bytes, dirt, out[k].length ? out[k].length : 1);
    }
    same_number(row->name, "what it returns", call(row->service, row->n, in, out), row->code);
    for (size_t k = 0; k < GIVEN; k++) {
        same_bytes(row->name, input_names[k], in[k].bytes, row->in[k].bytes, in[k].length);
        free((void *)in[k].bytes);
    }
    for (size_t k = 0; k < LENT; k++) {
        if (dirty && out[k].length == 0)
            same_bytes(row->name, "place after an empty output", out[k].bytes, NULL, 1);
        same_bytes(row->name, service_outputs[row->service][k].name, out[k].bytes, row->out[k].bytes, out[k].length);
        free(out[k].bytes);
    }
}

static void test_row(const struct row *row)
{
    int written = 1;
    for (size_t k = 0; k < LENT; k++)
        written = written && (row->out[k].bytes || row->out[k].length == 0);
    make_call(row, 1);
    if (written)
        make_call(row, 0);
    cases++;
}

/* ---- cases made from the tables above */

/* A table that the service refuses, with outputs of exact lengths. */
static void test_refusal(size_t i, enum service service)
{
    char name[80];
    size_t lengths[LENT];
    const uint32_t number = refused[i].number, place = refused[i].place;
    const uint64_t code = service == CHECK ? CHECK_REFUSED(number, place) : REFUSED(number, place);
    struct row row = {name, service, refused[i].n, code, {refused[i].table}, {NONE}};
    snprintf(name, sizeof name, "%s refuses %s", service_names[service], refused[i].name);
    exact_lengths(service, row.n, refused[i].table.length / HAPLOTYPES_RECORD, lengths);
    for (size_t k = 0; k < LENT; k++) {
        row.out[k].bytes = NULL;
        row.out[k].length = lengths[k];
    }
    test_row(&row);
}

/* The same fragments as pack is given them. */
static void test_pack_refusal(size_t i)
{
    char name[80];
    enum { COLUMNS = 4 };
    uint8_t cells[HAPLOTYPES_MOST_FRAGMENTS * COLUMNS] = {0};
    uint32_t tags[HAPLOTYPES_MOST_FRAGMENTS];
    uint8_t grades[HAPLOTYPES_MOST_FRAGMENTS];
    const uint8_t *record = (const uint8_t *)refused[i].table.bytes;
    const size_t n = refused[i].n, m = refused[i].table.length / HAPLOTYPES_RECORD;
    if (n > COLUMNS || m > HAPLOTYPES_MOST_FRAGMENTS) {
        fprintf(stderr, "host: %s: no room for the fragments\n", refused[i].name);
        exit(1);
    }
    for (size_t k = 0; k < m; k++, record += HAPLOTYPES_RECORD) {
        tags[k] = (uint32_t)record[0] | (uint32_t)record[1] << 8 | (uint32_t)record[2] << 16 | (uint32_t)record[3] << 24;
        grades[k] = record[7];
        for (size_t c = 0; c < record[6]; c++)
            cells[n * k + record[4] + c] = record[8 + c / 4] >> 2 * (c % 4) & 3;
    }
    const struct row row = {
        name, PACK, n, REFUSED(refused[i].number, refused[i].place), {{cells, m * n}, {tags, 4 * m}, {grades, m}}, {LEFT(HAPLOTYPES_RECORD * m)},
    };
    snprintf(name, sizeof name, "pack refuses %s", refused[i].name);
    test_row(&row);
}

static void test_refused(size_t i)
{
    static const enum service gapless[] = {SNPS, FRAGMENTS}, others[] = {UNPACK, CHECK, CONFLICT_COUNTS, CORRECTIONS};
    const enum refusing by = refused[i].by;
    for (size_t s = 0; (by == EVERY || by == GAPLESS) && s < COUNT(gapless); s++)
        test_refusal(i, gapless[s]);
    for (size_t s = 0; (by == EVERY || by == OTHERS) && s < COUNT(others); s++)
        test_refusal(i, others[s]);
    if (refused[i].and_pack)
        test_pack_refusal(i);
}

/* A row whose k-th output is an element shorter or longer: refused, but for longer work, which has rows of its own. */
static void test_length(const struct row *exact, size_t k, int longer)
{
    char name[80];
    struct row row = *exact;
    const struct output *output = &service_outputs[row.service][k];
    const uint32_t number = output->unit == 2 ? HAPLOTYPES_SHORT_WORK : HAPLOTYPES_WRONG_BUFFER;
    if (output->unit == 0 || (output->unit == 2 && longer) || (row.out[k].length == 0 && !longer))
        return;
    snprintf(name, sizeof name, "%s, its %s %s", exact->name, output->name, longer ? "longer" : "shorter");
    row.name = name;
    row.code = row.service == CHECK ? CHECK_REFUSED(number, 0) : REFUSED(number, 0);
    row.out[k].length = longer ? row.out[k].length + output->unit : row.out[k].length - output->unit;
    for (size_t j = 0; j < LENT; j++)
        row.out[j].bytes = NULL;
    test_row(&row);
}

/* A row of pack whose k-th input is an element shorter or longer. The tags tell m, so the others do not fit them then. */
static void test_pack_length(const struct row *exact, size_t k, int longer)
{
    static const struct output inputs[GIVEN] = {{"cells", 1}, {"tags", 4}, {"grades", 1}};
    char name[80];
    struct row row = *exact;
    const size_t unit = inputs[k].unit, length = row.in[k].length;
    uint8_t *other = (uint8_t *)room(length + unit);
    memcpy(other, row.in[k].bytes, length);
    memset(other + length, 0, unit);
    snprintf(name, sizeof name, "%s, its %s %s", exact->name, inputs[k].name, longer ? "longer" : "shorter");
    row.name = name;
    row.code = REFUSED(HAPLOTYPES_RAGGED, 0);
    row.in[k].bytes = other;
    row.in[k].length = longer ? length + unit : length - unit;
    row.out[0].bytes = NULL;
    test_row(&row);
    free(other);
}

static void test_lengths(void)
{
    static const char *const names[] = {
        "unpack", "unpack mates", "unpack fragments, no columns", "pack", "pack mates", "check pair", "conflict_counts", "S", "F", "C",
    };
    for (size_t i = 0; i < COUNT(rows); i++)
        for (size_t j = 0; j < COUNT(names); j++) {
            if (strcmp(rows[i].name, names[j]) != 0)
                continue;
            for (int longer = 0; longer < 2; longer++) {
                for (size_t k = 0; k < LENT; k++)
                    test_length(&rows[i], k, longer);
                for (size_t k = 0; rows[i].service == PACK && k < GIVEN; k++)
                    test_pack_length(&rows[i], k, longer);
            }
        }
}

/* ---- other grades */

/* of the grades 0 to 15 */
static const uint8_t weights[] = {1, 1, 2, 3, 4, 6, 8, 10, 13, 16, 20, 25, 31, 38, 46, 60};

/* The records with these grades, in the room given. */
static struct given regraded(struct given table, const uint8_t *grades, uint8_t (*records)[32])
{
    memcpy(records, table.bytes, table.length);
    for (size_t i = 0; i < table.length / HAPLOTYPES_RECORD; i++)
        records[i][7] = grades[i];
    table.bytes = records;
    return table;
}

/* A row again with other grades: of its tables, given and written, and of pack's input and unpack's output. */
static void test_regraded(const struct row *ungraded, const uint8_t *grades, uint64_t code)
{
    static uint8_t in[129][32], out[129][32];
    char name[80];
    struct row row = *ungraded;
    struct given *const written = &row.out[row.service == CORRECTIONS ? 2 : 0];
    snprintf(name, sizeof name, "%s, with grades %u, %u and so on", ungraded->name, grades[0], grades[1]);
    row.name = name;
    row.code = code;
    if (row.service == PACK)
        row.in[2].bytes = grades;
    else
        row.in[0] = regraded(row.in[0], grades, in);
    if (row.service == UNPACK && row.out[2].bytes)
        row.out[2].bytes = grades;
    if ((row.service == PACK || row.service == CORRECTIONS) && written->bytes)
        *written = regraded(*written, grades, out);
    test_row(&row);
}

/* Every row again with mixed grades, which change nothing but what is carried; and those in which C corrects with each grade throughout, whose weight
 * is then that of every correction. */
static void test_other_grades(void)
{
    uint8_t mixed[129], same_grade[129];
    for (size_t i = 0; i < COUNT(mixed); i++)
        mixed[i] = mixed_grade(i);
    for (size_t i = 0; i < COUNT(rows); i++) {
        const int corrects = rows[i].service == CORRECTIONS && rows[i].code != 0 && haplotypes_count_accepted(rows[i].code);
        if (!corrects)
            test_regraded(&rows[i], mixed, rows[i].code);
        for (size_t grade = 0; corrects && grade < COUNT(weights); grade++) {
            memset(same_grade, (int)grade, sizeof same_grade);
            test_regraded(&rows[i], same_grade, rows[i].code * weights[grade]);
        }
    }
}

/* Every byte 7 of the second of two records, and every byte as its grade given to pack. */
static void test_every_grade(void)
{
    for (unsigned grade = 0; grade < 256; grade++)
        for (size_t i = 0; i < COUNT(pair_rows); i++) {
            const uint8_t grades[] = {15, (uint8_t)grade};
            struct row row = pair_rows[i];
            if (grade > 15 && row.service != FIND) {
                row.code = row.service == CHECK ? CHECK_REFUSED(5, 1) : REFUSED(5, 1);
                for (size_t k = 0; k < LENT; k++)
                    row.out[k].bytes = NULL;
            }
            test_regraded(&row, grades, row.code);
        }
}

/* AAA or BAA by each letter given, on side 1, and last -BB, alone on side 2, of these grades: the weights on column 0 decide which letter turns. */
static void test_column_0(const char *letters, const uint8_t *grades, uint8_t common, uint64_t total)
{
    enum { MOST = 8 };
    uint8_t table[MOST][32], turned[MOST][32], answer[3 * 3 + 2 * MOST] = {1, 1, 1, common, 1, 1, 0, 2, 2};
    char name[80];
    const size_t last = strlen(letters), m = last + 1;
    for (uint8_t i = 0; i < m; i++) {
        const uint8_t as[32] = AAA(i, grades[i]), bs[32] = BAA(i, grades[i]), other[32] = HBB(i, grades[i]);
        memcpy(table[i], i == last ? other : letters[i] == 'A' ? as : bs, 32);
        memcpy(turned[i], i == last ? other : common == 1 ? as : bs, 32);
        answer[9 + i] = i == last ? 2 : 1;
    }
    const struct row row = {
        name, CORRECTIONS, 3, total, {{table, 32 * m}}, {ALL(work), {answer, 9 + 2 * m}, {turned, 32 * m}},
    };
    snprintf(name, sizeof name, "C of %s on column 0, with grades %u, %u and so on", letters, grades[0], grades[1]);
    test_row(&row);
}

/* All grades of one A and one B; and As and Bs whose weights are the same or differ by 1. */
static void test_weights(void)
{
    static const struct {
        const char *letters;
        uint8_t grades[6];
        uint8_t common;
        uint64_t total;
    } sums[] = {
        {"BA", {0, 1, 15}, 1, 1},
        {"ABB", {2, 0, 1, 15}, 1, 2},             /* 2 and 1 + 1 */
        {"ABB", {2, 1, 2, 15}, 2, 2},             /* 2 and 1 + 2 */
        {"ABB", {3, 1, 0, 15}, 1, 2},             /* 3 and 1 + 1 */
        {"ABB", {15, 0, 0, 0}, 1, 2},             /* 60 and 1 + 1: the sides 1221 and 1222 cost 2 as well, and come later */
        {"ABBB", {15, 14, 7, 4, 15}, 1, 60},      /* 60 and 46 + 10 + 4 */
        {"ABBBB", {15, 14, 7, 4, 0, 15}, 2, 60},  /* 60 and 46 + 10 + 4 + 1 */
        {"BAAA", {15, 14, 7, 4, 15}, 1, 60},
        {"BAAAA", {15, 14, 7, 4, 0, 15}, 1, 60},
    };
    for (size_t i = 0; i < COUNT(sums); i++)
        test_column_0(sums[i].letters, sums[i].grades, sums[i].common, sums[i].total);
    for (uint8_t a = 0; a < COUNT(weights); a++)
        for (uint8_t b = 0; b < COUNT(weights); b++) {
            const uint8_t grades[] = {a, b, 15};
            const int to_a = weights[b] <= weights[a];
            test_column_0("AB", grades, to_a ? 1 : 2, to_a ? weights[b] : weights[a]);
        }
}

/* ---- the readers, the sections and the sizes */

static const struct {
    const char *name;
    haplotypes_count count;
    int accepted;
    uint64_t number, place;
} counts[] = {
    {"count 0", 0, 1, HAPLOTYPES_ACCEPTED, 0},
    {"the largest count", UINT64_C(4294967295), 1, HAPLOTYPES_ACCEPTED, 0},
    {"refused 1 at 0", UINT64_C(4294967296), 0, HAPLOTYPES_RAGGED, 0},
    {"refused 5 at 127", UINT64_C(21474836607), 0, HAPLOTYPES_STRAY_BITS, 127},
    {"refused 8 at 2", UINT64_C(34359738370), 0, HAPLOTYPES_GAPPED, 2},
    {"refused 12 at 127", UINT64_C(51539607679), 0, HAPLOTYPES_TOO_DEEP, 127},
    {"refused 13 at 127", UINT64_C(55834574975), 0, HAPLOTYPES_OUT_OF_ORDER, 127},
    {"refused 17 at 127", UINT64_C(73014444159), 0, HAPLOTYPES_NO_CALLS, 127},
};

static const struct {
    const char *name;
    haplotypes_verdict verdict;
    int yes, no;
    uint64_t number, place;
} verdicts[] = {
    {"yes", 0, 1, 0, HAPLOTYPES_ACCEPTED, 0},
    {"no", 1, 0, 1, HAPLOTYPES_ACCEPTED, 0},
    {"check refused 1 at 0", 1000, 0, 0, HAPLOTYPES_RAGGED, 0},
    {"check refused 9 at 127", 9127, 0, 0, HAPLOTYPES_TAG_TWICE, 127},
    {"check refused 11 at 0", 11000, 0, 0, HAPLOTYPES_WRONG_BUFFER, 0},
    {"check refused 13 at 2", 13002, 0, 0, HAPLOTYPES_OUT_OF_ORDER, 2},
};

static void test_readers(void)
{
    for (size_t i = 0; i < COUNT(counts); i++, cases++) {
        same_number(counts[i].name, "accepted", (uint64_t)haplotypes_count_accepted(counts[i].count), (uint64_t)counts[i].accepted);
        same_number(counts[i].name, "the number", haplotypes_count_refusal(counts[i].count), counts[i].number);
        same_number(counts[i].name, "the place", haplotypes_count_place(counts[i].count), counts[i].place);
    }
    for (size_t i = 0; i < COUNT(verdicts); i++, cases++) {
        same_number(verdicts[i].name, "yes", (uint64_t)haplotypes_verdict_yes(verdicts[i].verdict), (uint64_t)verdicts[i].yes);
        same_number(verdicts[i].name, "no", (uint64_t)haplotypes_verdict_no(verdicts[i].verdict), (uint64_t)verdicts[i].no);
        same_number(verdicts[i].name, "the number", haplotypes_verdict_refusal(verdicts[i].verdict), verdicts[i].number);
        same_number(verdicts[i].name, "the place", haplotypes_verdict_place(verdicts[i].verdict), verdicts[i].place);
    }
}

/* The sections of an answer for 3 columns and 4 fragments, and the sizes that the rows above write out. */
static void test_numbers(void)
{
    const struct {
        const char *name;
        size_t found, expected;
    } numbers[] = {
        {"keep marks", haplotypes_answer_keep_marks(), 0},
        {"haplotype 1", haplotypes_answer_haplotype_1(3), 3},
        {"haplotype 2", haplotypes_answer_haplotype_2(3), 6},
        {"sides", haplotypes_answer_sides(3), 9},
        {"blocks", haplotypes_answer_blocks(3, 4), 13},
        {"an answer", haplotypes_answer_length(3, 4), 17},
        {"a record", HAPLOTYPES_RECORD, 32},
        {"work", HAPLOTYPES_WORK, 32768},
        {"most fragments", HAPLOTYPES_MOST_FRAGMENTS, 128},
        {"most columns", HAPLOTYPES_MOST_COLUMNS, 128},
        {"the highest grade", HAPLOTYPES_HIGHEST_GRADE, 15},
        {"the largest total", HAPLOTYPES_MOST_TOTAL, 30720},
    };
    for (size_t i = 0; i < COUNT(numbers); i++, cases++)
        same_number(numbers[i].name, "its place or length", numbers[i].found, numbers[i].expected);
}

int main(void)
{
    make_dirt();
    make_tables();
    make_stretches();
    make_far_apart();
    make_deepest();
    for (size_t i = 0; i < COUNT(rows); i++)
        test_row(&rows[i]);
    for (size_t i = 0; i < COUNT(graded_rows); i++)
        test_row(&graded_rows[i]);
    for (size_t i = 0; i < COUNT(refused); i++)
        test_refused(i);
    test_lengths();
    test_other_grades();
    test_every_grade();
    test_weights();
    test_readers();
    test_numbers();
    printf("%u\n", cases);
    return 0;
}
