/* Calls each function of controller.h, which this file also holds to C99, on a small panel, and compares what it answers and
 * writes with the bytes that docs/FORMATS.md gives. The first difference is named, and ends it with status 1. */
#include "controller.h"

#include <stdio.h>
#include <stdlib.h>
#include <string.h>

#define COUNT 4
/* a number below 256 as a 32-bit word, the low byte first */
#define WORD(n) (n), 0, 0, 0
/* codes of 4 bits from 0 to 15 mm, so that a code is a millimetre: 256 units, or 16 steps */
#define RANGE 'Q', 4, WORD(0), 0, 0, 0x70, 0x41
#define AXIS(a, b, c, d) RANGE, 'V', WORD(16), WORD(a), WORD(b), WORD(c), WORD(d)
#define MM(n) ((n) * 256)

static const loft_range range = {4, 0, 0x41700000};
static const loft_flat flat_design[COUNT] = {{MM(0), MM(0)}, {MM(4), MM(4)}, {MM(8), MM(8)}, {MM(15), MM(0)}};
static const loft_mould mould_design[COUNT] = {
    {MM(0), MM(0), MM(15)}, {MM(4), MM(4), MM(11)}, {MM(8), MM(8), MM(7)}, {MM(15), MM(0), MM(0)}};

/* their files under predictor 0 and packing 0 */
static const uint8_t flat_file[] = {'N', 2, 0, 0, WORD(COUNT), AXIS(0, 4, 8, 15), AXIS(0, 4, 8, 0), 'E'};
static const uint8_t mould_file[] = {
    'N', 3, 0, 0, WORD(COUNT), AXIS(0, 4, 8, 15), AXIS(0, 4, 8, 0), AXIS(15, 11, 7, 0), 'E'};

/* their vertices as placed, in steps, of which the second lies on the way to the third */
static const loft_flat flat_points[COUNT] = {{0, 0}, {64, 64}, {128, 128}, {240, 0}};
static const loft_mould mould_points[COUNT] = {{0, 0, 240}, {64, 64, 176}, {128, 128, 112}, {240, 0, 0}};
static const uint8_t marks_kept[COUNT] = {1, 0, 1, 1};

/* and their programs */
static const uint8_t flat_program[] = {
    'T', WORD(0), WORD(0), 'D', 'K', WORD(128), WORD(128), 'K', WORD(240), WORD(0), 'U', 'E'};
static const uint8_t mould_program[] = {
    'T', WORD(0), WORD(0), WORD(240), 'D', 'K', WORD(128), WORD(128), WORD(112),
    'K', WORD(240), WORD(0), WORD(0), 'U', 'E'};

static void differs(const char *call, const char *what) {
    fprintf(stderr, "controller: %s: %s differs\n", call, what);
    exit(1);
}

static void same(const char *call, const char *what, const void *found, const void *expected, size_t bytes) {
    if (memcmp(found, expected, bytes) != 0) differs(call, what);
}

static void accepted(const char *call, loft_answer found, size_t count, size_t waiting, size_t length) {
    if (found.refusal != 0 || found.place != 0) differs(call, "the refusal");
    if (found.count != count) differs(call, "the count");
    if (found.waiting != waiting) differs(call, "the number of waiting chords");
    if (found.length != length) differs(call, "the length");
}

static void refused(const char *call, loft_answer found, uint32_t refusal, size_t place) {
    if (found.refusal != refusal) differs(call, "the refusal");
    if (found.place != place) differs(call, "the place");
    if (found.count != 0 || found.waiting != 0 || found.length != 0) differs(call, "a refused call's number");
}

/* The calls of one kind; behind it stand the addresses of its ranges. */
#define CALLS(KIND, ...)                                                                                            \
    static void KIND##_calls(void) {                                                                                \
        loft_##KIND points[COUNT];                                                                                  \
        uint8_t marks[COUNT], file[sizeof KIND##_file], program[sizeof KIND##_program];                             \
        int32_t work[COUNT];                                                                                        \
        const char *store = "loft_store_" #KIND, *split = "loft_split_" #KIND, *cut = "loft_cut_" #KIND;            \
                                                                                                                    \
        accepted(store, loft_store_##KIND(KIND##_design, COUNT, 0, 0, __VA_ARGS__, work, COUNT, file, sizeof file), \
                 0, 0, sizeof file);                                                                                \
        same(store, "the file", file, KIND##_file, sizeof file);                                                    \
        refused(store, loft_store_##KIND(KIND##_design, COUNT, 9, 2, __VA_ARGS__, work, COUNT, file, sizeof file),  \
                7, 0);                                                                                              \
        refused(store, loft_store_##KIND(KIND##_design, COUNT, 8, 2, __VA_ARGS__, work, COUNT, file, sizeof file),  \
                8, 0);                                                                                              \
        same(store, "the file after a refusal", file, KIND##_file, sizeof file);                                    \
                                                                                                                    \
        memset(marks, 7, sizeof marks);                                                                             \
        accepted(split, loft_split_##KIND(KIND##_points, COUNT, COUNT, 8, marks, COUNT), 3, 1, 0);                  \
        same(split, "a mark", marks, marks_kept, sizeof marks);                                                     \
        refused(split, loft_split_##KIND(KIND##_points, COUNT, COUNT, 257, marks, COUNT), 3, 0);                    \
                                                                                                                    \
        memset(points, 0, sizeof points);                                                                           \
        memset(marks, 7, sizeof marks);                                                                             \
        accepted(cut, loft_cut_##KIND(file, sizeof file, 0, 0, LOFT_NO_TOLERANCE, points, COUNT, marks, COUNT,      \
                                      program, sizeof program),                                                     \
                 0, 0, sizeof program);                                                                             \
        same(cut, "a point", points, KIND##_points, sizeof points);                                                 \
        same(cut, "a mark", marks, marks_kept, sizeof marks);                                                       \
        same(cut, "the program", program, KIND##_program, sizeof program);                                          \
        refused(cut, loft_cut_##KIND(file, sizeof file - 1, 0, 0, LOFT_NO_TOLERANCE, points, COUNT, marks, COUNT,   \
                                     program, sizeof program),                                                      \
                4, sizeof file - 1);                                                                                \
    }

CALLS(flat, &range, &range)
CALLS(mould, &range, &range, &range)

int main(void) {
    flat_calls();
    mould_calls();
    puts("controller.h: the six calls answer and write what they should.");
    return 0;
}
