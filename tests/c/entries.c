/* Calls each entry from C, with guard values behind what is lent. */
#include <math.h>
#include <stdio.h>
#include <string.h>
#include "marks.h"

static int failed = 0;

static void expect(int ok, const char *what) {
    if (!ok) {
        printf("failed: %s\n", what);
        failed = 1;
    }
}

static int bits_are(double x, uint64_t bits) {
    uint64_t b;
    memcpy(&b, &x, sizeof b);
    return b == bits;
}

/* The worked job of README.md and its sheet, and refusals for what is lent. */
static void expect_plans(void) {
    static const uint8_t job[81] = {[3] = 0x4d, [4] = 1, [7] = 1, [10] = 4, [23] = 4, [40] = 1, [41] = 1, [42] = 'A',
        [44] = 1, [45] = 1, [46] = 1, [48] = 4, [59] = 0x28, [67] = 0x28, [71] = 0x28, [79] = 0x28};
    static const uint8_t given[37] = {[3] = 0x21, [4] = 1, [5] = 0x3f, [6] = 0xf0, [14] = 1, [15] = 1, [16] = 'A',
        [18] = 1, [21] = 0x40, [22] = 0x14, [29] = 0x40, [30] = 0x14};
    static double first[8001], second[8001];
    uint8_t sheet[64];
    uint32_t answer[4] = {9, 9, 9, 9};
    memset(sheet, 7, sizeof sheet);
    first[8000] = second[8000] = 7;
    expect(marks_plan(job, 4, first, 8000, second, 8000, sheet, 64, answer) == 0 && answer[0] == 1, "a job of 4 bytes");
    expect(answer[1] == 0 && answer[2] == 0 && sheet[0] == 7, "what a refusal leaves");
    expect(marks_plan(job, 81, first, 7999, second, 8000, sheet, 64, answer) == 0 && answer[0] == 2, "a short work slice");
    expect(marks_plan(job, 81, first, 8000, second, 8000, sheet, 36, answer) == 0 && answer[0] == 14, "a short buffer");
    expect(marks_plan(job, 81, first, 8000, second, 8000, sheet, 64, answer) == 37 && answer[0] == 0, "the worked job");
    expect(memcmp(sheet, given, 37) == 0 && sheet[37] == 7, "the worked sheet");
    expect(answer[1] == 0 && answer[2] == 0 && answer[3] == 9, "the worked job's trials");
    expect(bits_are(first[0], 0) && first[8000] == 7 && bits_are(second[7999], 0) && second[8000] == 7, "the work slices");
}

int main(void) {
    expect(bits_are(marks_root(2.0), 0x3FF6A09E667F3BCDu), "root of 2");
    expect(bits_are(marks_root(-0.0), 0x8000000000000000u), "root of -0");
    expect(isnan(marks_root(-1.0)), "root below zero");
    expect(marks_hash((const uint8_t *)"", 0) == 0xcbf29ce484222325u, "hash of nothing");
    expect(marks_hash((const uint8_t *)"foobar", 6) == 0x85944171f73967e8u, "hash of foobar");

    uint8_t number[2] = {9, 9};
    expect(marks_radical_inverse(6, 2, number) == 0.375 && number[0] == 0, "inverse of 6 in base 2");
    expect(bits_are(marks_radical_inverse(6, 1, number), 0) && number[0] == 17, "base 1");
    expect(bits_are(marks_radical_inverse(6, 65537, number), 0) && number[0] == 17, "base 65,537");
    expect(marks_radical_inverse(1, 65536, number) == 1.0 / 65536 && number[0] == 0 && number[1] == 9, "base 65,536");

    double w[17] = {1, 1, 1};
    uint64_t q[4] = {7, 7, 7, 7};
    expect(marks_quotas(5, w, 3, q, 4) == 0 && q[0] == 2 && q[1] == 2 && q[2] == 1 && q[3] == 7, "thirds");
    expect(marks_quotas(2001, w, 3, q, 4) == 18 && q[0] == 2, "count over 2,000");
    expect(marks_quotas(5, w, 17, q, 4) == 18 && q[0] == 2, "17 weights");
    expect(marks_quotas(5, w, 3, q, 2) == 19 && q[0] == 2, "two places");
    w[2] = -1;
    expect(marks_quotas(5, w, 3, q, 2) == 18 && q[0] == 2, "a weight below zero, before the places");
    w[2] = NAN;
    expect(marks_quotas(5, w, 3, q, 4) == 0 && q[0] == 5 && q[1] == 0 && q[2] == 0 && q[3] == 7, "a NaN");
    expect(marks_quotas(5, w, 0, q, 0) == 0 && q[0] == 5, "no weights");
    expect_plans();
    printf(failed ? "entries for C: failed\n" : "entries for C: all equal\n");
    return failed;
}
