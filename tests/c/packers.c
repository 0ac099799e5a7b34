/* Calls each packer of the test library from C as it is declared: with flags lent and without, on the same packings. */
#include <stdio.h>
#include <string.h>
#include "probes.h"

#define SPOTS 9000
#define WORK_FLOATS 8000

typedef PACKER((*packer));
typedef PACKER_NO_FLAGS((*packer_no_flags));

static const struct {
    const char *name;
    packer with_flags;
    packer_no_flags without;
} packers[4] = {
    {"uniform", probe_pack_uniform, probe_pack_uniform_no_flags},
    {"rectangular", probe_pack_rectangular, probe_pack_rectangular_no_flags},
    {"low discrepancy", probe_pack_low_discrepancy, probe_pack_low_discrepancy_no_flags},
    {"random", probe_pack_random, probe_pack_random_no_flags},
};

static int failed = 0;

static void expect(int ok, const char *name, const char *what) {
    if (!ok) {
        printf("failed: %s: %s\n", name, what);
        failed = 1;
    }
}

static const uint64_t sizes[2] = {4, 4};
static const probe_point points[8] = {{0, 0}, {40, 0}, {40, 30}, {0, 30}, {10, 10}, {10, 14}, {14, 14}, {14, 10}};
static const probe_rectangle pillar = {25, 15, 4, 4};
static double first[SPOTS + 1], second[SPOTS + 1], spots[2][2 * SPOTS + 1];
static _Bool flags[SPOTS + 1];

/* A guard value behind each slice, of so many floats. */
static void guard(size_t a, size_t b, size_t n) {
    first[a] = second[b] = spots[0][2 * n] = spots[1][2 * n] = 9;
    memset(flags, 0, sizeof flags);
    flags[n] = 1;
}

static void expect_guards(size_t a, size_t b, size_t n, const char *name) {
    expect(first[a] == 9 && second[b] == 9 && spots[0][2 * n] == 9 && spots[1][2 * n] == 9 && flags[n], name,
        "what lies behind the slices");
}

/* A packing of few marks, told by truth values and by bytes: what is given is the same. */
static void expect_same(int k, _Bool spread, _Bool strict) {
    const char *name = packers[k].name;
    const size_t quota = 20;
    const probe_packing told = {1.5, 0.25, 0.125, 0.5, quota, 200, spread, strict};
    const probe_packing_bytes bytes = {1.5, 0.25, 0.125, 0.5, quota, 200, spread ? 1 : 2, strict ? 1 : 255};
    uint64_t state[2] = {7, 7};
    guard(WORK_FLOATS, 2 * quota, quota);
    size_t n = packers[k].with_flags(sizes, 2, points, 8, &pillar, 1, &told, &state[0], first, WORK_FLOATS, second,
        2 * quota, flags, quota, spots[0], 2 * quota);
    expect_guards(WORK_FLOATS, 2 * quota, quota, name);
    size_t m = packers[k].without(sizes, 2, points, 8, &pillar, 1, &bytes, &state[1], first, WORK_FLOATS, second,
        2 * quota, spots[1], 2 * quota);
    expect_guards(WORK_FLOATS, 2 * quota, quota, name);
    expect(n == m && 0 < n && n <= quota, name, "the number");
    expect(state[0] == state[1] && (state[0] != 7) == (k == 3), name, "the stream");
    expect((k < 2 && !spread) || memcmp(spots[0], spots[1], n * 2 * sizeof(double)) == 0, name, "the spots");
}

/* Random on a wide floor, with flags for the quota and so many floats in the second slice: as many as are asked for. Without
 * flags 8,000 at the most. */
static void expect_many(size_t quota, size_t lent, _Bool spread) {
    static const uint64_t square[1] = {4};
    static const probe_point corners[4] = {{0, 0}, {1000, 0}, {1000, 1000}, {0, 1000}};
    const probe_packing told = {1, 0, 0, 1, quota, 100, spread, 1};
    const probe_packing_bytes bytes = {1, 0, 0, 1, quota, 100, spread, 1};
    uint64_t state[2] = {7, 7};
    guard(quota, lent, quota);
    size_t n = probe_pack_random(square, 1, corners, 4, NULL, 0, &told, &state[0], first, quota, lent ? second : NULL,
        lent, flags, quota, spots[0], 2 * quota);
    expect(n == quota, "random", "as many marks as are asked for");
    expect_guards(quota, lent, quota, "random");
    guard(quota, quota, quota);
    n = probe_pack_random_no_flags(square, 1, corners, 4, NULL, 0, &bytes, &state[1], first, quota, second, quota,
        spots[1], 2 * quota);
    expect(n == (quota < WORK_FLOATS ? quota : WORK_FLOATS), "random", "8,000 marks at the most without flags");
    expect_guards(quota, quota, quota, "random");
    expect((spread && n < quota) || memcmp(spots[0], spots[1], n * 2 * sizeof(double)) == 0, "random", "the first marks");
}

int main(void) {
    for (int k = 0; k < 4; k++)
        for (int choice = 0; choice < 4; choice++)
            expect_same(k, choice & 1, choice / 2);
    expect_many(WORK_FLOATS, WORK_FLOATS, 0);
    expect_many(WORK_FLOATS + 1, WORK_FLOATS + 1, 0);
    expect_many(SPOTS, 0, 0);
    expect_many(SPOTS, 0, 1);
    expect_many(500, 499, 1);
    puts(failed ? "packers for C: failed" : "packers for C: all equal");
    return failed;
}
