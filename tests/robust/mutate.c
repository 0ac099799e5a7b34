#include "mutate.h"
#include "lent.h"
#include <stdio.h>
#include <stdlib.h>
#include <string.h>

typedef struct {
    uint8_t *bytes;
    size_t length;
} job_bytes;

static job_bytes *jobs;
static size_t count;

static size_t below(size_t n) { return (size_t)(bits() % n); }

static int digit(char c) { return c <= '9' ? c - '0' : c - 'a' + 10; }

static void add_job(const char *hex) {
    size_t length = strcmp(hex, "-") == 0 ? 0 : strlen(hex) / 2;
    uint8_t *bytes = malloc(length + 1);
    for (size_t i = 0; i < length; i++)
        bytes[i] = (uint8_t)(digit(hex[2 * i]) * 16 + digit(hex[2 * i + 1]));
    jobs = realloc(jobs, (count + 1) * sizeof *jobs);
    jobs[count++] = (job_bytes){bytes, length};
}

void read_jobs(const char *file) {
    static char line[400000];
    FILE *f = fopen(file, "r");
    if (f == NULL) {
        perror(file);
        exit(2);
    }
    while (fgets(line, sizeof line, f) != NULL) {
        char *name = strtok(line, " \n"), *hex = strtok(NULL, " \n");
        if (name != NULL && name[0] != '#' && hex != NULL) add_job(hex);
    }
    fclose(f);
}

static void put(uint8_t *at, size_t size, uint64_t value) {
    for (size_t i = 0; i < size; i++) at[i] = (uint8_t)(value >> 8 * (size - 1 - i));
}

/* A number at or beside a limit, a small one, or any. */
static uint64_t telling(void) {
    static const int64_t limits[] = {
        0, 1, 2, 3, 4, 5, 8, 9, 10, 16, 17, 32, 33, 64, 65, 255, 256, 257, 1024, 2000, 2001, 16384, 16385, 65535, 65536,
        1048576, 1048577, -1048576, -1048577, INT32_MAX, INT32_MIN, UINT32_MAX,
    };
    switch (below(4)) {
    case 0: return below(3000);
    case 1: return bits();
    default: return (uint64_t)limits[below(sizeof limits / sizeof *limits)];
    }
}

/* Other options of the head, all in their ranges. */
static void other_options(uint8_t *job, size_t length) {
    if (length < 39) return;
    job[5] = (uint8_t)below(4);
    job[6] = (uint8_t)below(2);
    job[7] = (uint8_t)below(2);
    put(job + 8, 4, job[7] ? below(1 << below(21)) : 0);
    put(job + 12, 4, below(1 << below(15)));
    put(job + 25, 4, below(200));
    put(job + 29, 8, bits());
}

/* Writes `run` bytes of another job, or of this one, at `at`: over what stands there, or before it. */
static size_t spliced(uint8_t *job, size_t length, size_t at) {
    job_bytes other = jobs[below(count)];
    if (below(2) || other.length == 0) other = (job_bytes){job, length};
    if (other.length == 0) return length;
    static uint8_t piece[64];
    size_t from = below(other.length), run = 1 + below(64);
    if (run > other.length - from) run = other.length - from;
    memcpy(piece, other.bytes + from, run);
    size_t moved = below(2) ? length - at : 0;
    if (at + run + moved > LONGEST) return length;
    memmove(job + at + run, job + at, moved);
    memcpy(job + at, piece, run);
    return at + run + moved > length ? at + run + moved : length;
}

static size_t damaged(uint8_t *job, size_t length) {
    if (length == 0) return length;
    size_t at = below(3) ? below(length) : below(length < 60 ? length : 60), run = 1 + below(16);
    size_t size = (size_t)1 << below(4);
    switch (below(10)) {
    case 0:
    case 1: job[at] ^= (uint8_t)(1 << below(8)); break;
    case 2: job[at] = (uint8_t)telling(); break;
    case 3:
    case 4:
        if (at + size <= length) put(job + at, size, telling());
        break;
    case 5: return spliced(job, length, at);
    case 6:
        if (run > length - at) run = length - at;
        memmove(job + at, job + at + run, length - at - run);
        return length - run;
    case 7: return below(4) ? length : at;
    default: other_options(job, length);
    }
    return length;
}

size_t mutated(uint8_t job[LONGEST]) {
    job_bytes base = jobs[below(count)];
    size_t length = base.length < LONGEST ? base.length : LONGEST;
    memcpy(job, base.bytes, length);
    if (below(4) == 0) {
        other_options(job, length);
        return length;
    }
    for (size_t left = 1 + below(4); left > 0; left--) length = damaged(job, length);
    if (length >= 4 && below(32)) put(job, 4, length - 4);
    return length;
}
