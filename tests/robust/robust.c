/* Damaged jobs through the call: no crash, no hang, and every lent byte as its contract says.
   robust JOBS SEED SECONDS FOLDER FILE..
   A job that crashes, takes over SECONDS or is answered wrongly is kept in FOLDER, and so is the slowest. */
#include "lent.h"
#include "marks.h"
#include "mutate.h"
#include "stack.h"
#include <inttypes.h>
#include <signal.h>
#include <stdio.h>
#include <stdlib.h>
#include <string.h>
#include <sys/mman.h>
#include <time.h>
#include <unistd.h>

enum { WORK = 8000, MOST_WORK = 8500, SHEET = 15 + 64 * 37 + 2000 * 16, MOST_NUMBER = 16, MOST_TRIALS = 25 };

static lent job, first, second, sheet, numbers;
static const char *folder;

static void keep(const char *name) {
    char path[4096];
    snprintf(path, sizeof path, "%s/%s.job", folder, name);
    FILE *f = fopen(path, "wb");
    if (f == NULL) return;
    fwrite(job.at, 1, job.size, f);
    fclose(f);
}

static void stopped(int signal) {
    const char *name = signal == SIGALRM ? "slow" : "crash";
    keep(name);
    fprintf(stderr, "robust: signal %d, the job is %s/%s.job\n", signal, folder, name);
    _exit(1);
}

static void catch_signals(void) {
    static uint8_t stack[1 << 16];
    const int caught[] = {SIGALRM, SIGSEGV, SIGBUS, SIGFPE, SIGILL, SIGABRT};
    sigaltstack(&(stack_t){.ss_sp = stack, .ss_size = sizeof stack}, NULL);
    for (size_t i = 0; i < sizeof caught / sizeof *caught; i++)
        sigaction(caught[i], &(struct sigaction){.sa_handler = stopped, .sa_flags = SA_ONSTACK}, NULL);
}

static double now(void) {
    struct timespec t;
    clock_gettime(CLOCK_MONOTONIC, &t);
    return (double)t.tv_sec * 1e3 + (double)t.tv_nsec / 1e6;
}

static size_t work_length(void) {
    static const size_t lengths[] = {0, 1, 7999, 8000, 8001, MOST_WORK};
    return bits() % 24 ? WORK : lengths[bits() % (sizeof lengths / sizeof *lengths)];
}

static size_t sheet_length(void) {
    switch (bits() % 16) {
    case 0: return bits() % 400;
    case 1: return bits() % SHEET;
    default: return SHEET;
    }
}

/* The call on the job, over slices of random contents. */
static uint32_t call(size_t first_length, size_t second_length, size_t sheet_bytes) {
    lent_fill(&first, first_length * sizeof(double));
    lent_fill(&second, second_length * sizeof(double));
    lent_fill(&sheet, sheet_bytes);
    lent_fill(&numbers, 3 * sizeof(uint32_t));
    return marks_plan(job.at, job.size, (double *)first.at, first_length, (double *)second.at, second_length, sheet.at,
                      sheet_bytes, (uint32_t *)numbers.at);
}

static uint64_t number_at(const uint8_t *at, size_t size) {
    uint64_t v = 0;
    for (size_t i = 0; i < size; i++) v = v * 256 + at[i];
    return v;
}

/* Whether the bytes have a sheet's form. */
static int is_sheet(const uint8_t *s, size_t length) {
    if (length < 15 || number_at(s, 4) != length - 4 || s[4] != 1) return 0;
    size_t at = 15, marks = 0;
    for (size_t zones = number_at(s + 13, 2); zones > 0; zones--) {
        if (length < at + 1 || s[at] < 1 || s[at] > 32 || length < at + 5 + s[at]) return 0;
        at += 1 + (size_t)s[at];
        size_t placed = number_at(s + at, 2);
        marks += placed + number_at(s + at + 2, 2);
        at += 4 + 16 * placed;
    }
    return at == length && marks <= 2000;
}

/* What rows 1 and 2 say of the lent lengths, else 0. */
static uint32_t lent_refusal(void) {
    if (job.size < 5 || job.size > 65536 || number_at(job.at, 4) != job.size - 4) return 1;
    return first.size < WORK * sizeof(double) || second.size < WORK * sizeof(double) ? 2 : 0;
}

static int work_as_owed(const lent *work, uint32_t number) {
    static const uint8_t zeros[WORK * sizeof(double)];
    if (number == 1 || number == 2) return lent_unchanged_after(work, 0);
    return memcmp(work->at, zeros, sizeof zeros) == 0 && lent_unchanged_after(work, sizeof zeros);
}

/* The first thing that is not as it must be, or NULL. */
static const char *wrong(uint32_t length) {
    uint32_t answer[3];
    memcpy(answer, numbers.at, sizeof answer);
    uint32_t number = answer[0], owed = lent_refusal();
    if (number > MOST_NUMBER || (owed != 0 ? number != owed : number == 1 || number == 2)) return "the number";
    if (answer[1] > MOST_TRIALS || answer[2] > MOST_TRIALS) return "a trial count";
    if (number != 0 && (length != 0 || answer[1] != 0 || answer[2] != 0)) return "the length or a trial count of a refusal";
    if (number == 0 && (length > sheet.size || !is_sheet(sheet.at, length))) return "the sheet's form";
    if (!lent_unchanged_after(&sheet, length)) return "the buffer after the sheet";
    if (!work_as_owed(&first, number) || !work_as_owed(&second, number)) return "a work slice";
    if (!lent_unchanged_after(&numbers, sizeof answer)) return "what is beside the numbers";
    return NULL;
}

/* The same call again, over other contents: the same numbers and sheet. */
static const char *wrong_again(uint32_t length) {
    static uint8_t kept[SHEET];
    uint32_t answer[3];
    memcpy(kept, sheet.at, length);
    memcpy(answer, numbers.at, sizeof answer);
    uint32_t again = call(first.size / sizeof(double), second.size / sizeof(double), sheet.size);
    if (again != length || memcmp(kept, sheet.at, length) != 0 || memcmp(answer, numbers.at, sizeof answer) != 0)
        return "a second answer";
    return wrong(again);
}

static uint64_t counts[MOST_NUMBER + 1];
static double slowest;

/* One damaged job; whether all is right. */
static int try_one(uint64_t n, unsigned seconds) {
    static uint8_t made[LONGEST];
    size_t size = mutated(made);
    mprotect(job.start, job.room, PROT_READ | PROT_WRITE);
    lent_fill(&job, size);
    memcpy(job.at, made, size);
    mprotect(job.start, job.room, PROT_READ);
    alarm(seconds);
    double start = now();
    uint32_t length = call(work_length(), work_length(), sheet_length());
    double took = now() - start;
    const char *what = wrong(length);
    if (what == NULL && n % 8 == 0) what = wrong_again(length);
    alarm(0);
    if (took > slowest) {
        slowest = took;
        keep("slowest");
    }
    if (what != NULL) {
        keep("wrong");
        printf("robust: job %" PRIu64 ", kept as %s/wrong.job: %s is wrong\n", n, folder, what);
        return 0;
    }
    counts[*(uint32_t *)numbers.at]++;
    return 1;
}

static uint64_t total;
static unsigned seconds;

/* All jobs; whether all is right. */
static int try_all(void) {
    catch_signals();
    for (uint64_t n = 0; n < total; n++)
        if (!try_one(n, seconds)) return 0;
    return 1;
}

int main(int argc, char **argv) {
    if (argc < 6) {
        fprintf(stderr, "robust JOBS SEED SECONDS FOLDER FILE..\n");
        return 2;
    }
    total = strtoull(argv[1], NULL, 10);
    seconds = (unsigned)strtoul(argv[3], NULL, 10);
    folder = argv[4];
    start_bits(strtoull(argv[2], NULL, 10));
    for (int i = 5; i < argc; i++) read_jobs(argv[i]);
    job = lent_new(LONGEST), sheet = lent_new(SHEET), numbers = lent_new(3 * sizeof(uint32_t));
    first = lent_new(MOST_WORK * sizeof(double)), second = lent_new(MOST_WORK * sizeof(double));
    size_t stack;
    if (!on_painted_stack(try_all, &stack)) return 1;
    printf("robust: %" PRIu64 " damaged jobs as they must be: %" PRIu64 " sheets", total, counts[0]);
    for (int k = 1; k <= MOST_NUMBER; k++) printf(", %d: %" PRIu64, k, counts[k]);
    printf("; slowest %.0f ms, stack %zu KiB\n", slowest, (stack + 1023) / 1024);
    return 0;
}
