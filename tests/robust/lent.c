#include "lent.h"
#include <stdio.h>
#include <stdlib.h>
#include <string.h>
#include <sys/mman.h>
#include <unistd.h>

/* Random bytes that memory is filled from, so that nothing need be kept to compare with. */
enum { POOL = 1 << 20 };
static uint8_t pool[POOL];
static uint64_t state;

/* SplitMix64 */
uint64_t bits(void) {
    uint64_t z = state += 0x9e3779b97f4a7c15u;
    z = (z ^ (z >> 30)) * 0xbf58476d1ce4e5b9u;
    z = (z ^ (z >> 27)) * 0x94d049bb133111ebu;
    return z ^ (z >> 31);
}

void start_bits(uint64_t seed) {
    state = seed;
    for (size_t i = 0; i < POOL; i += 8) {
        uint64_t b = bits();
        memcpy(pool + i, &b, 8);
    }
}

lent lent_new(size_t most) {
    size_t page = (size_t)sysconf(_SC_PAGESIZE);
    size_t room = (most + page - 1) / page * page;
    uint8_t *all = mmap(NULL, room + 2 * page, PROT_NONE, MAP_PRIVATE | MAP_ANONYMOUS, -1, 0);
    if (all == MAP_FAILED || mprotect(all + page, room, PROT_READ | PROT_WRITE) != 0) {
        perror("no memory for a slice");
        exit(2);
    }
    return (lent){all + page, room, all + page, 0, pool};
}

void lent_fill(lent *l, size_t size) {
    l->size = size;
    l->at = bits() % 2 ? l->start : l->start + (l->room - size);
    l->before = pool + bits() % (POOL - l->room);
    memcpy(l->start, l->before, l->room);
}

int lent_unchanged_after(const lent *l, size_t count) {
    size_t from = (size_t)(l->at - l->start), to = from + count;
    return memcmp(l->start, l->before, from) == 0 && memcmp(l->start + to, l->before + to, l->room - to) == 0;
}
