/* A lent slice in memory of its own: between two pages that nobody may touch, with random bytes all around it. */
#ifndef LENT_H
#define LENT_H
#include <stddef.h>
#include <stdint.h>

typedef struct {
    uint8_t *start;        /* the memory between the pages */
    size_t room;           /* how many bytes it has */
    uint8_t *at;           /* the slice, at one end of it */
    size_t size;           /* how many bytes the slice has */
    const uint8_t *before; /* what the memory held before the call */
} lent;

/* The program's own random numbers. */
uint64_t bits(void);
void start_bits(uint64_t seed);

/* Memory for slices of at most `most` bytes. */
lent lent_new(size_t most);

/* Makes the slice `size` bytes long, at either end of its memory, and fills the memory at random. */
void lent_fill(lent *l, size_t size);

/* Whether all is as before but `count` bytes from the slice's start on. */
int lent_unchanged_after(const lent *l, size_t count);

#endif
