#include "stack.h"
#include <pthread.h>
#include <stdint.h>
#include <stdio.h>
#include <stdlib.h>
#include <string.h>
#include <sys/mman.h>

enum { STACK = 4 << 20, PAINT = 0xa5 };

// For valgrind, to which a stack that has been left is no memory.
#if __has_include(<valgrind/memcheck.h>)
#include <valgrind/memcheck.h>
#define MAY_BE_READ(at, length) VALGRIND_MAKE_MEM_DEFINED(at, length)
#else
#define MAY_BE_READ(at, length)
#endif

static void *begin(void *work) { return ((int (*)(void))work)() ? work : NULL; }

int on_painted_stack(int (*work)(void), size_t *used) {
    uint8_t *stack = mmap(NULL, STACK, PROT_READ | PROT_WRITE, MAP_PRIVATE | MAP_ANONYMOUS, -1, 0);
    pthread_attr_t attributes;
    pthread_t thread;
    void *answer;
    if (stack == MAP_FAILED) {
        perror("no memory for a stack");
        exit(2);
    }
    memset(stack, PAINT, STACK);
    pthread_attr_init(&attributes);
    pthread_attr_setstack(&attributes, stack, STACK);
    if (pthread_create(&thread, &attributes, begin, (void *)work) != 0 || pthread_join(thread, &answer) != 0) {
        perror("no thread");
        exit(2);
    }
    MAY_BE_READ(stack, STACK);
    size_t untouched = 0;
    while (untouched < STACK && stack[untouched] == PAINT) untouched++;
    *used = STACK - untouched;
    return answer != NULL;
}
