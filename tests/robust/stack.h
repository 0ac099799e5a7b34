/* Runs work on a stack of its own and tells how much of that was used. */
#ifndef STACK_H
#define STACK_H
#include <stddef.h>

/* What `work` answers; `used` becomes the most bytes of stack that it used at once. */
int on_painted_stack(int (*work)(void), size_t *used);

#endif
