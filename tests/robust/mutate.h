/* Jobs to damage, and their damage. */
#ifndef MUTATE_H
#define MUTATE_H
#include <stddef.h>
#include <stdint.h>

/* More bytes than any job may have. */
enum { LONGEST = 65600 };

/* Takes the jobs of a file: the second of the words of each line, in hexadecimal; `-` for none. */
void read_jobs(const char *file);

/* Puts a damaged job into `job` and answers its length. */
size_t mutated(uint8_t job[LONGEST]);

#endif
