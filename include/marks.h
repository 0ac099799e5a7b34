/* The disc packer's entries for C. Link target/staticlib/libmarks.a, which `tools/build` proves and writes. */
#ifndef MARKS_H
#define MARKS_H
#include <stddef.h>
#include <stdint.h>

/* The IEEE 754 square root: nearest, ties to even; NaN below zero; -0 for -0. */
double marks_root(double x);

/* FNV-1a of 64 bits. */
uint64_t marks_hash(const uint8_t *bytes, size_t length);

/* The radical inverse. *number is 0, or 17 for a base outside 2..65,536, and the value is then 0. */
double marks_radical_inverse(uint64_t index, uint64_t base, uint8_t *number);

/* The count over the weights by largest remainder, one quota for each weight. Answers 0; 18 for a count over 2,000,
   over 16 weights or a weight below 0; 19 where places is less than weights_length. After 18 and 19 no quota changes,
   after 0 only the first weights_length do. */
uint8_t marks_quotas(uint64_t count, const double *weights, size_t weights_length, uint64_t *quotas, size_t places);

/* The plan of a job: its sheet, written to the front of the buffer, and its length. answer[0] is 0; answer[1] and
   answer[2] are the trial packings made for an automatic radius, free of obstacles and with them, at most 25 each.
   Refused: the length and both counts are 0, the buffer is unchanged, and answer[0] is the number of the first row that
   applies:
     1  the job has under 5 or over 65,536 bytes, or its length field is not the rest
     2  a work slice has under 8,000 floats
     3  the version is not 1
     4  a value of the head is outside its range, but for the number after a kind 0
     5  the number after a kind 0 is not 0
     6  the job ends inside an item
     8  an obstacle count or number is outside its range
     9  a zone, piece, ring, vertex or mark count or a key length is outside its range
    10  a key byte is not A-Z, a-z, 0-9
    11  a key is not above the last one in byte order
    12  the mark counts add up to over 2,000
    13  a vertex coordinate is outside its range
     7  bytes are left over at the job's end
    14  the sheet buffer is shorter than 15 and, for each zone left in, 5 + key length + 16 * count
    15  over 1,600 cells of a search for a deepest point wait at once
    16  the ceiling of an automatic radius is under 2^-10
   15 + 64 * 37 + 2000 * 16 bytes are enough for every sheet; bytes after it are unchanged. What the work slices hold at
   first is not read. They are untouched after 1 and 2; else their first 8,000 floats are +0 and the rest is unchanged. */
uint32_t marks_plan(const uint8_t *job, size_t job_length, double *first, size_t first_length, double *second,
                    size_t second_length, uint8_t *sheet, size_t sheet_length, uint32_t answer[3]);

#endif
