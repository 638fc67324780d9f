/* The sides that are compared, and what they are asked to do. */
#ifndef SIDES_H
#define SIDES_H

#include "baseline.h"
#include "workloads.h"

struct side {
    const char *name;
    program_check *check_program;
    evaluation *evaluate;
    evaluation_of_two *evaluate_two;
    record_reading *read_record;
    record_check *check_record;
    following *follow;
    following_of_two *follow_two;
};

/* The first two sides check programs and read records, each in its own way; the first three follow; all evaluate. */
enum { LIBRARY, PLAIN, DECODED, DIVIDING, SIDES, READERS = DECODED, FOLLOWERS = DIVIDING };

extern const struct side side[SIDES];

/* Compares all that the sides answer and leave in a table of CELLS_LENT cells each: on the workload itself, on tables
 * and bytes cut short, and on bytes with one changed; records to read are compared in formats 1 and 2, and those of a
 * rule over two contacts, which is evaluated, in format 3. The verdict of following is also compared with that of the
 * library's evaluating. Ends the program where they differ. Answers how many calls were compared. */
uint64_t agree(const struct workload *w, uint16_t *const table[SIDES]);

/* The same on random programs over one contact and over two, and their traces: half of the programs only loop. */
uint64_t agree_at_random(uint16_t *const table[SIDES]);

#endif
