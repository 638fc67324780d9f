/* What is measured beside the library: its operations in C. Each function has the arguments, the answers and the
 * refusals of the one in sikafondza.h that is named like it.
 */
#ifndef BASELINE_H
#define BASELINE_H

#include "sikafondza.h"

/* What evaluating answers beside sik_evaluate's: how many undecided cells the passes visited, and how many cells they
 * came to. */
enum { EVALUATED_VISITED = SIK_EVALUATED_SIZE, EVALUATED_COME_TO, EVALUATED_SIZE };

typedef uint32_t program_check(const uint8_t *program, size_t program_len);

typedef uint32_t evaluation(const uint8_t *program, size_t program_len, const uint8_t *trace, size_t trace_len,
                            uint64_t n, uint16_t *table, size_t table_len, uint64_t answer[EVALUATED_SIZE]);

typedef uint32_t evaluation_of_two(const uint8_t *program, size_t program_len, const uint8_t *ram, size_t ram_len,
                                   uint64_t n, const uint8_t *guard, size_t guard_len, uint64_t m, uint16_t *table,
                                   size_t table_len, uint64_t answer[EVALUATED_SIZE]);

typedef uint32_t following(const uint8_t *program, size_t program_len, const uint8_t *trace, size_t trace_len,
                           uint64_t n, uint64_t answer[SIK_FOLLOWED_SIZE]);

typedef uint32_t following_of_two(const uint8_t *program, size_t program_len, const uint8_t *ram, size_t ram_len,
                                  uint64_t n, const uint8_t *guard, size_t guard_len, uint64_t m,
                                  uint64_t answer[SIK_FOLLOWED_SIZE]);

typedef uint32_t record_reading(const uint8_t *bytes, size_t bytes_len, uint64_t parts[SIK_PARTS_SIZE]);

typedef uint32_t record_check(const uint8_t *bytes, size_t bytes_len, uint16_t *table, size_t table_len,
                              uint64_t answer[1]);

/* Plain C: evaluating reads the bytes of the program at every visit of a cell, following at every call. */

program_check plain_check_program;
evaluation plain_evaluate;
evaluation_of_two plain_evaluate_two;
following plain_follow;
following_of_two plain_follow_two;
record_reading plain_read_record;
record_check plain_check_record;

/* Decoding C: evaluating and following decode each body once, and evaluating visits cells by rows. */

evaluation decoded_evaluate;
evaluation_of_two decoded_evaluate_two;
following decoded_follow;
following_of_two decoded_follow_two;
record_check decoded_check_record;

/* Dividing C: decoding C that finds the parameter values of a visited cell by dividing its number. */

evaluation dividing_evaluate;
evaluation_of_two dividing_evaluate_two;
record_check dividing_check_record;

#endif
