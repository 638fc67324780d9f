/* Rule programs that are built up: for the workloads, and at random to compare evaluators by. */
#ifndef PROGRAMS_H
#define PROGRAMS_H

#include <stddef.h>
#include <stdint.h>

struct bytes {
    const uint8_t *at;
    size_t len;
};

/* Room for the bytes of programs, records and archives, all 0. */
uint8_t *room(size_t size);

/* A number below another, from a seed that it changes. */
unsigned random_below(uint32_t *seed, unsigned below);

/* One body of 1,024 bytes, ifs in all three places of ifs. */
struct bytes long_body(void);

/* A body of 64 nodes, each in the one before. */
struct bytes deep(void);

/* An accepted program of just that many bytes and functions. */
struct bytes any_program(unsigned size, unsigned functions);

enum { MOST_RANDOM = 8192 };

/* Where calls stand in a program: nowhere, where those of a program that only loops may, or anywhere. */
enum calls { NO_CALLS, LOOPS, ANY_CALLS };

/* A random program over one contact or two, of up to 6 functions, some of whose bodies are up to 64 nodes deep. It is
 * accepted unless it is too long. */
struct bytes random_program(uint32_t *seed, unsigned contacts, enum calls calls, uint8_t out[MOST_RANDOM]);

#endif
