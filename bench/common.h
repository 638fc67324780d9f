/* What the baselines share: the check of a program, the frames of evaluating and following, the check of a record. */
#ifndef COMMON_H
#define COMMON_H

#include "baseline.h"

/* What a cell holds; EMPTY + k is the suffix of length k. While a body is taken, a list of the guard has GUARD added to
 * its number; its cell has not, since the kind of the function's result tells the contact. */
enum { UNDECIDED = 0, FALSE_ = 1, TRUE_ = 2, HEAD = 3, TAIL = 4, EMPTY = 5, GUARD = 0x2000 };

/* The kinds; a list of a contact is that contact's number plus 1. */
enum { BOOL, RAM_LIST, GUARD_LIST };

enum { MOST_PROGRAM = 4096, MOST_FUNCTIONS = 32, MOST_PARAMS = 4, RESULT = MOST_PARAMS };

/* The traces of one contact or of two, the ram's first. */
struct traces {
    unsigned contacts;
    const uint8_t *at[2];
    size_t len[2];
    uint64_t n[2];
};

struct function {
    uint32_t first, cells; /* its first cell, and how many it has */
    unsigned params, start, end;
    uint8_t kind[MOST_PARAMS + 1]; /* those of the parameters, and at RESULT that of the result */
};

struct rule {
    const uint8_t *code, *trace[2];
    uint16_t *table;
    uint32_t cells; /* those of all functions */
    unsigned contacts, n[2], len, functions;
    struct function function[MOST_FUNCTIONS];
    uint16_t ends[MOST_PROGRAM]; /* where the expression that starts at a byte ends, for an evaluator to work out */
};

/* How many values a kind has, and the number of the first. */
static inline unsigned radix(const struct rule *r, unsigned kind) { return kind ? r->n[kind - 1] + 1 : 2; }

static inline unsigned lowest(unsigned kind)
{
    return kind == BOOL ? FALSE_ : kind == RAM_LIST ? EMPTY : GUARD + EMPTY;
}

/* The number of a list with no GUARD. */
static inline unsigned in_cell(unsigned v) { return v & (GUARD - 1); }

/* Main's parameter values on the whole trace or traces. */
static inline void whole_traces(const struct rule *r, uint16_t *env)
{
    for (unsigned c = 0; c < r->contacts; c++)
        env[c] = lowest(RAM_LIST + c) + r->n[c];
}

/* Evaluates on traces, with the answer of plain_evaluate. */
typedef uint32_t evaluator(const uint8_t *program, size_t program_len, const struct traces *t, uint16_t *table,
                           size_t table_len, uint64_t answer[EVALUATED_SIZE]);

/* Begins an evaluation: meets its refusals, finds the functions and their cells in the rule, clears the cells. */
uint32_t begin(struct rule *r, const uint8_t *program, size_t program_len, const struct traces *t, uint16_t *table,
               size_t table_len);

/* Begins following: meets its refusals, and finds the functions in the rule and how many cells they would need. There
 * is no table. */
uint32_t begin_following(struct rule *r, const uint8_t *program, size_t program_len, const struct traces *t);

/* Makes passes until one stores nothing, and gives the answer. A pass answers how many outcomes it stored. */
void make_passes(const struct rule *r, uint32_t (*pass)(const struct rule *), uint64_t answer[EVALUATED_SIZE]);

/* Checks a record by one of the evaluators. */
uint32_t check_record_by(evaluator *evaluate, const uint8_t *bytes, size_t bytes_len, uint16_t *table,
                         size_t table_len, uint64_t answer[1]);

#endif
