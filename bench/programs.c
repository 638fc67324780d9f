#include <stdio.h>
#include <stdlib.h>
#include <string.h>
#include "programs.h"

/* ---- Programs built up */

uint8_t *room(size_t size)
{
    static uint8_t store[98304];
    static size_t used;
    if (size > sizeof store - used) {
        fprintf(stderr, "the store of the workloads is too small\n");
        exit(2);
    }
    used += size;
    return store + used - size;
}

unsigned random_below(uint32_t *seed, unsigned below)
{
    *seed = *seed * 1664525 + 1013904223;
    return (*seed >> 16) % below;
}

/* What is being written: the next place, what choices are taken from, and the functions of the program: the number of
 * their parameters, and a bit for each that is a list, and that is one of the guard; at 4 for the result. */
struct writer {
    uint8_t *next;
    uint32_t seed;
    unsigned functions, own;
    uint8_t params[32], kinds[32], guards[32];
};

static unsigned choose(struct writer *w, unsigned below) { return random_below(&w->seed, below); }

/* Part i of a size cut into so many parts that differ by one at most. */
static unsigned part(unsigned size, unsigned parts, unsigned i) { return size / parts + (i < size % parts); }

static void header(struct writer *w, unsigned g, unsigned length)
{
    *w->next++ = w->params[g];
    *w->next++ = w->kinds[g];
    if (w->params[0] == 2) /* main's: over two contacts */
        *w->next++ = w->guards[g];
    *w->next++ = length % 256;
    *w->next++ = length / 256;
}

/* A tree of conditions, ifs in all three places; its leaves are taken in turn from five of 10 bytes together. */
static void tree(struct writer *w, unsigned levels, unsigned *leaf)
{
    static const uint8_t leaves[5][4] = {
        {2, 0x20, 0x10}, {3, 0x20, 0x21, 0x10}, {1, 0x01}, {3, 0x80, 0x21, 0x10}, {1, 0x00}};
    if (levels == 0) {
        const uint8_t *l = leaves[(*leaf)++ % 5];
        memcpy(w->next, l + 1, l[0]);
        w->next += l[0];
        return;
    }
    *w->next++ = 0x23;
    for (unsigned i = 0; i < 3; i++)
        tree(w, levels - 1, leaf);
}

/* main(l) = if null l then null l else if null (tl l) then main(tl l) else a tree of 202 conditions; the body has
 * 1,024 bytes. */
struct bytes long_body(void)
{
    static const uint8_t front[] = {0x23, 0x22, 0x10, 0x22, 0x10, 0x23, 0x22, 0x21, 0x10, 0x80, 0x21, 0x10, 0x23};
    uint8_t *program = room(1029);
    struct writer w = {program + 1, 0, 1, 0, {1}, {1}, {0}};
    unsigned leaf = 0;
    program[0] = 1;
    header(&w, 0, 1024);
    memcpy(w.next, front, sizeof front);
    w.next += sizeof front;
    tree(&w, 5, &leaf);
    tree(&w, 4, &leaf);
    tree(&w, 4, &leaf);
    return (struct bytes){program, w.next - program};
}

/* main(l) = null (tl (.. (tl l))), 64 nodes deep. */
struct bytes deep(void)
{
    uint8_t *program = room(69);
    struct writer w = {program + 1, 0, 1, 0, {1}, {1}, {0}};
    program[0] = 1;
    header(&w, 0, 64);
    memset(w.next, 0x21, 63);
    w.next[0] = 0x22;
    w.next[63] = 0x10;
    return (struct bytes){program, 69};
}

/* A node without operands. */
static void leaf(struct writer *w, unsigned list)
{
    unsigned p = choose(w, 4);
    if (p < w->params[w->own] && (w->kinds[w->own] >> p & 1u) == list)
        *w->next++ = 0x10 + p;
    else
        *w->next++ = list ? 0x02 : choose(w, 2);
}

/* An expression of just that many bytes. Ifs and calls cut what is left into equal parts, so it is not deep. */
static void expression(struct writer *w, unsigned list, unsigned size)
{
    unsigned g = choose(w, w->functions), params = w->params[g], kinds = w->kinds[g];
    if (size == 1) {
        leaf(w, list);
    } else if (size < 4 || (size < 8 && choose(w, 2))) {
        *w->next++ = list ? 0x21 : choose(w, 2) ? 0x20 : 0x22;
        expression(w, 1, size - 1);
    } else if (params > 1 && params < size && (kinds >> 4 & 1u) == list) {
        *w->next++ = 0x80 + g;
        for (unsigned i = 0; i < params; i++)
            expression(w, kinds >> i & 1, part(size - 1, params, i));
    } else {
        *w->next++ = 0x23;
        for (unsigned i = 0; i < 3; i++)
            expression(w, i ? list : 0, part(size - 1, 3, i));
    }
}

/* Gives a function up to four parameters of any kinds, and a result of any kind. */
static void any_kinds(struct writer *w, unsigned g)
{
    w->params[g] = choose(w, 5);
    w->kinds[g] = choose(w, 1u << w->params[g]) + 16 * choose(w, 2);
}

struct bytes any_program(unsigned size, unsigned functions)
{
    uint8_t *program = room(size);
    struct writer w = {program + 1, size, functions, 0, {1}, {1}, {0}};
    program[0] = functions;
    for (unsigned g = 1; g < functions; g++)
        any_kinds(&w, g);
    for (unsigned g = 0; g < functions; g++) {
        unsigned length = part(size - 1 - 4 * functions, functions, g);
        w.own = g;
        header(&w, g, length);
        expression(&w, w.kinds[g] >> 4 & 1, length);
    }
    return (struct bytes){program, w.next - program};
}

/* ---- At random */

/* What may be demanded: a kind, or a list of either contact. */
enum { BOOL, RAM_LIST, GUARD_LIST, EITHER };

/* The kind of a parameter, or at 4 that of the result. */
static unsigned kind_of(const struct writer *w, unsigned g, unsigned i)
{
    return (w->kinds[g] >> i & 1) + (w->guards[g] >> i & 1);
}

static int allows(unsigned demand, unsigned kind) { return demand == EITHER ? kind != BOOL : kind == demand; }

/* A parameter that is demanded where there is one, and now and then a constant. Main has a list of each contact. */
static void value(struct writer *w, unsigned demand)
{
    unsigned from = choose(w, 4), constant = choose(w, w->params[0]);
    if (demand != EITHER)
        constant = demand == BOOL ? choose(w, 2) : demand - RAM_LIST;
    for (unsigned p = from; p < from + 4; p++)
        if (p % 4 < w->params[w->own] && allows(demand, kind_of(w, w->own, p % 4)) && choose(w, 8)) {
            *w->next++ = 0x10 + p % 4;
            return;
        }
    *w->next++ = demand == BOOL ? constant : 0x02 + constant;
}

/* An expression that is at most so deep: one operand of each node goes on, the others are short. A body of depth 64 has
 * at most 1,009 bytes. */
static void nested(struct writer *w, unsigned demand, enum calls calls, unsigned depth)
{
    const enum calls inside = calls == ANY_CALLS ? ANY_CALLS : NO_CALLS;
    unsigned g = choose(w, w->functions), how = choose(w, 8), may_stop = depth < 8, branches = 0;
    unsigned operands = 3, demands[4] = {BOOL, demand, demand}, on;
    if (depth == 1 || (how == 0 && may_stop)) {
        value(w, demand);
        return;
    }
    if (how < 4 && calls != NO_CALLS && allows(demand, kind_of(w, g, 4)) && (w->params[g] || may_stop)) {
        *w->next++ = 0x80 + g;
        operands = w->params[g];
        for (unsigned i = 0; i < operands; i++)
            demands[i] = kind_of(w, g, i);
    } else if (how < 6) {
        *w->next++ = demand != BOOL ? 0x21 : choose(w, 2) ? 0x20 : 0x22;
        operands = 1, demands[0] = demand == BOOL ? EITHER : demand;
    } else {
        *w->next++ = 0x23;
        branches = 1;
    }
    on = choose(w, 4) % (operands + !operands);
    for (unsigned i = 0; i < operands; i++)
        nested(w, demands[i], branches && i > 0 ? calls : inside,
               i == on ? depth - 1 : depth > 2 ? 1 + choose(w, 2) : 1);
}

struct bytes random_program(uint32_t *seed, unsigned contacts, enum calls calls, uint8_t out[MOST_RANDOM])
{
    const size_t head = contacts == 2 ? 5 : 4;
    struct writer w = {out + 1, *seed, 0, 0, {1}, {1}, {0}};
    if (contacts == 2)
        w.params[0] = 2, w.kinds[0] = 3, w.guards[0] = 2;
    w.functions = 1 + choose(&w, 6);
    out[0] = contacts == 2 ? 0x80 + w.functions : w.functions;
    for (unsigned g = 1; g < w.functions; g++) {
        any_kinds(&w, g);
        w.guards[g] = contacts == 2 ? w.kinds[g] & choose(&w, 32) : 0;
    }
    for (; w.own < w.functions; w.own++) {
        uint8_t *start = w.next, *end;
        w.next += head;
        nested(&w, kind_of(&w, w.own, 4), calls, choose(&w, 4) ? 1 + choose(&w, 8) : 64);
        end = w.next;
        w.next = start;
        header(&w, w.own, end - start - head);
        w.next = end;
    }
    *seed = w.seed;
    return (struct bytes){out, w.next - out};
}
