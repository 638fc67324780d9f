#include <stdio.h>
#include <stdlib.h>
#include <string.h>
#include "sides.h"

const struct side side[SIDES] = {
    {"the library", sik_check_program, sik_evaluate, sik_evaluate_two, sik_read_record, sik_check_record, sik_follow,
     sik_follow_two},
    {"plain C", plain_check_program, plain_evaluate, plain_evaluate_two, plain_read_record, plain_check_record,
     plain_follow, plain_follow_two},
    {"decoding C", plain_check_program, decoded_evaluate, decoded_evaluate_two, plain_read_record,
     decoded_check_record, decoded_follow, decoded_follow_two},
    {"dividing C", plain_check_program, dividing_evaluate, dividing_evaluate_two, plain_read_record,
     dividing_check_record, NULL, NULL},
};

/* The tables of the sides, and how many calls were compared. */
struct tables {
    uint16_t *const *of;
    uint64_t calls;
};

static void fail(const char *what)
{
    printf("%s\n", what);
    exit(1);
}

/* What a call of one side gave, the table apart. */
struct given {
    uint32_t number;
    uint64_t answer[SIK_PARTS_SIZE];
};

enum { SPOILT = 0xAAAA };

static void spoil(struct given *g) { memset(g->answer, SPOILT & 255, sizeof g->answer); }

/* Gives a side's table a content that no cell has after an evaluation. */
static void spoil_cells(const struct tables *t, unsigned i, size_t cells)
{
    memset(t->of[i], SPOILT & 255, cells * sizeof **t->of);
}

/* Counts a call of so many sides, and ends the program if one of them gave something else than the library: a number,
 * so many places of an answer, so many cells. */
static void compare(struct tables *t, const char *what, const struct given *g, unsigned sides, size_t places,
                    size_t cells)
{
    t->calls++;
    for (unsigned i = 1; i < sides; i++) {
        if (g[i].number == g->number && !memcmp(g[i].answer, g->answer, places * sizeof *g->answer)
            && !memcmp(t->of[i], *t->of, cells * sizeof **t->of))
            continue;
        printf("%s, numbers %u and %u: the library differs from ", what, (unsigned)g->number, (unsigned)g[i].number);
        fail(side[i].name);
    }
}

/* ---- One call of each side */

/* The trace of a contact, of so many samples. */
struct trace {
    struct bytes bytes;
    unsigned n;
};

/* One side evaluates, on one trace or two. */
static uint32_t evaluate_by(const struct side *s, struct bytes program, const struct trace *trace, size_t traces,
                            uint16_t *table, size_t told, uint64_t *answer)
{
    const struct bytes ram = trace[0].bytes;
    if (traces == 1)
        return s->evaluate(program.at, program.len, ram.at, ram.len, trace[0].n, table, told, answer);
    return s->evaluate_two(program.at, program.len, ram.at, ram.len, trace[0].n, trace[1].bytes.at,
                           trace[1].bytes.len, trace[1].n, table, told, answer);
}

/* On one trace or two, in a table of so many cells, of which the sides are told a part. */
static uint32_t evaluate(struct tables *t, struct bytes program, const struct trace *trace, size_t traces, size_t lent,
                         size_t told)
{
    struct given g[SIDES];
    for (unsigned i = 0; i < SIDES; i++) {
        spoil(&g[i]);
        spoil_cells(t, i, lent);
        g[i].number = evaluate_by(&side[i], program, trace, traces, t->of[i], told, g[i].answer);
    }
    compare(t, "evaluating", g, SIDES, SIK_EVALUATED_SIZE, lent);
    return g->number;
}

/* One side follows, on one trace or two. */
static uint32_t follow_by(const struct side *s, struct bytes program, const struct trace *trace, size_t traces,
                          uint64_t *answer)
{
    const struct bytes ram = trace[0].bytes;
    if (traces == 1)
        return s->follow(program.at, program.len, ram.at, ram.len, trace[0].n, answer);
    return s->follow_two(program.at, program.len, ram.at, ram.len, trace[0].n, trace[1].bytes.at, trace[1].bytes.len,
                         trace[1].n, answer);
}

/* Compares what following gave with the library's evaluating in a table of so many cells: the number, unless it is 24
 * or the table is too short, and the verdict. */
static void compare_verdict(const struct tables *t, const struct given *followed, struct bytes program,
                            const struct trace *trace, size_t traces, size_t told)
{
    struct given g;
    spoil(&g);
    g.number = evaluate_by(&side[LIBRARY], program, trace, traces, t->of[LIBRARY], told, g.answer);
    if (followed->number == SIK_REFUSED_CALL_ELSEWHERE || g.number == SIK_REFUSED_TABLE_SHORT)
        return;
    if (g.number != followed->number || g.answer[SIK_EVALUATED_VERDICT] != followed->answer[SIK_FOLLOWED_VERDICT])
        fail("following gives another number or verdict than the library's evaluating");
}

/* On one trace or two; the verdict is that of evaluating in a table of so many cells, where they are enough. */
static uint32_t follow(struct tables *t, struct bytes program, const struct trace *trace, size_t traces, size_t told)
{
    struct given g[FOLLOWERS];
    for (unsigned i = 0; i < FOLLOWERS; i++) {
        spoil(&g[i]);
        g[i].number = follow_by(&side[i], program, trace, traces, g[i].answer);
    }
    compare(t, "following", g, FOLLOWERS, SIK_FOLLOWED_SIZE, 0);
    compare_verdict(t, g, program, trace, traces, told);
    return g->number;
}

static uint32_t check_program(struct tables *t, const uint8_t *program, size_t len)
{
    struct given g[READERS];
    for (unsigned i = 0; i < READERS; i++)
        g[i].number = side[i].check_program(program, len);
    compare(t, "checking a program", g, READERS, 0, 0);
    return g->number;
}

/* Answers how many bytes stand before the record, or SIZE_MAX where it is refused. */
static size_t read_record(struct tables *t, const uint8_t *bytes, size_t len)
{
    struct given g[READERS];
    for (unsigned i = 0; i < READERS; i++) {
        spoil(&g[i]);
        g[i].number = side[i].read_record(bytes, len, g[i].answer);
    }
    compare(t, "reading a record", g, READERS, SIK_PARTS_SIZE, 0);
    return g->number ? SIZE_MAX : g->answer[SIK_PARTS_BEFORE];
}

static void check_record(struct tables *t, const uint8_t *bytes, size_t len)
{
    struct given g[SIDES];
    for (unsigned i = 0; i < SIDES; i++) {
        spoil(&g[i]);
        spoil_cells(t, i, LISTING_CELLS);
        g[i].number = side[i].check_record(bytes, len, t->of[i], LISTING_CELLS, g[i].answer);
    }
    compare(t, "checking a record", g, SIDES, SIK_CHECKED_SIZE, LISTING_CELLS);
}

/* ---- Faults */

/* The bytes that are put in the place of another: limits of each group of the table of bytes, and the mark. */
static const uint8_t faults[] = {0x00, 0x01, 0x02, 0x03, 0x04, 0x05, 0x10, 0x11, 0x14, 0x20, 0x21,
                                 0x22, 0x23, 0x24, 0x25, 0x52, 0x80, 0x81, 0x9F, 0xA0, 0xA1, 0xFF};

/* Each byte of short bytes is changed to all of them, and of long bytes to some of them, not the same for all bytes. */
static size_t step(size_t len) { return len < 300 ? 1 : 9; }

/* Checks a program, and follows it where there are traces. */
static void try_program(struct tables *t, const uint8_t *program, size_t len, const struct trace *trace, size_t traces)
{
    check_program(t, program, len);
    if (traces > 0)
        follow(t, (struct bytes){program, len}, trace, traces, LISTING_CELLS);
}

/* Programs with one byte changed, one too many, or the last ones missing. */
static void program_faults(struct tables *t, const struct bytes *program, const struct trace *trace, size_t traces)
{
    uint8_t copy[4096 + 1] = {0};
    memcpy(copy, program->at, program->len);
    try_program(t, copy, program->len + 1, trace, traces);
    for (size_t i = 0; i < program->len; i++) {
        try_program(t, copy, i, trace, traces);
        for (size_t j = i % step(program->len); j < sizeof faults; j += step(program->len)) {
            copy[i] = faults[j];
            try_program(t, copy, program->len, trace, traces);
        }
        copy[i] = program->at[i];
    }
}

enum {
    TRAILER = 8,
    VERDICT_TO_END = 13, /* verdict, pass count and trailer */
    LABEL = 8,
    MOST_RECORD = 4096 + 512 + LABEL + VERDICT_TO_END,
    SHORT = 100 /* bytes below which a record with faults is checked as well as read */
};

/* A record of format 2 in format 1: with a label before the verdict, and distances that are larger by it. */
static struct bytes labelled(const struct bytes *record, uint8_t out[MOST_RECORD])
{
    const size_t before = record->len - VERDICT_TO_END;
    uint8_t *trailer = out + record->len + LABEL - TRAILER;
    memcpy(out, record->at, before);
    memcpy(out + before, "press 07", LABEL);
    memcpy(out + before + LABEL, record->at + before, VERDICT_TO_END);
    for (unsigned i = 0; i < 4; i += 2) {
        const unsigned distance = (trailer[i] | trailer[i + 1] << 8) + LABEL;
        trailer[i] = distance % 256, trailer[i + 1] = distance / 256;
    }
    trailer[6] = 1;
    return (struct bytes){out, record->len + LABEL};
}

/* Records with one byte changed, or the first or the last ones missing. Short ones are checked as well as read. */
static void record_faults(struct tables *t, const struct bytes *record)
{
    uint8_t copy[MOST_RECORD];
    memcpy(copy, record->at, record->len);
    for (size_t i = 0; i < record->len; i++) {
        read_record(t, copy, i);
        read_record(t, copy + i, record->len - i);
        for (size_t j = i % step(record->len); j < sizeof faults; j += step(record->len)) {
            copy[i] = faults[j];
            read_record(t, copy, record->len);
            if (record->len < SHORT)
                check_record(t, copy, record->len);
        }
        copy[i] = record->at[i];
    }
}

/* A program of main with this body, and a function of two Bools. */
static void check_body(struct tables *t, const uint8_t *body, size_t len)
{
    static const uint8_t second[] = {2, 0, 1, 0, 0x10};
    uint8_t program[2048] = {2, 1, 1, len % 256, len / 256};
    memcpy(program + 5, body, len);
    memcpy(program + 5 + len, second, sizeof second);
    check_program(t, program, 5 + len + sizeof second);
}

/* Each node nested in each place of its operands, to the greatest depth and above it; bodies of the greatest length and
 * above it. */
static void check_limits(struct tables *t)
{
    static const struct {
        const char *first, *before, *innermost, *after;
    } nest[] = {
        {"\x22", "\x21", "\x10", ""},
        {"", "\x23", "\x01", "\x01\x01"},
        {"", "\x23\x01", "\x01", "\x01"},
        {"", "\x23\x01\x01", "\x01", ""},
        {"", "\x81", "\x01", "\x01"},
        {"", "\x81\x01", "\x01", ""},
    };
    char body[1026];
    for (size_t i = 0; i < sizeof nest / sizeof *nest; i++)
        for (unsigned times = 60; times < 68; times++) {
            strcpy(body, nest[i].first);
            for (unsigned j = 0; j < times; j++)
                strcat(body, nest[i].before);
            strcat(body, nest[i].innermost);
            for (unsigned j = 0; j < times; j++)
                strcat(body, nest[i].after);
            check_body(t, (const uint8_t *)body, strlen(body));
        }
    memset(body, 0x01, sizeof body);
    for (size_t len = 1023; len <= sizeof body; len++)
        check_body(t, (const uint8_t *)body, len);
}

/* ---- The workloads */

/* A table that just holds the cells needed is enough, one cell less is refused, and so is a trace that is one byte too
 * short for n or more than 4,095 samples, and a program over another number of contacts than there are traces. */
static void agree_evaluate(struct tables *t, const struct workload *w)
{
    const struct bytes program = w->item[0];
    const size_t traces = w->items - 1;
    struct trace trace[2] = {{w->item[1], w->n}, {traces == 2 ? w->item[2] : w->item[1], w->n}};
    struct trace *const last = &trace[traces - 1];
    size_t cells = CELLS_LENT;
    uint32_t number = evaluate(t, program, trace, traces, CELLS_LENT, CELLS_LENT);
    while (cells > 0 && t->of[LIBRARY][cells - 1] == SPOILT)
        cells--;
    if (number || evaluate(t, program, trace, traces, CELLS_LENT, cells)
        || evaluate(t, program, trace, traces, CELLS_LENT, cells - 1) != SIK_REFUSED_TABLE_SHORT
        || evaluate(t, program, trace, 3 - traces, CELLS_LENT, CELLS_LENT) != SIK_REFUSED_FUNCTION_COUNT)
        fail("a workload is refused that should not be, or the other way round");
    last->n += 8;
    if (evaluate(t, program, trace, traces, CELLS_LENT, CELLS_LENT) != SIK_REFUSED_TRACE_LENGTH)
        fail("a trace is too short, and accepted");
    last->n = 4096;
    if (w->n == 4095 && evaluate(t, program, trace, traces, CELLS_LENT, CELLS_LENT) != SIK_REFUSED_TRACE_LENGTH)
        fail("a trace is too long, and accepted");
}

/* A program over two contacts whose main has as many configurations as there may be is followed to the last, and with
 * one function more it is refused.
 * main(r, g) = main(r, g); function 1 is True, with no parameters */
static void follow_limits(struct tables *t)
{
    static const uint8_t most[] = {0x81, 2, 3, 2, 3, 0, 0x80, 0x10, 0x11};
    static const uint8_t more[] = {0x82, 2, 3, 2, 3, 0, 0x80, 0x10, 0x11, 0, 0, 0, 1, 0, 0x01};
    static const uint8_t zeros[512];
    const struct trace trace[2] = {{{zeros, sizeof zeros}, 4095}, {{zeros, sizeof zeros}, 4095}};
    if (follow(t, (struct bytes){most, sizeof most}, trace, 2, CELLS_LENT)
        || follow(t, (struct bytes){more, sizeof more}, trace, 2, CELLS_LENT) != SIK_REFUSED_TABLE_SHORT)
        fail("as many configurations as there may be are refused, or more are not");
}

/* A trace that is one byte too short for n or has more than 4,095 samples is refused, and so is a program over another
 * number of contacts than there are traces. Programs with faults are followed on a few samples. */
static void agree_follow(struct tables *t, const struct workload *w)
{
    const struct bytes program = w->item[0];
    const size_t traces = w->items - 1;
    const unsigned few = w->n < 9 ? w->n : 9;
    struct trace trace[2] = {{w->item[1], w->n}, {traces == 2 ? w->item[2] : w->item[1], w->n}};
    struct trace *const last = &trace[traces - 1];
    uint8_t bytes[2][2];
    if (follow(t, program, trace, traces, CELLS_LENT)
        || follow(t, program, trace, 3 - traces, CELLS_LENT) != SIK_REFUSED_FUNCTION_COUNT)
        fail("a rule that only loops is refused, or one over another number of contacts is not");
    last->n += 8;
    if (follow(t, program, trace, traces, CELLS_LENT) != SIK_REFUSED_TRACE_LENGTH)
        fail("a trace is too short, and followed");
    last->n = 4096;
    if (w->n == 4095 && follow(t, program, trace, traces, CELLS_LENT) != SIK_REFUSED_TRACE_LENGTH)
        fail("a trace is too long, and followed");
    for (size_t i = 0; i < traces; i++) {
        memcpy(bytes[i], w->item[1 + i].at, (few + 7) / 8);
        bytes[i][few / 8] &= (1 << few % 8) - 1; /* no bit above the last sample */
        trace[i] = (struct trace){{bytes[i], (few + 7) / 8}, few};
    }
    program_faults(t, &program, trace, traces);
    if (traces == 2)
        follow_limits(t);
}

static void agree_walk(struct tables *t, const struct bytes *archive)
{
    size_t left = archive->len;
    while (left > 0) {
        check_record(t, archive->at, left);
        left = read_record(t, archive->at, left);
        if (left == SIZE_MAX)
            fail("a record of the archive is refused");
    }
}

static void agree_record(struct tables *t, const struct bytes *record)
{
    if (read_record(t, record->at, record->len))
        fail("a record is refused, or has bytes before it");
    record_faults(t, record);
}

/* Records of a rule over two contacts, with faults: as many samples of each, more of the one, none of the other. */
static void agree_two(struct tables *t, const struct workload *w)
{
    static const unsigned counts[][2] = {{8, 8}, {9, 3}, {0, 5}, {12, 0}, {0, 0}};
    const struct bytes *item = w->item;
    for (size_t i = 0; i < sizeof counts / sizeof *counts; i++) {
        const unsigned n = counts[i][0], m = counts[i][1];
        uint8_t trace[2][2], out[SHORT];
        uint64_t answer[SIK_WRITTEN_SIZE];
        memcpy(trace[0], item[1].at, 2), memcpy(trace[1], item[2].at, 2);
        trace[0][n / 8] &= (1 << n % 8) - 1, trace[1][m / 8] &= (1 << m % 8) - 1; /* no bit above the last sample */
        if (sik_write_record_two(item[0].at, item[0].len, trace[0], (n + 7) / 8, n, trace[1], (m + 7) / 8, m,
                                 *t->of, CELLS_LENT, out, sizeof out, answer))
            fail("a record over two contacts is refused");
        agree_record(t, &(struct bytes){out, answer[SIK_WRITTEN_LENGTH]});
    }
}

uint64_t agree(const struct workload *w, uint16_t *const table[SIDES])
{
    struct tables t = {table, 0};
    switch (w->sort) {
    case EVALUATE:
        agree_evaluate(&t, w);
        if (w->items == 3) {
            program_faults(&t, &w->item[0], NULL, 0);
            agree_two(&t, w);
        }
        break;
    case FOLLOW:
        agree_follow(&t, w);
        break;
    case WALK:
        agree_walk(&t, &w->item[0]);
        break;
    case CHECK:
        check_limits(&t);
        for (size_t i = 0; i < w->items; i++) {
            if (check_program(&t, w->item[i].at, w->item[i].len))
                fail("a program is refused");
            program_faults(&t, &w->item[i], NULL, 0);
        }
        break;
    case READ:
        for (size_t i = 0; i < w->items; i++) {
            uint8_t out[MOST_RECORD];
            struct bytes with_label = labelled(&w->item[i], out);
            agree_record(&t, &w->item[i]);
            agree_record(&t, &with_label);
        }
        break;
    }
    return t.calls;
}

/* ---- At random */

enum { RANDOM_PROGRAMS = 20000, RANDOM_SAMPLES = 40, RANDOM_BYTES = RANDOM_SAMPLES / 8 };

/* A trace of a few samples; a bit above the last is seldom set. */
static struct trace random_trace(uint32_t *seed, uint8_t bytes[RANDOM_BYTES])
{
    const unsigned n = random_below(seed, random_below(seed, 4) ? 5 : RANDOM_SAMPLES + 1);
    for (unsigned j = 0; j < RANDOM_BYTES; j++)
        bytes[j] = random_below(seed, 256);
    if (n % 8 && random_below(seed, 8))
        bytes[n / 8] &= (1 << n % 8) - 1;
    return (struct trace){{bytes, (n + 7) / 8}, n};
}

uint64_t agree_at_random(uint16_t *const table[SIDES])
{
    struct tables t = {table, 0};
    uint32_t seed = 1;
    uint8_t program[MOST_RANDOM], bytes[2][RANDOM_BYTES];
    for (unsigned i = 0; i < RANDOM_PROGRAMS; i++) {
        const unsigned contacts = 1 + i % 2, other = random_below(&seed, 64) == 0;
        const struct bytes p = random_program(&seed, contacts, i / 2 % 2 ? LOOPS : ANY_CALLS, program);
        const struct trace trace[2] = {random_trace(&seed, bytes[0]), random_trace(&seed, bytes[1])};
        const size_t traces = other ? 3 - contacts : contacts;
        evaluate(&t, p, trace, traces, LISTING_CELLS, LISTING_CELLS);
        follow(&t, p, trace, traces, LISTING_CELLS);
    }
    return RANDOM_PROGRAMS;
}
