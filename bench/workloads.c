#include <stdio.h>
#include <stdlib.h>
#include <string.h>
#include "sikafondza.h"
#include "workloads.h"

/* ---- Programs by hand */

/* Rows A to F of document 01. D: all(l) = if null l then True else if hd l then all(tl l) else False */
static const uint8_t row_a[] = {1, 1, 1, 2, 0, 0x22, 0x10};
static const uint8_t row_b[] = {1, 1, 1, 2, 0, 0x80, 0x10};
static const uint8_t row_c[] = {1, 1, 1, 2, 0, 0x20, 0x10};
static const uint8_t row_d[] = {1, 1, 1, 11, 0, 0x23, 0x22, 0x10, 0x01, 0x23, 0x20, 0x10, 0x80, 0x21, 0x10, 0x00};
static const uint8_t row_e[] = {2, 1, 1, 1, 0, 0x81, 0, 0, 1, 0, 0x01};
static const uint8_t row_f[] = {2, 1, 1, 3, 0, 0x81, 0x80, 0x10, 1, 0, 1, 0, 0x01};

/* main(l) = g(l, l); g(a, b) = if null a then null b else g(tl a, tl b) */
static const uint8_t two_lists[] = {2, 1, 1, 3, 0, 0x81, 0x10, 0x10, 2, 3, 10, 0, 0x23, 0x22, 0x10,
                                    0x22, 0x11, 0x81, 0x21, 0x10, 0x21, 0x11};

/* main(l) = if null l then True else g(l); g(l) = main(tl l). The cell of g on l comes after that of main on l, so a
 * pass decides one cell more of each. */
static const uint8_t ping_pong[] = {2, 1, 1, 6, 0, 0x23, 0x22, 0x10, 0x01, 0x81, 0x10, 1, 1, 3, 0, 0x80, 0x21, 0x10};

/* Functions 1 and 2 of two programs below: vote(a, b, c, d) = whether three of the four are True;
 * look(l, a, b, c) = if null l then False else if vote(a, b, c, hd l) then True else look(tl l, b, c, hd l) */
#define VOTE_AND_LOOK \
    4, 0, 19, 0, 0x23, 0x10, 0x23, 0x11, 0x23, 0x12, 0x01, 0x13, 0x23, 0x12, 0x13, 0x00, \
    0x23, 0x11, 0x23, 0x12, 0x13, 0x00, 0x00, \
    4, 1, 19, 0, 0x23, 0x22, 0x10, 0x00, 0x23, 0x81, 0x11, 0x12, 0x13, 0x20, 0x10, 0x01, \
    0x82, 0x21, 0x10, 0x12, 0x13, 0x20, 0x10

/* Whether three of some four samples in a row are 1.
 * main(l) = look(l, False, False, False) */
static const uint8_t bools[] = {3, 1, 1, 5, 0, 0x82, 0x10, 0x00, 0x00, 0x00, VOTE_AND_LOOK};

/* Pass 1 decides all cells of vote and look, each of the n + 1 passes after it one or two cells of main and g, as in
 * ping-pong.
 * main(l) = if null l then look(l, False, False, False) else g(l); g(l) = main(tl l) */
static const uint8_t ping_pong_beside[] = {4, 1, 1, 10, 0, 0x23, 0x22, 0x10, 0x82, 0x10, 0x00, 0x00, 0x00, 0x83, 0x10,
                                           VOTE_AND_LOOK, 1, 1, 3, 0, 0x80, 0x21, 0x10};

/* Over two contacts: the ram may not move while the guard is open.
 * main(r, g) = if null r then True else if hd r then (if hd g then main(tl r, tl g) else False) else main(tl r, tl g) */
static const uint8_t press[] = {0x81, 2, 3, 2, 21, 0, 0x23, 0x22, 0x10, 0x01, 0x23, 0x20, 0x10, 0x23, 0x20, 0x11, 0x80,
                                0x21, 0x10, 0x21, 0x11, 0x00, 0x80, 0x21, 0x10, 0x21, 0x11};

/* Whether the trace comes to a 1 no later without its first two samples than with them; x and y are the samples before
 * a and b. A cell where x is False may ask for one where it is True, which comes after it, and main for cells of first:
 * pass 3 decides the last of them.
 * main(l) = first(False, tl (tl l), False, l); first(x, a, y, b) = if x then True else if y then False
 * else if null a then False else first(hd a, tl a, hd b, tl b) */
static const uint8_t lists_and_bools[] = {2, 1, 1, 7, 0, 0x81, 0x00, 0x21, 0x21, 0x10, 0x00, 0x10,
                                          4, 10, 19, 0, 0x23, 0x10, 0x01, 0x23, 0x12, 0x00, 0x23, 0x22, 0x11, 0x00,
                                          0x81, 0x20, 0x11, 0x21, 0x11, 0x20, 0x13, 0x21, 0x13};

/* Counts b down for each a that is counted down: on n samples n * (n + 1) / 2 + n + 1 calls.
 * main(l) = g(l, l); g(a, b) = if null a then True else if null b then g(tl a, tl a) else g(a, tl b) */
static const uint8_t countdown[] = {2, 1, 1, 3, 0, 0x81, 0x10, 0x10, 2, 3, 16, 0, 0x23, 0x22, 0x10, 0x01, 0x23, 0x22,
                                    0x11, 0x81, 0x21, 0x10, 0x21, 0x10, 0x81, 0x10, 0x21, 0x11};

/* Forever where there is a sample: as many calls as main and g have configurations, (n + 1) * (n + 2).
 * main(l) = g(l, l); g(a, b) = if null a then True else g(b, a) */
static const uint8_t in_turn[] = {2, 1, 1, 3, 0, 0x81, 0x10, 0x10, 2, 3, 7, 0, 0x23, 0x22, 0x10, 0x01, 0x81, 0x11,
                                  0x10};

/* ---- Traces, records, archives */

/* Of 4,095 samples each. */
static uint8_t ones[512], mixed[512];
static const uint8_t zeros[512];

static void fill_traces(void)
{
    uint32_t seed = 1;
    memset(ones, 255, sizeof ones);
    for (unsigned i = 0; i < sizeof mixed; i++)
        mixed[i] = random_below(&seed, 256);
    ones[511] &= 127, mixed[511] &= 127;
}

/* A program with the number of samples on which it is recorded. */
struct task {
    struct bytes program;
    unsigned n;
};

/* Writes a record to the front of out; answers its length. */
static size_t record(struct task t, uint16_t *table, uint8_t *out, size_t len)
{
    uint8_t trace[sizeof mixed];
    uint64_t answer[3];
    uint32_t number;
    memcpy(trace, mixed, sizeof mixed);
    trace[t.n / 8] &= (1 << t.n % 8) - 1; /* no bit above the last sample */
    number = sik_write_record(t.program.at, t.program.len, trace, (t.n + 7) / 8, t.n, table, CELLS_LENT, out, len,
                              answer);
    if (number) {
        fprintf(stderr, "a record is refused by %u\n", (unsigned)number);
        exit(1);
    }
    return answer[0];
}

enum {
    ARCHIVE = 32768,
    VERDICT_TO_END = 13, /* verdict, pass count and trailer */
    LEAST = sizeof row_d + VERDICT_TO_END,
    LAST = LEAST + 511
};

static size_t record_len(struct task t) { return t.program.len + (t.n + 7) / 8 + VERDICT_TO_END; }

struct archive {
    uint8_t *bytes;
    size_t len, records;
};

/* Appends the record of a task. The pass count of every seventh record is one too high. */
static void append(struct archive *a, struct task t, uint16_t *table)
{
    a->len += record(t, table, a->bytes + a->len, ARCHIVE - a->len);
    a->bytes[a->len - 12] += ++a->records % 7 == 0;
}

/* An archive of 32,768 bytes: the tasks in turn as long as there is room, then row D on traces that fill the rest. */
static struct bytes full_archive(const struct task *task, size_t tasks, uint16_t *table)
{
    struct archive a = {room(ARCHIVE), 0, 0};
    while (a.len < ARCHIVE) {
        size_t left = ARCHIVE - a.len;
        struct task next = task[a.records % tasks];
        if (record_len(next) + LAST > left)
            next = (struct task){{row_d, sizeof row_d}, left > LAST ? 800 : 8 * (left - LEAST)};
        append(&a, next, table);
    }
    return (struct bytes){a.bytes, a.len};
}

/* An archive of at most 32,768 bytes: the tasks in turn as long as there is room. */
static struct bytes archive(const struct task *task, size_t tasks, uint16_t *table)
{
    struct archive a = {room(ARCHIVE), 0, 0};
    while (record_len(task[a.records % tasks]) <= ARCHIVE - a.len)
        append(&a, task[a.records % tasks], table);
    return (struct bytes){a.bytes, a.len};
}

/* ---- The workloads */

#define BYTES(a) ((struct bytes){a, sizeof a})
#define COUNT(a) (sizeof a / sizeof *a)

static struct workload evaluate(const char *name, struct bytes program, const uint8_t *trace, unsigned n)
{
    return (struct workload){name, EVALUATE, PER_VISIT, n, 2, {program, {trace, (n + 7) / 8}}};
}

static struct workload evaluate_two(const char *name, struct bytes program, const uint8_t *ram, const uint8_t *guard,
                                    unsigned n)
{
    const size_t len = (n + 7) / 8;
    return (struct workload){name, EVALUATE, PER_VISIT, n, 3, {program, {ram, len}, {guard, len}}};
}

/* A workload that evaluates, followed instead. */
static struct workload followed(struct workload w)
{
    w.sort = FOLLOW, w.unit = PER_CALL_MADE;
    return w;
}

static struct workload walk(const char *name, struct bytes archive)
{
    return (struct workload){name, WALK, PER_BYTE, 0, 1, {archive}};
}

void build_workloads(struct workload workload[WORKLOADS], uint16_t *table)
{
    static const uint8_t trace_a[] = {5}, trace_d[] = {7};
    struct workload check = {"check programs", CHECK, PER_BYTE, 0, 0, {{0, 0}}};
    struct workload read = {"read records", READ, PER_BYTE, 0, 0, {{0, 0}}};
    struct bytes body = long_body();
    /* Numbers of samples with which a listing's table holds all but the last. */
    const struct task listed[] = {
        {BYTES(row_a), 100}, {BYTES(row_b), 50}, {BYTES(row_c), 0}, {BYTES(row_d), 2000}, {BYTES(row_e), 20},
        {BYTES(row_f), 20}, {BYTES(two_lists), 100}, {BYTES(ping_pong), 200}, {BYTES(bools), 500}, {body, 1000},
        {deep(), 300}, {any_program(256, 4), 7}, {any_program(1024, 8), 3}, {BYTES(two_lists), 200}};
    const struct task small[] = {
        {BYTES(row_a), 3}, {BYTES(row_b), 3}, {BYTES(row_c), 0}, {BYTES(row_d), 3}, {BYTES(row_a), 20},
        {BYTES(row_b), 12}, {BYTES(row_c), 9}, {BYTES(row_d), 24}};
    /* Programs to check, and the records of them to read. */
    const struct task mix[] = {
        {BYTES(row_a), 3}, {BYTES(row_b), 0}, {BYTES(row_c), 20}, {BYTES(row_d), 4095}, {BYTES(row_e), 100},
        {BYTES(row_f), 1000}, {BYTES(two_lists), 500}, {BYTES(ping_pong), 300}, {BYTES(bools), 2000}, {body, 3000},
        {deep(), 200}, {any_program(64, 2), 7}, {any_program(128, 4), 7}, {any_program(256, 4), 7},
        {any_program(512, 8), 7}, {any_program(1024, 8), 3}, {any_program(2048, 16), 3}, {any_program(4096, 32), 3}};
    fill_traces();
    for (size_t i = 0; i < COUNT(mix); i++) {
        size_t len = record_len(mix[i]);
        uint8_t *bytes = room(len);
        record(mix[i], table, bytes, len);
        check.item[check.items++] = mix[i].program;
        read.item[read.items++] = (struct bytes){bytes, len};
    }
    workload[0] = evaluate("row D, n = 4,095", BYTES(row_d), ones, 4095);
    workload[1] = evaluate("two lists together, n = 4,000", BYTES(two_lists), ones, 4000);
    workload[2] = evaluate("ping-pong of two functions, n = 4,095", BYTES(ping_pong), ones, 4095);
    workload[3] = evaluate("four Bools; a list and three, n = 4,095", BYTES(bools), mixed, 4095);
    workload[4] = evaluate("a body of 1,024 bytes, n = 4,095", body, mixed, 4095);
    workload[5] = evaluate_two("two contacts together, n = m = 4,000", BYTES(press), mixed, ones, 4000);
    workload[6] = evaluate("two lists and two Bools, n = 1,000", BYTES(lists_and_bools), mixed, 1000);
    workload[7] = evaluate("ping-pong beside four Bools, n = 2,000", BYTES(ping_pong_beside), mixed, 2000);
    workload[7].unit = PER_CELL;
    workload[8] = evaluate("row A, n = 3", BYTES(row_a), trace_a, 3);
    workload[8].unit = PER_CALL;
    workload[9] = walk("walk and check an archive of 32,768 bytes", full_archive(listed, COUNT(listed), table));
    workload[10] = walk("walk and check an archive of small records", archive(small, COUNT(small), table));
    workload[11] = check;
    workload[12] = read;
    workload[13] = followed(workload[0]);
    workload[14] = followed(workload[2]);
    workload[15] = followed(evaluate("a countdown in a countdown, n = 2,000", BYTES(countdown), ones, 2000));
    workload[16] = followed(evaluate("two lists in turn, forever, n = 2,000", BYTES(in_turn), ones, 2000));
    workload[17] = followed(evaluate_two("two contacts together, n = m = 2,000", BYTES(press), mixed, ones, 2000));
    workload[18] = followed(evaluate("two lists and two Bools, n = 1,000", BYTES(lists_and_bools), zeros, 1000));
    workload[19] = followed(evaluate("row D, n = 3", BYTES(row_d), trace_d, 3));
    workload[19].unit = PER_CALL;
}
