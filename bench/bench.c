/* Times the library beside the same work in C, by turns in one process, and prints a table of all sides.
 *
 *   bench [turns]
 *
 * First all answers of the sides are compared. Then each workload is run in turns: in a turn each side does the
 * workload so many times that it takes a hundredth of a second or more, in the same table; who goes first changes from
 * turn to turn. Where a turn takes less than a tenth of a second there are five times as many. The least processor time
 * of the turns is taken for each. Rules that are followed have a table of their own, in which the last side is the
 * library too: it evaluates the same rule.
 */
#define _POSIX_C_SOURCE 199309L
#include <stdio.h>
#include <stdlib.h>
#include <time.h>
#include "sides.h"
#include "sikafondza.h"

enum { TURNS = 11, MOST_TURNS = 1001, MORE_TURNS = 5, ALL_TURNS = MOST_TURNS * MORE_TURNS };

static const double LEAST_TURN = 0.01, SHORT_TURN = 0.1;

static double seconds(void)
{
    struct timespec t;
    clock_gettime(CLOCK_PROCESS_CPUTIME_ID, &t);
    return t.tv_sec + t.tv_nsec * 1e-9;
}

/* Evaluates a workload's program on its trace or traces. */
static uint32_t evaluate(const struct side *s, const struct workload *w, uint16_t *table,
                         uint64_t answer[EVALUATED_SIZE])
{
    const struct bytes *item = w->item;
    if (w->items == 3)
        return s->evaluate_two(item[0].at, item[0].len, item[1].at, item[1].len, w->n, item[2].at, item[2].len, w->n,
                               table, CELLS_LENT, answer);
    return s->evaluate(item[0].at, item[0].len, item[1].at, item[1].len, w->n, table, CELLS_LENT, answer);
}

/* Follows a workload's program on its trace or traces. */
static uint32_t follow(const struct side *s, const struct workload *w, uint64_t answer[SIK_FOLLOWED_SIZE])
{
    const struct bytes *item = w->item;
    if (w->items == 3)
        return s->follow_two(item[0].at, item[0].len, item[1].at, item[1].len, w->n, item[2].at, item[2].len, w->n,
                             answer);
    return s->follow(item[0].at, item[0].len, item[1].at, item[1].len, w->n, answer);
}

/* Where a rule is followed, the place of the library's evaluating, after the sides that follow. */
enum { BY_TABLE = FOLLOWERS };

/* Does a workload once by the side at a place; answers a sum of what was answered. Following and evaluating have the
 * verdict alone in common. */
static uint64_t run(unsigned at, const struct workload *w, uint16_t *table)
{
    const struct side *s = &side[at];
    const struct bytes *item = w->item;
    uint64_t parts[SIK_PARTS_SIZE] = {0}, answer[EVALUATED_SIZE] = {0}, sum = 0;
    switch (w->sort) {
    case EVALUATE:
        sum = evaluate(s, w, table, answer);
        sum += answer[0] + 8 * answer[1];
        break;
    case FOLLOW:
        sum = at == BY_TABLE ? evaluate(&side[LIBRARY], w, table, answer) : follow(s, w, answer);
        sum += answer[0];
        break;
    case WALK:
        for (size_t left = item[0].len; left > 0 && !s->read_record(item[0].at, left, parts);
             left = parts[SIK_PARTS_BEFORE]) {
            sum += s->check_record(item[0].at, left, table, LISTING_CELLS, answer);
            sum += 64 * answer[0] + 128 * parts[SIK_PARTS_PASSES];
        }
        break;
    case CHECK:
        for (size_t i = 0; i < w->items; i++)
            sum += s->check_program(item[i].at, item[i].len);
        break;
    case READ:
        for (size_t i = 0; i < w->items; i++) {
            sum += s->read_record(item[i].at, item[i].len, parts);
            sum += 64 * parts[SIK_PARTS_PASSES];
        }
        break;
    }
    return sum;
}

static double time_of(unsigned at, const struct workload *w, uint16_t *table, unsigned times, uint64_t *sum)
{
    double start = seconds();
    for (unsigned i = 0; i < times; i++)
        *sum += run(at, w, table);
    return seconds() - start;
}

static int by_size(const void *a, const void *b)
{
    double x = *(const double *)a, y = *(const double *)b;
    return (x > y) - (x < y);
}

/* The name of a side's column. */
static const char *name_of(enum sort sort, unsigned at)
{
    static const char *const name[SIDES] = {"library", "plain", "decoded", "dividing"};
    return sort == FOLLOW && at == BY_TABLE ? "table" : name[at];
}

/* How many sides do a workload. */
static unsigned sides_of(const struct workload *w) { return w->sort == CHECK || w->sort == READ ? READERS : SIDES; }

/* What a workload amounts to: cells visited or come to, bytes or calls, and passes where its rule is evaluated. */
static double units_of(const struct workload *w, uint16_t *table, char passes[11])
{
    const struct bytes *item = w->item;
    uint64_t answer[EVALUATED_SIZE] = {0}, followed[SIK_FOLLOWED_SIZE] = {0};
    double bytes = 0;
    if (w->sort == EVALUATE || w->sort == FOLLOW) {
        evaluate(&side[PLAIN], w, table, answer);
        snprintf(passes, 11, "%u", (unsigned)answer[SIK_EVALUATED_PASSES]);
    }
    if (w->sort == FOLLOW)
        follow(&side[PLAIN], w, followed);
    for (size_t i = 0; i < w->items; i++)
        bytes += item[i].len;
    switch (w->unit) {
    case PER_VISIT: return answer[EVALUATED_VISITED];
    case PER_CELL: return answer[EVALUATED_COME_TO];
    case PER_CALL_MADE: return followed[SIK_FOLLOWED_CALLS];
    case PER_CALL: return 1;
    default: return bytes;
    }
}

/* Finds how often each side does a workload in a turn; answers the time of the side that takes longest. */
static double turn_of(const struct workload *w, uint16_t *table, unsigned times[SIDES])
{
    double most = 0;
    uint64_t sum = 0;
    for (unsigned s = 0; s < sides_of(w); s++) {
        double taken;
        times[s] = 1;
        while ((taken = time_of(s, w, table, times[s], &sum)) < LEAST_TURN)
            times[s] *= 2;
        most = taken > most ? taken : most;
    }
    return most;
}

/* Runs a workload in turns, and sorts the times taken. */
static void take_turns(const struct workload *w, uint16_t *table, const unsigned times[SIDES], unsigned turns,
                       double taken[SIDES][ALL_TURNS])
{
    const unsigned sides = sides_of(w);
    uint64_t sum[SIDES] = {0};
    for (unsigned turn = 0; turn < turns; turn++)
        for (unsigned i = 0; i < sides; i++) {
            unsigned s = (turn + i) % sides;
            taken[s][turn] = time_of(s, w, table, times[s], &sum[s]);
        }
    for (unsigned s = 0; s < sides; s++) {
        if (sum[s] / times[s] != sum[LIBRARY] / times[LIBRARY]) {
            printf("%s: library and %s differ\n", w->name, name_of(w->sort, s));
            exit(1);
        }
        qsort(taken[s], turns, sizeof **taken, by_size);
    }
}

/* How wide columns are: of a time, and of a number that is smaller. */
enum { TIME = 9, SMALL = 8 };

/* Prints a number for each side from one on, with more digits where it is small, and a dash for a side that does not do
 * the workload. */
static void print_each(const struct workload *w, unsigned from, int width, const double *number)
{
    for (unsigned s = from; s < SIDES; s++)
        if (s < sides_of(w))
            printf(" %*.*f", width, number[s] < 0.01 ? 5 : 2, number[s]);
        else
            printf(" %*s", width, "-");
}

/* Measures a workload and prints its row; answers the median turn over the least, of the side where it is largest. */
static double measure(const struct workload *w, uint16_t *table, unsigned turns)
{
    static const char *const unit[] = {"cells visited", "cells come to", "bytes", "call", "calls made"};
    static double taken[SIDES][ALL_TURNS];
    char passes[11] = "-";
    double units = units_of(w, table, passes), most = 1, once[SIDES], each[SIDES], ratio[SIDES];
    unsigned times[SIDES];
    turns *= turn_of(w, table, times) < SHORT_TURN ? MORE_TURNS : 1;
    take_turns(w, table, times, turns, taken);
    for (unsigned s = 0; s < sides_of(w); s++) {
        double spread = taken[s][turns / 2] / taken[s][0];
        once[s] = taken[s][0] / times[s] * 1e6;
        each[s] = once[s] / units * 1e3;
        ratio[s] = once[LIBRARY] / once[s];
        most = spread > most ? spread : most;
    }
    printf("%-42s %6s %9.0f %-13s", w->name, passes, units, unit[w->unit]);
    print_each(w, LIBRARY, TIME, once);
    print_each(w, LIBRARY, SMALL, each);
    print_each(w, PLAIN, SMALL, ratio);
    printf("\n");
    fflush(stdout);
    return most;
}

/* Prints the name of each side from one on. */
static void print_names(enum sort sort, unsigned from, int width)
{
    for (unsigned s = from; s < SIDES; s++)
        printf(" %*s", width, name_of(sort, s));
}

/* Prints the head of the table that begins with a sort of workloads. */
static void print_head(enum sort sort)
{
    printf("\n%-42s %6s %-23s %*s %*s %*s\n", "", "", sort == FOLLOW ? "" : "cells visited or come",
           SIDES * (TIME + 1) - 1, "microseconds", SIDES * (SMALL + 1) - 1,
           sort == FOLLOW ? "ns per call" : "ns per cell, byte, call", (SIDES - PLAIN) * (SMALL + 1) - 1, "library /");
    printf("%-42s %6s %-23s", sort == FOLLOW ? "rule that is followed" : "workload", "passes",
           sort == FOLLOW ? "calls" : "to, bytes or calls");
    print_names(sort, LIBRARY, TIME);
    print_names(sort, LIBRARY, SMALL);
    print_names(sort, PLAIN, SMALL);
    printf("\n");
}

int main(int argc, char **argv)
{
    static struct workload workload[WORKLOADS];
    uint16_t *table[SIDES];
    int turns = argc > 1 ? atoi(argv[1]) : TURNS;
    uint64_t calls = 0, at_random;
    double most = 1;
    for (unsigned s = 0; s < SIDES; s++) {
        table[s] = malloc(CELLS_LENT * sizeof **table);
        if (!table[s] || turns < 1 || turns > MOST_TURNS) {
            fprintf(stderr, "bench [turns]: 1 to %d turns, and 128 MB of memory\n", MOST_TURNS);
            return 2;
        }
    }
    build_workloads(workload, *table);
    for (unsigned i = 0; i < WORKLOADS; i++)
        calls += agree(&workload[i], table);
    at_random = agree_at_random(table);
    for (unsigned s = 1; s < SIDES; s++)
        free(table[s]);
    printf("The library, plain C, decoding C and dividing C agree on %.0f calls and on %.0f random programs.\n",
           (double)calls, (double)at_random);
    printf("Processor time, the least of %d turns, of %d where a turn takes less than a tenth of a second.\n", turns,
           turns * MORE_TURNS);
    for (unsigned i = 0; i < WORKLOADS; i++) {
        double spread;
        if (i == 0 || (workload[i].sort == FOLLOW && workload[i - 1].sort != FOLLOW))
            print_head(workload[i].sort);
        spread = measure(&workload[i], *table, turns);
        most = spread > most ? spread : most;
    }
    printf("\nThe median turn is at most %.0f %% above the least.\n", (most - 1) * 100);
    free(*table);
    return 0;
}
