/* What is measured: programs with traces, archives, programs to check and records to read. */
#ifndef WORKLOADS_H
#define WORKLOADS_H

#include "programs.h"

enum {
    CELLS_LENT = 16777216, /* the table of the workloads that evaluate */
    LISTING_CELLS = 16384,      /* the table in which a listing checks records */
    MOST_ITEMS = 24
};

enum sort {
    EVALUATE, /* item 0 is a program, item 1 a trace of n samples; over two contacts item 2 is the guard's, of n too */
    FOLLOW,   /* the same, of a program that only loops */
    WALK,     /* item 0 is an archive: each record is read and checked, from the last */
    CHECK,    /* the items are programs */
    READ      /* the items are records, each by itself */
};

/* What its time is divided by: the undecided cells that passes visit, all cells that they come to, bytes, calls of the
 * side, or the calls that following makes. */
enum unit { PER_VISIT, PER_CELL, PER_BYTE, PER_CALL, PER_CALL_MADE };

struct workload {
    const char *name;
    enum sort sort;
    enum unit unit;
    unsigned n;
    size_t items;
    struct bytes item[MOST_ITEMS];
};

enum { WORKLOADS = 20 };

/* Fills in the workloads, with those that follow at the end. They are the same in every run. The table is used to write
 * records. */
void build_workloads(struct workload workload[WORKLOADS], uint16_t *table);

#endif
