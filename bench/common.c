/* The check of a program walks its bytes by recursion; the place after an expression, or minus the number of a refusal,
 * is handed back. A record is read from its trailer, and checked by evaluating it again.
 */
#include <string.h>
#include "common.h"

enum {
    MOST_BODY = 1024,
    MOST_DEPTH = 64,
    MOST_SAMPLES = 4095,
    MOST_CELLS = 16777216,
    TWO = 0x80,            /* what marks the count of functions over two contacts */
    TRAILER = 8,           /* with the count of one trace */
    LABEL = 8,             /* of format 1, between the trace and the verdict */
    VERDICT_AND_PASSES = 5 /* before the trailer */
};

/* What a place demands: a kind, or a list of either contact. */
enum { EITHER = GUARD_LIST + 1 };

static unsigned sixteen(const uint8_t *at) { return at[0] | at[1] << 8; }

/* ---- Checking a program */

static int allows(unsigned demand, unsigned kind) { return demand == EITHER ? kind != BOOL : kind == demand; }

/* The place after the expression at a place of a body, or minus the number of the refusal, which is `fault` where the
 * expression is of another kind than demanded. */
static int expression(const struct rule *r, const struct function *own, unsigned demand, int fault, unsigned depth,
                      unsigned at)
{
    const struct function *f;
    unsigned byte;
    int next = at + 1;
    if (at >= own->end)
        return -SIK_REFUSED_BODY_ENDS;
    if (depth == 0)
        return -SIK_REFUSED_TOO_DEEP;
    byte = r->code[at];
    switch (byte) {
    case 0x00: case 0x01:
        return demand == BOOL ? next : -fault;
    case 0x02:
        return allows(demand, RAM_LIST) ? next : -fault;
    case 0x03:
        if (r->contacts == 1)
            return -SIK_REFUSED_UNKNOWN_BYTE;
        return allows(demand, GUARD_LIST) ? next : -fault;
    case 0x10: case 0x11: case 0x12: case 0x13:
        if (byte - 0x10 >= own->params)
            return -SIK_REFUSED_UNKNOWN_BYTE;
        return allows(demand, own->kind[byte - 0x10]) ? next : -fault;
    case 0x20: case 0x22:
        return demand == BOOL ? expression(r, own, EITHER, SIK_REFUSED_OPERAND_KIND, depth - 1, next) : -fault;
    case 0x21:
        return demand == BOOL ? -fault : expression(r, own, demand, SIK_REFUSED_OPERAND_KIND, depth - 1, next);
    case 0x23:
        next = expression(r, own, BOOL, SIK_REFUSED_OPERAND_KIND, depth - 1, next);
        if (next > 0)
            next = expression(r, own, demand, fault, depth - 1, next);
        return next > 0 ? expression(r, own, demand, fault, depth - 1, next) : next;
    case 0x24:
        return -SIK_REFUSED_LIST_CONSTRUCTOR;
    default:
        if (byte < 0x80 || byte - 0x80 >= r->functions)
            return -SIK_REFUSED_UNKNOWN_BYTE;
        f = &r->function[byte - 0x80];
        if (!allows(demand, f->kind[RESULT]))
            return -fault;
        for (unsigned i = 0; i < f->params && next > 0; i++)
            next = expression(r, own, f->kind[i], SIK_REFUSED_ARGUMENT_KIND, depth - 1, next);
        return next;
    }
}

/* Whether function 0 is of main's kind: a list of each contact, Bool result. */
static int is_main(const struct rule *r)
{
    const struct function *f = &r->function[0];
    for (unsigned i = 0; i < f->params; i++)
        if (f->kind[i] != RAM_LIST + i)
            return 0;
    return f->params == r->contacts && f->kind[RESULT] == BOOL;
}

/* Checks a program over so many contacts, or with 0 over either number, and leaves in the rule where its functions
 * stand. */
static uint32_t check(struct rule *r, unsigned contacts, const uint8_t *program, size_t len)
{
    size_t at = 1, header;
    if (len == 0 || len > MOST_PROGRAM)
        return SIK_REFUSED_PROGRAM_LENGTH;
    r->code = program, r->len = len;
    r->contacts = program[0] < TWO ? 1 : 2;
    r->functions = program[0] % TWO;
    header = 3 + r->contacts;
    if (r->functions == 0 || r->functions > MOST_FUNCTIONS || (contacts && contacts != r->contacts))
        return SIK_REFUSED_FUNCTION_COUNT;
    for (unsigned g = 0; g < r->functions; g++) {
        struct function *f = &r->function[g];
        unsigned lists, guards, length;
        if (len - at < header)
            return SIK_REFUSED_HEADER_CUT;
        f->params = program[at], lists = program[at + 1];
        guards = r->contacts == 2 ? program[at + 2] : 0;
        if (f->params > MOST_PARAMS || (lists & 15) >> f->params || lists >> 5 || guards & ~lists)
            return SIK_REFUSED_PARAMETER_KINDS;
        at += header;
        length = sixteen(program + at - 2);
        if (length == 0 || length > MOST_BODY || length > len - at)
            return SIK_REFUSED_BODY_LENGTH;
        for (unsigned i = 0; i <= RESULT; i++)
            f->kind[i] = (lists >> i & 1) + (guards >> i & 1);
        f->start = at;
        at += length;
        f->end = at;
    }
    if (at != len)
        return SIK_REFUSED_BYTES_AFTER_FUNCTIONS;
    if (!is_main(r))
        return SIK_REFUSED_MAIN_KIND;
    for (unsigned g = 0; g < r->functions; g++) {
        const struct function *f = &r->function[g];
        int end = expression(r, f, f->kind[RESULT], SIK_REFUSED_WRONG_KIND, MOST_DEPTH, f->start);
        if (end < 0)
            return -end;
        if ((unsigned)end != f->end)
            return SIK_REFUSED_BYTES_AFTER_EXPRESSION;
    }
    return 0;
}

uint32_t plain_check_program(const uint8_t *program, size_t program_len)
{
    struct rule r;
    return check(&r, 0, program, program_len);
}

/* The place after the expression at a place of an accepted body, or 0 if a call stands in it where none may. Whether
 * one may at the place itself is given. */
static unsigned only_loops(const struct rule *r, unsigned at, int may)
{
    const unsigned byte = r->code[at++];
    unsigned operands = byte == 0x23 ? 3 : byte >= 0x20 && byte <= 0x22 ? 1 : 0;
    if (byte >= 0x80) {
        if (!may)
            return 0;
        operands = r->function[byte - 0x80].params;
    }
    for (unsigned i = 0; i < operands && at; i++)
        at = only_loops(r, at, may && byte == 0x23 && i > 0);
    return at;
}

/* ---- Evaluating and following */

/* Whether a bit above the last of n samples is set. */
static int padding_set(const uint8_t *trace, unsigned n) { return n % 8 && trace[n / 8] >> n % 8; }

/* Gives each function its cells; answers how many there are in all. */
static uint64_t lay_out(struct rule *r)
{
    uint64_t total = 0;
    for (unsigned g = 0; g < r->functions; g++) {
        struct function *f = &r->function[g];
        uint64_t cells = 1;
        for (unsigned p = 0; p < f->params; p++)
            cells *= radix(r, f->kind[p]);
        f->first = total, f->cells = cells;
        total += cells;
    }
    return total;
}

/* Takes the traces into the rule; answers their refusal. */
static uint32_t take_traces(struct rule *r, const struct traces *t)
{
    for (unsigned c = 0; c < t->contacts; c++)
        if (t->n[c] > MOST_SAMPLES || t->len[c] != (t->n[c] + 7) / 8)
            return SIK_REFUSED_TRACE_LENGTH;
    for (unsigned c = 0; c < t->contacts; c++)
        if (padding_set(t->at[c], t->n[c]))
            return SIK_REFUSED_PADDING_SET;
    for (unsigned c = 0; c < t->contacts; c++)
        r->trace[c] = t->at[c], r->n[c] = t->n[c];
    return 0;
}

uint32_t begin(struct rule *r, const uint8_t *program, size_t program_len, const struct traces *t, uint16_t *table,
               size_t table_len)
{
    uint32_t number = check(r, t->contacts, program, program_len);
    uint64_t cells;
    if (number == 0)
        number = take_traces(r, t);
    if (number)
        return number;
    r->table = table;
    cells = lay_out(r);
    if (cells > table_len || cells > MOST_CELLS)
        return SIK_REFUSED_TABLE_SHORT;
    r->cells = cells;
    memset(table, 0, cells * sizeof *table);
    return 0;
}

uint32_t begin_following(struct rule *r, const uint8_t *program, size_t program_len, const struct traces *t)
{
    uint32_t number = check(r, t->contacts, program, program_len);
    uint64_t cells;
    for (unsigned g = 0; number == 0 && g < r->functions; g++)
        if (!only_loops(r, r->function[g].start, 1))
            number = SIK_REFUSED_CALL_ELSEWHERE;
    if (number == 0)
        number = take_traces(r, t);
    if (number)
        return number;
    r->table = NULL;
    cells = lay_out(r);
    if (cells > MOST_CELLS)
        return SIK_REFUSED_TABLE_SHORT;
    r->cells = cells;
    return 0;
}

void make_passes(const struct rule *r, uint32_t (*pass)(const struct rule *), uint64_t answer[EVALUATED_SIZE])
{
    const uint16_t *main_cell = r->table + r->function[0].cells - 1;
    uint64_t undecided = r->cells, passes = 0, visited = 0;
    uint32_t stored;
    do {
        visited += undecided;
        stored = pass(r);
        undecided -= stored;
        passes++;
    } while (stored);
    answer[SIK_EVALUATED_VERDICT] = *main_cell <= TAIL ? *main_cell : SIK_FOREVER;
    answer[SIK_EVALUATED_PASSES] = passes;
    answer[EVALUATED_VISITED] = visited;
    answer[EVALUATED_COME_TO] = r->cells * passes;
}

/* ---- Records */

/* Reads the record that the bytes end in; its program is not judged. */
static uint32_t read_parts(const uint8_t *bytes, size_t len, uint64_t parts[SIK_PARTS_SIZE])
{
    const uint8_t *trailer;
    size_t at, first, second, ram, guard, n, m = 0, label, after_traces;
    unsigned format;
    uint32_t passes;
    if (len < TRAILER)
        return SIK_REFUSED_TRAILER_MISSING;
    format = bytes[len - 2];
    if (bytes[len - 1] != 0x52 || format == 0 || format > 3)
        return SIK_REFUSED_MARK_OR_FORMAT;
    if (format == 3 && len < TRAILER + 2)
        return SIK_REFUSED_TRAILER_MISSING;
    at = len - TRAILER - (format == 3 ? 2 : 0);
    trailer = bytes + at;
    label = format == 1 ? LABEL : 0, after_traces = label + VERDICT_AND_PASSES;
    first = sixteen(trailer), second = sixteen(trailer + 2), n = sixteen(trailer + 4);
    if (format == 3)
        m = sixteen(trailer + 6);
    ram = (n + 7) / 8, guard = (m + 7) / 8;
    if (n > MOST_SAMPLES || m > MOST_SAMPLES || second != ram + guard + after_traces || first <= second || first > at)
        return SIK_REFUSED_TRAILER_FIELDS;
    if (padding_set(trailer - second, n) || padding_set(trailer - second + ram, m))
        return SIK_REFUSED_PADDING_SET;
    passes = sixteen(trailer - 4) | (uint32_t)sixteen(trailer - 2) << 16;
    if (trailer[-5] > SIK_TAIL || passes == 0)
        return SIK_REFUSED_VERDICT_OR_PASSES;
    parts[SIK_PARTS_PROGRAM_START] = parts[SIK_PARTS_BEFORE] = at - first;
    parts[SIK_PARTS_PROGRAM_LENGTH] = first - second;
    parts[SIK_PARTS_TRACE_START] = at - second;
    parts[SIK_PARTS_TRACE_LENGTH] = ram;
    parts[SIK_PARTS_SAMPLES] = n;
    parts[SIK_PARTS_LABEL_START] = label ? at - after_traces : 0;
    parts[SIK_PARTS_LABEL_LENGTH] = label;
    parts[SIK_PARTS_VERDICT] = trailer[-5];
    parts[SIK_PARTS_PASSES] = passes;
    parts[SIK_PARTS_FORMAT] = format;
    parts[SIK_PARTS_GUARD_START] = format == 3 ? at - second + ram : 0;
    parts[SIK_PARTS_GUARD_LENGTH] = guard;
    parts[SIK_PARTS_GUARD_SAMPLES] = m;
    return 0;
}

/* How many contacts the program of a format is over. */
static unsigned contacts_of(const uint64_t parts[SIK_PARTS_SIZE]) { return parts[SIK_PARTS_FORMAT] == 3 ? 2 : 1; }

uint32_t plain_read_record(const uint8_t *bytes, size_t bytes_len, uint64_t parts[SIK_PARTS_SIZE])
{
    uint64_t found[SIK_PARTS_SIZE];
    struct rule r;
    uint32_t number = read_parts(bytes, bytes_len, found);
    if (number == 0)
        number = check(&r, contacts_of(found), bytes + found[SIK_PARTS_PROGRAM_START],
                       found[SIK_PARTS_PROGRAM_LENGTH]);
    if (number == 0)
        memcpy(parts, found, sizeof found);
    return number;
}

uint32_t check_record_by(evaluator *evaluate, const uint8_t *bytes, size_t bytes_len, uint16_t *table,
                         size_t table_len, uint64_t answer[1])
{
    uint64_t found[SIK_PARTS_SIZE], verdict[EVALUATED_SIZE];
    uint32_t number = read_parts(bytes, bytes_len, found);
    if (number == 0) {
        const struct traces t = {
            contacts_of(found),
            {bytes + found[SIK_PARTS_TRACE_START], bytes + found[SIK_PARTS_GUARD_START]},
            {found[SIK_PARTS_TRACE_LENGTH], found[SIK_PARTS_GUARD_LENGTH]},
            {found[SIK_PARTS_SAMPLES], found[SIK_PARTS_GUARD_SAMPLES]}};
        number = evaluate(bytes + found[SIK_PARTS_PROGRAM_START], found[SIK_PARTS_PROGRAM_LENGTH], &t, table,
                          table_len, verdict);
    }
    if (number == 0)
        answer[0] =
            verdict[0] == found[SIK_PARTS_VERDICT] && verdict[1] == found[SIK_PARTS_PASSES] ? SIK_AGREES : SIK_DIFFERS;
    return number;
}
