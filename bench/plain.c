/* The plain evaluator is what one would write by hand: a recursion over expression bytes whose outcomes are cell
 * numbers, with first cells, kinds and expression ends worked out once, and a pass in which the parameter values step
 * from cell to cell. Following is a loop over the bytes, from body to body. It runs on accepted programs alone, so it
 * asks for no depth and no bounds.
 */
#include "common.h"

/* The outcome in a cell. A cell that holds no outcome of its function's kind counts as undecided. */
static uint16_t held(const struct rule *r, unsigned kind, uint16_t cell)
{
    if (kind == BOOL)
        return cell <= TAIL ? cell : UNDECIDED;
    if (cell < HEAD || cell > EMPTY + r->n[kind - 1])
        return UNDECIDED;
    return cell >= EMPTY ? cell - EMPTY + lowest(kind) : cell;
}

static uint16_t eval(const struct rule *r, const uint16_t *env, unsigned at);

static uint16_t call(const struct rule *r, const uint16_t *env, unsigned at, unsigned g)
{
    const struct function *f = &r->function[g];
    uint32_t index = 0;
    for (unsigned i = 0; i < f->params; i++) {
        uint16_t value = eval(r, env, at);
        if (value == UNDECIDED || value == HEAD || value == TAIL)
            return value;
        index = index * radix(r, f->kind[i]) + (value - lowest(f->kind[i]));
        at = r->ends[at];
    }
    return held(r, f->kind[RESULT], r->table[f->first + index]);
}

/* The outcome of the expression at a place, with calls looked up in the table. */
static uint16_t eval(const struct rule *r, const uint16_t *env, unsigned at)
{
    uint8_t byte = r->code[at];
    uint16_t v;
    unsigned guard;
    switch (byte) {
    case 0x00: return FALSE_;
    case 0x01: return TRUE_;
    case 0x02: return EMPTY;
    case 0x03: return GUARD + EMPTY;
    case 0x10: case 0x11: case 0x12: case 0x13: return env[byte - 0x10];
    case 0x20:
        v = eval(r, env, at + 1);
        if (in_cell(v) <= EMPTY)
            return v < EMPTY ? v : HEAD;
        guard = v >= GUARD;
        v = r->n[guard] - (in_cell(v) - EMPTY);
        return r->trace[guard][v / 8] >> v % 8 & 1 ? TRUE_ : FALSE_;
    case 0x21:
        v = eval(r, env, at + 1);
        return v < EMPTY ? v : in_cell(v) == EMPTY ? TAIL : v - 1;
    case 0x22:
        v = eval(r, env, at + 1);
        return v < EMPTY ? v : in_cell(v) == EMPTY ? TRUE_ : FALSE_;
    case 0x23:
        v = eval(r, env, at + 1);
        at = r->ends[at + 1];
        return v == TRUE_ ? eval(r, env, at) : v == FALSE_ ? eval(r, env, r->ends[at]) : v;
    default: return call(r, env, at + 1, byte - 0x80);
    }
}

/* Steps the parameter values to those of the next configuration: the last goes up by one; where it was at its kind's
 * last value, it starts again and the one before it is stepped. */
static void step(const struct rule *r, const struct function *f, uint16_t env[MOST_PARAMS])
{
    for (unsigned p = f->params; p-- > 0;) {
        const unsigned first = lowest(f->kind[p]);
        if (++env[p] < first + radix(r, f->kind[p]))
            return;
        env[p] = first;
    }
}

/* One pass: how many outcomes it stored. */
static uint32_t pass(const struct rule *r)
{
    uint32_t stored = 0;
    for (unsigned g = 0; g < r->functions; g++) {
        const struct function *f = &r->function[g];
        uint16_t env[MOST_PARAMS] = {0, 0, 0, 0};
        for (unsigned p = 0; p < f->params; p++)
            env[p] = lowest(f->kind[p]);
        for (uint32_t i = 0; i < f->cells; i++, step(r, f, env)) {
            uint16_t outcome;
            if (held(r, f->kind[RESULT], r->table[f->first + i]) != UNDECIDED)
                continue;
            outcome = eval(r, env, f->start);
            if (outcome != UNDECIDED) {
                r->table[f->first + i] = in_cell(outcome);
                stored++;
            }
        }
    }
    return stored;
}

/* Works out from the last byte where the expression that starts at each byte ends. Headers get ends too, which nothing
 * asks for. */
static void find_ends(struct rule *r)
{
    for (unsigned at = r->len; at-- > 0;) {
        uint8_t byte = r->code[at];
        unsigned operands = byte == 0x23 ? 3 : byte >= 0x20 && byte <= 0x22 ? 1 : 0, end = at + 1;
        if (byte >= 0x80 && byte < 0x80 + r->functions)
            operands = r->function[byte - 0x80].params;
        for (; operands > 0 && end < r->len; operands--)
            end = r->ends[end];
        r->ends[at] = end;
    }
}

static uint32_t evaluate(const uint8_t *program, size_t program_len, const struct traces *t, uint16_t *table,
                         size_t table_len, uint64_t answer[EVALUATED_SIZE])
{
    struct rule r;
    uint32_t number = begin(&r, program, program_len, t, table, table_len);
    if (number)
        return number;
    find_ends(&r);
    make_passes(&r, pass, answer);
    return 0;
}

uint32_t plain_evaluate(const uint8_t *program, size_t program_len, const uint8_t *trace, size_t trace_len, uint64_t n,
                        uint16_t *table, size_t table_len, uint64_t answer[EVALUATED_SIZE])
{
    const struct traces t = {1, {trace, NULL}, {trace_len, 0}, {n, 0}};
    return evaluate(program, program_len, &t, table, table_len, answer);
}

uint32_t plain_evaluate_two(const uint8_t *program, size_t program_len, const uint8_t *ram, size_t ram_len, uint64_t n,
                            const uint8_t *guard, size_t guard_len, uint64_t m, uint16_t *table, size_t table_len,
                            uint64_t answer[EVALUATED_SIZE])
{
    const struct traces t = {2, {ram, guard}, {ram_len, guard_len}, {n, m}};
    return evaluate(program, program_len, &t, table, table_len, answer);
}

/* ---- Following */

/* Takes the arguments of a call, the first of which stands at a place, into an array: UNDECIDED, or the first error. */
static uint16_t take_arguments(const struct rule *r, const struct function *f, const uint16_t *env, unsigned at,
                               uint16_t *values)
{
    for (unsigned i = 0; i < f->params; i++) {
        values[i] = eval(r, env, at);
        if (values[i] == HEAD || values[i] == TAIL)
            return values[i];
        at = r->ends[at];
    }
    return UNDECIDED;
}

/* Takes main's body on the whole traces, and then that of each function called: the verdict. The arguments of a call go
 * into the array that the parameter values are not in. */
static uint16_t follow_calls(const struct rule *r, uint64_t *calls)
{
    uint16_t values[2][MOST_PARAMS], *env = values[0], *next = values[1], *taken, v;
    unsigned at = r->function[0].start;
    whole_traces(r, env);
    for (*calls = 0; *calls < r->cells;) {
        const uint8_t byte = r->code[at];
        if (byte >= 0x80) {
            const struct function *f = &r->function[byte - 0x80];
            v = take_arguments(r, f, env, at + 1, next);
            if (v != UNDECIDED)
                return v;
            taken = next, next = env, env = taken;
            at = f->start;
            ++*calls;
        } else if (byte == 0x23) {
            v = eval(r, env, at + 1);
            if (v != TRUE_ && v != FALSE_)
                return v;
            at = r->ends[at + 1];
            if (v == FALSE_)
                at = r->ends[at];
        } else {
            return eval(r, env, at);
        }
    }
    return SIK_FOREVER;
}

static uint32_t follow(const uint8_t *program, size_t program_len, const struct traces *t,
                       uint64_t answer[SIK_FOLLOWED_SIZE])
{
    struct rule r;
    uint32_t number = begin_following(&r, program, program_len, t);
    if (number)
        return number;
    find_ends(&r);
    answer[SIK_FOLLOWED_VERDICT] = follow_calls(&r, &answer[SIK_FOLLOWED_CALLS]);
    return 0;
}

uint32_t plain_follow(const uint8_t *program, size_t program_len, const uint8_t *trace, size_t trace_len, uint64_t n,
                      uint64_t answer[SIK_FOLLOWED_SIZE])
{
    const struct traces t = {1, {trace, NULL}, {trace_len, 0}, {n, 0}};
    return follow(program, program_len, &t, answer);
}

uint32_t plain_follow_two(const uint8_t *program, size_t program_len, const uint8_t *ram, size_t ram_len, uint64_t n,
                          const uint8_t *guard, size_t guard_len, uint64_t m, uint64_t answer[SIK_FOLLOWED_SIZE])
{
    const struct traces t = {2, {ram, guard}, {ram_len, guard_len}, {n, m}};
    return follow(program, program_len, &t, answer);
}

/* ---- Checking a record */

uint32_t plain_check_record(const uint8_t *bytes, size_t bytes_len, uint16_t *table, size_t table_len,
                            uint64_t answer[1])
{
    return check_record_by(evaluate, bytes, bytes_len, table, table_len, answer);
}
