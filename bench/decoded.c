/* The decoding evaluator. Each body is decoded once an evaluation, from its last byte to its first, into one word a
 * node at the place of its byte; common pairs of nodes are one sort. The evaluator is a recursion over these words, and
 * a pass takes the cells of a function by rows, in which only the last parameter differs; the values of the others step
 * from row to row. Following is a loop over the words, from body to body. With DIVIDING defined, a pass divides the
 * number of each cell it visits instead, and nothing follows. It runs on accepted programs alone, so it asks for no
 * depth and no bounds.
 */
#include "common.h"

#ifdef DIVIDING
#define NAMED(operation) dividing_##operation
#else
#define NAMED(operation) decoded_##operation
#endif

/* The sorts of decoded nodes. The empty list of the guard, whose number no place holds, has a sort of its own; so have
 * hd, tl and null of a parameter, an if whose condition is a parameter or null or hd of one, a call of a function whose
 * result is a list of the guard, and any other call with one argument. */
enum {
    CONSTANT, EMPTY_GUARD, PARAM, HD, TL, NULL_, HD_PARAM, TL_PARAM, NULL_PARAM, IF, IF_PARAM, IF_NULL_PARAM,
    IF_HD_PARAM, CALL, CALL_ONE, CALL_GUARD
};

/* A node has its sort in bits 0 to 3, a small number in bits 8 to 15 and four places of 12 bits from bit 16 on. The
 * small number is a parameter, or of a call the callee and 32 times the number of arguments. The places are those of
 * the operands, in their order; of a constant the first is its number. */
enum { SMALL = 8, PLACES = 16, PLACE = 12 };

static unsigned sort(uint64_t node) { return node & 15; }

static unsigned param(uint64_t node) { return node >> SMALL & 3; }

static unsigned callee(uint64_t node) { return node >> SMALL & 31; }

static unsigned arguments(uint64_t node) { return node >> (SMALL + 5) & 7; }

static unsigned place(uint64_t node, unsigned i) { return node >> (PLACES + PLACE * i) & 4095; }

/* A kind: how many values it has, and the number of the first. */
struct kind {
    uint32_t values, lowest;
};

/* What a call asks of a function: its first cell in bits 0 to 31, then the least and the most number of an outcome of
 * its kind in 16 bits each; and the kinds of its parameters. */
struct called {
    uint64_t outcomes;
    struct kind param[MOST_PARAMS];
};

struct decoded {
    struct rule rule;  /* first, as a pass is handed the rule */
    struct called called[MOST_FUNCTIONS];
    uint64_t node[MOST_PROGRAM];
};

static uint32_t first_cell(uint64_t outcomes) { return outcomes; }

/* Whether a cell holds an outcome of its function's kind; if not, it counts as undecided. */
static int decided(uint64_t outcomes, unsigned cell)
{
    const unsigned least = outcomes >> 32 & 65535, most = outcomes >> 48;
    return cell - least <= most - least;
}

/* ---- Evaluating */

static unsigned head(const struct decoded *d, unsigned v)
{
    const unsigned guard = v / GUARD;
    if (in_cell(v) <= EMPTY)
        return v < EMPTY ? v : HEAD;
    v = d->rule.n[guard] + EMPTY - in_cell(v);
    return (d->rule.trace[guard][v / 8] >> v % 8 & 1) + FALSE_;
}

static unsigned tail(unsigned v) { return v < EMPTY ? v : in_cell(v) == EMPTY ? TAIL : v - 1; }

static unsigned null(unsigned v) { return v < EMPTY ? v : in_cell(v) == EMPTY ? TRUE_ : FALSE_; }

/* The outcome in a cell of a function, as it stands there. */
static unsigned look_up(const struct decoded *d, const struct called *f, uint32_t index)
{
    const unsigned cell = d->rule.table[first_cell(f->outcomes) + index];
    return decided(f->outcomes, cell) ? cell : UNDECIDED;
}

/* What a call gave, by what stands in the callee's cell. */
static unsigned working(uint64_t node, unsigned cell)
{
    return sort(node) == CALL_GUARD && cell >= EMPTY ? cell + GUARD : cell;
}

static unsigned eval(const struct decoded *d, const uint16_t *env, uint64_t node);

/* As eval; a parameter, its tl and its hd are taken at once. */
static inline unsigned operand(const struct decoded *d, const uint16_t *env, uint64_t node)
{
    if (sort(node) == TL_PARAM)
        return tail(env[param(node)]);
    if (sort(node) == PARAM)
        return env[param(node)];
    if (sort(node) == HD_PARAM)
        return head(d, env[param(node)]);
    return eval(d, env, node);
}

/* What the table holds for a call. An argument that is no value of its parameter, so undecided or an error, is the
 * outcome. */
static unsigned call(const struct decoded *d, const uint16_t *env, uint64_t node)
{
    const struct called *f = &d->called[callee(node)];
    uint64_t places = node >> PLACES;
    uint32_t index = 0;
    for (unsigned i = 0; i < arguments(node); i++, places >>= PLACE) {
        unsigned value = operand(d, env, d->node[places & 4095]), digit = value - f->param[i].lowest;
        if (digit >= f->param[i].values)
            return value;
        index = index * f->param[i].values + digit;
    }
    return look_up(d, f, index);
}

static unsigned call_one(const struct decoded *d, const uint16_t *env, uint64_t node)
{
    const struct called *f = &d->called[callee(node)];
    unsigned value = operand(d, env, d->node[place(node, 0)]), digit = value - f->param[0].lowest;
    if (digit >= f->param[0].values)
        return value;
    return look_up(d, f, digit);
}

/* The outcome of a node, with calls looked up in the table. */
static unsigned eval(const struct decoded *d, const uint16_t *env, uint64_t node)
{
    unsigned condition;
    switch (sort(node)) {
    case CONSTANT: return place(node, 0);
    case EMPTY_GUARD: return GUARD + EMPTY;
    case PARAM: return env[param(node)];
    case HD: return head(d, operand(d, env, d->node[place(node, 0)]));
    case TL: return tail(operand(d, env, d->node[place(node, 0)]));
    case NULL_: return null(operand(d, env, d->node[place(node, 0)]));
    case HD_PARAM: return head(d, env[param(node)]);
    case TL_PARAM: return tail(env[param(node)]);
    case NULL_PARAM: return null(env[param(node)]);
    case IF: condition = eval(d, env, d->node[place(node, 0)]); break;
    case IF_PARAM: condition = env[param(node)]; break;
    case IF_NULL_PARAM: condition = null(env[param(node)]); break;
    case IF_HD_PARAM: condition = head(d, env[param(node)]); break;
    case CALL: case CALL_GUARD: return working(node, call(d, env, node));
    default: return call_one(d, env, node);
    }
    if (condition == TRUE_)
        return eval(d, env, d->node[place(node, 1)]);
    if (condition == FALSE_)
        return eval(d, env, d->node[place(node, 2)]);
    return condition;
}

/* ---- Passes */

/* Takes the body at an undecided cell: how many outcomes were stored. */
static inline uint32_t visit(const struct decoded *d, const uint16_t *env, uint64_t body, uint16_t *cell)
{
    const unsigned outcome = eval(d, env, body);
    if (outcome == UNDECIDED)
        return 0;
    *cell = in_cell(outcome);
    return 1;
}

#ifdef DIVIDING

/* The parameter values of a configuration, by its number. */
static void values(const struct called *f, unsigned params, uint32_t index, uint16_t *env)
{
    for (unsigned p = params; p-- > 0; index /= f->param[p].values)
        env[p] = index % f->param[p].values + f->param[p].lowest;
}

/* Visits the cells of a function: how many outcomes were stored. */
static uint32_t pass_function(const struct decoded *d, unsigned g)
{
    const struct function *f = &d->rule.function[g];
    const struct called *c = &d->called[g];
    const uint64_t body = d->node[f->start], outcomes = c->outcomes;
    uint16_t env[MOST_PARAMS], *const cell = d->rule.table + f->first;
    uint32_t stored = 0;
    for (uint32_t i = 0; i < f->cells; i++) {
        if (decided(outcomes, cell[i]))
            continue;
        values(c, f->params, i, env);
        stored += visit(d, env, body, &cell[i]);
    }
    return stored;
}

#else

/* The first value of each parameter, and the number after the last one. */
struct bounds {
    uint16_t first[MOST_PARAMS], end[MOST_PARAMS];
};

/* Steps the values of the parameters before the last from a row to the next: the last of them goes up by one; where it
 * was at its kind's last value, it starts again and the one before it is stepped. */
static inline void step(const struct bounds *b, unsigned last, uint16_t *env)
{
    for (unsigned p = last; p-- > 0;) {
        if (++env[p] < b->end[p])
            return;
        env[p] = b->first[p];
    }
}

/* Visits the cells of a function, row by row: how many outcomes were stored. */
static uint32_t pass_function(const struct decoded *d, unsigned g)
{
    const struct function *f = &d->rule.function[g];
    const struct called *c = &d->called[g];
    const unsigned last = f->params ? f->params - 1 : 0, lowest = f->params ? c->param[last].lowest : 0;
    const uint32_t width = f->params ? c->param[last].values : 1;
    const uint64_t body = d->node[f->start], outcomes = c->outcomes;
    uint16_t env[MOST_PARAMS], *cell = d->rule.table + f->first, *const end = cell + f->cells;
    struct bounds b;
    uint32_t stored = 0;
    for (unsigned p = 0; p < f->params; p++) {
        env[p] = b.first[p] = c->param[p].lowest;
        b.end[p] = c->param[p].lowest + c->param[p].values;
    }
    for (; cell < end; cell += width, step(&b, last, env))
        for (uint32_t digit = 0; digit < width; digit++) {
            if (decided(outcomes, cell[digit]))
                continue;
            env[last] = lowest + digit;
            stored += visit(d, env, body, &cell[digit]);
        }
    return stored;
}

#endif

/* One pass: how many outcomes it stored. */
static uint32_t pass(const struct rule *r)
{
    uint32_t stored = 0;
    for (unsigned g = 0; g < r->functions; g++)
        stored += pass_function((const struct decoded *)r, g);
    return stored;
}

/* ---- Decoding */

/* hd, tl or null, by the node of its operand. */
static uint64_t unary(unsigned of_any, unsigned of_param, uint64_t operand)
{
    return sort(operand) == PARAM ? of_param | param(operand) << SMALL : of_any;
}

/* An if without its places, by the node of its condition. */
static uint64_t conditional(uint64_t condition)
{
    unsigned small = param(condition) << SMALL;
    switch (sort(condition)) {
    case PARAM: return IF_PARAM | small;
    case NULL_PARAM: return IF_NULL_PARAM | small;
    case HD_PARAM: return IF_HD_PARAM | small;
    default: return IF;
    }
}

/* The sort of a call of a function. */
static unsigned called_as(const struct function *f)
{
    return f->kind[RESULT] == GUARD_LIST ? CALL_GUARD : f->params == 1 ? CALL_ONE : CALL;
}

/* Decodes the byte at a place by the nodes after it. */
static void decode(struct decoded *d, unsigned at)
{
    const unsigned byte = d->rule.code[at];
    unsigned operands = 0, end = at + 1;
    uint64_t node;
    switch (byte) {
    case 0x00: node = CONSTANT | FALSE_ << PLACES; break;
    case 0x01: node = CONSTANT | TRUE_ << PLACES; break;
    case 0x02: node = CONSTANT | EMPTY << PLACES; break;
    case 0x03: node = EMPTY_GUARD; break;
    case 0x10: case 0x11: case 0x12: case 0x13: node = PARAM | (byte - 0x10) << SMALL; break;
    case 0x20: node = unary(HD, HD_PARAM, d->node[end]), operands = 1; break;
    case 0x21: node = unary(TL, TL_PARAM, d->node[end]), operands = 1; break;
    case 0x22: node = unary(NULL_, NULL_PARAM, d->node[end]), operands = 1; break;
    case 0x23: node = conditional(d->node[end]), operands = 3; break;
    default:
        operands = d->rule.function[byte - 0x80].params;
        node = called_as(&d->rule.function[byte - 0x80]) | (byte - 0x80 + 32 * operands) << SMALL;
    }
    for (unsigned i = 0; i < operands; i++) {
        node |= (uint64_t)end << (PLACES + PLACE * i);
        end = d->rule.ends[end];
    }
    d->node[at] = node;
    d->rule.ends[at] = end;
}

/* Works out what a call asks of a function, and decodes its body. */
static void decode_function(struct decoded *d, unsigned g)
{
    const struct function *f = &d->rule.function[g];
    const unsigned result = f->kind[RESULT];
    const uint64_t least = result ? HEAD : FALSE_, most = result ? EMPTY + d->rule.n[result - 1] : TAIL;
    d->called[g].outcomes = f->first | least << 32 | most << 48;
    for (unsigned p = 0; p < f->params; p++)
        d->called[g].param[p] = (struct kind){radix(&d->rule, f->kind[p]), lowest(f->kind[p])};
    for (unsigned at = f->end; at-- > f->start;)
        decode(d, at);
}

static uint32_t evaluate(const uint8_t *program, size_t program_len, const struct traces *t, uint16_t *table,
                         size_t table_len, uint64_t answer[EVALUATED_SIZE])
{
    struct decoded d;
    uint32_t number = begin(&d.rule, program, program_len, t, table, table_len);
    if (number)
        return number;
    for (unsigned g = 0; g < d.rule.functions; g++)
        decode_function(&d, g);
    make_passes(&d.rule, pass, answer);
    return 0;
}

uint32_t NAMED(evaluate)(const uint8_t *program, size_t program_len, const uint8_t *trace, size_t trace_len,
                         uint64_t n, uint16_t *table, size_t table_len, uint64_t answer[EVALUATED_SIZE])
{
    const struct traces t = {1, {trace, NULL}, {trace_len, 0}, {n, 0}};
    return evaluate(program, program_len, &t, table, table_len, answer);
}

uint32_t NAMED(evaluate_two)(const uint8_t *program, size_t program_len, const uint8_t *ram, size_t ram_len,
                             uint64_t n, const uint8_t *guard, size_t guard_len, uint64_t m, uint16_t *table,
                             size_t table_len, uint64_t answer[EVALUATED_SIZE])
{
    const struct traces t = {2, {ram, guard}, {ram_len, guard_len}, {n, m}};
    return evaluate(program, program_len, &t, table, table_len, answer);
}

#ifndef DIVIDING

/* ---- Following */

static int is_error(unsigned v) { return v == HEAD || v == TAIL; }

/* Takes the arguments of a call into an array: UNDECIDED, or the first error. */
static inline unsigned take_arguments(const struct decoded *d, const uint16_t *env, uint64_t node, uint16_t *values)
{
    uint64_t places = node >> PLACES;
    for (unsigned i = 0; i < arguments(node); i++, places >>= PLACE) {
        unsigned value = operand(d, env, d->node[places & 4095]);
        if (is_error(value))
            return value;
        values[i] = value;
    }
    return UNDECIDED;
}

struct followed {
    uint32_t verdict, calls;
};

/* Takes main's body on the whole traces, and then that of each function called. The arguments of a call go into the
 * array that the parameter values are not in; a single one goes into its place. */
static struct followed follow_calls(const struct decoded *d)
{
    const uint32_t most = d->rule.cells;
    uint16_t values[2][MOST_PARAMS], *env = values[0], *next = values[1], *taken;
    uint64_t body[MOST_FUNCTIONS], node;
    uint32_t calls = 0;
    unsigned v;
    for (unsigned g = 0; g < d->rule.functions; g++)
        body[g] = d->node[d->rule.function[g].start];
    whole_traces(&d->rule, env);
    for (node = body[0];;) {
        switch (sort(node)) {
        case IF: v = eval(d, env, d->node[place(node, 0)]); break;
        case IF_PARAM: v = env[param(node)]; break;
        case IF_NULL_PARAM: v = null(env[param(node)]); break;
        case IF_HD_PARAM: v = head(d, env[param(node)]); break;
        case CALL_ONE:
            v = operand(d, env, d->node[place(node, 0)]);
            if (is_error(v))
                return (struct followed){v, calls};
            env[0] = v;
            if (++calls == most)
                return (struct followed){SIK_FOREVER, calls};
            node = body[callee(node)];
            continue;
        case CALL: case CALL_GUARD:
            v = take_arguments(d, env, node, next);
            if (v != UNDECIDED)
                return (struct followed){v, calls};
            taken = next, next = env, env = taken;
            if (++calls == most)
                return (struct followed){SIK_FOREVER, calls};
            node = body[callee(node)];
            continue;
        default: return (struct followed){eval(d, env, node), calls};
        }
        if (v == TRUE_)
            node = d->node[place(node, 1)];
        else if (v == FALSE_)
            node = d->node[place(node, 2)];
        else
            return (struct followed){v, calls};
    }
}

static uint32_t follow(const uint8_t *program, size_t program_len, const struct traces *t,
                       uint64_t answer[SIK_FOLLOWED_SIZE])
{
    struct decoded d;
    struct followed f;
    uint32_t number = begin_following(&d.rule, program, program_len, t);
    if (number)
        return number;
    for (unsigned g = 0; g < d.rule.functions; g++)
        decode_function(&d, g);
    f = follow_calls(&d);
    answer[SIK_FOLLOWED_VERDICT] = f.verdict;
    answer[SIK_FOLLOWED_CALLS] = f.calls;
    return 0;
}

uint32_t decoded_follow(const uint8_t *program, size_t program_len, const uint8_t *trace, size_t trace_len, uint64_t n,
                        uint64_t answer[SIK_FOLLOWED_SIZE])
{
    const struct traces t = {1, {trace, NULL}, {trace_len, 0}, {n, 0}};
    return follow(program, program_len, &t, answer);
}

uint32_t decoded_follow_two(const uint8_t *program, size_t program_len, const uint8_t *ram, size_t ram_len, uint64_t n,
                            const uint8_t *guard, size_t guard_len, uint64_t m, uint64_t answer[SIK_FOLLOWED_SIZE])
{
    const struct traces t = {2, {ram, guard}, {ram_len, guard_len}, {n, m}};
    return follow(program, program_len, &t, answer);
}

#endif

/* ---- Checking a record */

uint32_t NAMED(check_record)(const uint8_t *bytes, size_t bytes_len, uint16_t *table, size_t table_len,
                             uint64_t answer[1])
{
    return check_record_by(evaluate, bytes, bytes_len, table, table_len, answer);
}
