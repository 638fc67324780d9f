/* Checks that the header is clean in C99 and in C++: it may be included twice, its constants have the values of
 * document 01, its functions have the types written here and are found when linking. Each function is called
 * with no elements, and so with null pointers, which it must refuse. Then a record over one contact and one over two are
 * written, read and checked, one of format 1 is read and checked, rules that only loop are followed, and each answer is
 * looked for at the place that the header names.
 *
 *   cc -std=c99 -pedantic-errors -Wall -Wextra -Werror -Iinclude tests/header.c libsikafondza.a
 *   c++ -x c++ -pedantic-errors -Wall -Wextra -Werror -Iinclude tests/header.c -x none libsikafondza.a
 *
 * The exit status is the number of wrong answers.
 */
#include "sikafondza.h"
#include "sikafondza.h"
#include <stdio.h>
#include <string.h>

/* An array of negative length does not compile. */
#define IS(constant, value) typedef char constant##_is_##value[(constant) == (value) ? 1 : -1]

IS(SIK_FOREVER, 0);
IS(SIK_NO, 1);
IS(SIK_YES, 2);
IS(SIK_HEAD, 3);
IS(SIK_TAIL, 4);

IS(SIK_DIFFERS, 0);
IS(SIK_AGREES, 1);

IS(SIK_REFUSED_TRAILER_MISSING, 1);
IS(SIK_REFUSED_MARK_OR_FORMAT, 2);
IS(SIK_REFUSED_TRAILER_FIELDS, 3);
IS(SIK_REFUSED_VERDICT_OR_PASSES, 4);
IS(SIK_REFUSED_PROGRAM_LENGTH, 5);
IS(SIK_REFUSED_FUNCTION_COUNT, 6);
IS(SIK_REFUSED_HEADER_CUT, 7);
IS(SIK_REFUSED_PARAMETER_KINDS, 8);
IS(SIK_REFUSED_BODY_LENGTH, 9);
IS(SIK_REFUSED_BYTES_AFTER_FUNCTIONS, 10);
IS(SIK_REFUSED_MAIN_KIND, 11);
IS(SIK_REFUSED_BODY_ENDS, 12);
IS(SIK_REFUSED_TOO_DEEP, 13);
IS(SIK_REFUSED_LIST_CONSTRUCTOR, 14);
IS(SIK_REFUSED_UNKNOWN_BYTE, 15);
IS(SIK_REFUSED_WRONG_KIND, 16);
IS(SIK_REFUSED_BYTES_AFTER_EXPRESSION, 17);
IS(SIK_REFUSED_RING_LENGTH, 18);
IS(SIK_REFUSED_RING_STATE, 19);
IS(SIK_REFUSED_TRACE_LENGTH, 20);
IS(SIK_REFUSED_TABLE_SHORT, 21);
IS(SIK_REFUSED_OUTPUT_SHORT, 22);
IS(SIK_REFUSED_PADDING_SET, 23);
IS(SIK_REFUSED_CALL_ELSEWHERE, 24);
IS(SIK_REFUSED_OPERAND_KIND, 25);
IS(SIK_REFUSED_ARGUMENT_KIND, 26);

IS(SIK_RING_SIZE, 2);
IS(SIK_EVALUATED_SIZE, 2);
IS(SIK_FOLLOWED_VERDICT, 0);
IS(SIK_FOLLOWED_CALLS, 1);
IS(SIK_FOLLOWED_SIZE, 2);
IS(SIK_WRITTEN_SIZE, 3);
IS(SIK_PARTS_GUARD_START, 11);
IS(SIK_PARTS_GUARD_LENGTH, 12);
IS(SIK_PARTS_GUARD_SAMPLES, 13);
IS(SIK_PARTS_SIZE, 14);
IS(SIK_CHECKED_SIZE, 1);

/* The address of each function, in a pointer of its type. */
static uint32_t (*const ring_add)(uint8_t *, size_t, uint64_t *, uint8_t) = &sik_ring_add;
static uint32_t (*const ring_trace)(const uint8_t *, size_t, const uint64_t *, uint8_t *, size_t, uint64_t *) =
    &sik_ring_trace;
static uint32_t (*const check_program)(const uint8_t *, size_t) = &sik_check_program;
static uint32_t (*const evaluate)(const uint8_t *, size_t, const uint8_t *, size_t, uint64_t, uint16_t *, size_t,
                                  uint64_t *) = &sik_evaluate;
static uint32_t (*const evaluate_two)(const uint8_t *, size_t, const uint8_t *, size_t, uint64_t, const uint8_t *, size_t,
                                      uint64_t, uint16_t *, size_t, uint64_t *) = &sik_evaluate_two;
static uint32_t (*const follow)(const uint8_t *, size_t, const uint8_t *, size_t, uint64_t, uint64_t *) = &sik_follow;
static uint32_t (*const follow_two)(const uint8_t *, size_t, const uint8_t *, size_t, uint64_t, const uint8_t *, size_t,
                                    uint64_t, uint64_t *) = &sik_follow_two;
static uint32_t (*const write_record)(const uint8_t *, size_t, const uint8_t *, size_t, uint64_t, uint16_t *, size_t,
                                      uint8_t *, size_t, uint64_t *) = &sik_write_record;
static uint32_t (*const write_record_two)(const uint8_t *, size_t, const uint8_t *, size_t, uint64_t, const uint8_t *,
                                          size_t, uint64_t, uint16_t *, size_t, uint8_t *, size_t, uint64_t *) =
    &sik_write_record_two;
static uint32_t (*const read_record)(const uint8_t *, size_t, uint64_t *) = &sik_read_record;
static uint32_t (*const check_record)(const uint8_t *, size_t, uint16_t *, size_t, uint64_t *) = &sik_check_record;

/* No elements. */
static int wrong_refusals(void)
{
    uint64_t state[SIK_RING_SIZE] = {0, 0}, numbers[SIK_PARTS_SIZE] = {0, 0, 0, 0, 0, 0, 0, 0, 0, 0, 0, 0, 0, 0};
    int wrong = 0;
    wrong += ring_add(NULL, 0, state, 1) != SIK_REFUSED_RING_LENGTH;
    wrong += ring_trace(NULL, 0, state, NULL, 0, numbers) != SIK_REFUSED_RING_LENGTH;
    wrong += check_program(NULL, 0) != SIK_REFUSED_PROGRAM_LENGTH;
    wrong += evaluate(NULL, 0, NULL, 0, 0, NULL, 0, numbers) != SIK_REFUSED_PROGRAM_LENGTH;
    wrong += evaluate_two(NULL, 0, NULL, 0, 0, NULL, 0, 0, NULL, 0, numbers) != SIK_REFUSED_PROGRAM_LENGTH;
    wrong += follow(NULL, 0, NULL, 0, 0, numbers) != SIK_REFUSED_PROGRAM_LENGTH;
    wrong += follow_two(NULL, 0, NULL, 0, 0, NULL, 0, 0, numbers) != SIK_REFUSED_PROGRAM_LENGTH;
    wrong += write_record(NULL, 0, NULL, 0, 0, NULL, 0, NULL, 0, numbers) != SIK_REFUSED_PROGRAM_LENGTH;
    wrong += write_record_two(NULL, 0, NULL, 0, 0, NULL, 0, 0, NULL, 0, NULL, 0, numbers) != SIK_REFUSED_PROGRAM_LENGTH;
    wrong += read_record(NULL, 0, numbers) != SIK_REFUSED_TRAILER_MISSING;
    wrong += check_record(NULL, 0, NULL, 0, numbers) != SIK_REFUSED_TRAILER_MISSING;
    return wrong;
}

/* The header's example of the order of refusals: function 0 decides, though the fault of function 1 has a lower number. */
static int wrong_order(void)
{
    const uint8_t program[] = {0x02, 0x01, 0x01, 0x01, 0x00, 0x10, 0x00, 0x00, 0x01, 0x00, 0x24};
    return check_program(program, sizeof program) != SIK_REFUSED_WRONG_KIND;
}

/* A ring of three samples, 1 0 1, and on it the program 'null of parameter 0' of document 01: no, in two passes. */
static int wrong_places(void)
{
    const uint8_t program[] = {0x01, 0x01, 0x01, 0x02, 0x00, 0x22, 0x10};
    uint8_t slots[4], trace[1], out[64];
    uint16_t table[4];
    uint64_t state[SIK_RING_SIZE] = {0, 0}, samples[1], evaluated[SIK_EVALUATED_SIZE], written[SIK_WRITTEN_SIZE];
    uint64_t parts[SIK_PARTS_SIZE], checked[SIK_CHECKED_SIZE];
    int wrong = 0;
    wrong += ring_add(slots, 4, state, 1) != 0 || ring_add(slots, 4, state, 0) != 0 || ring_add(slots, 4, state, 1) != 0;
    wrong += state[SIK_RING_NEXT] != 3 || state[SIK_RING_COUNT] != 3;
    wrong += ring_trace(slots, 4, state, trace, 1, samples) != 0 || samples[0] != 3 || trace[0] != 0x05;
    wrong += evaluate(program, 7, trace, 1, 3, table, 4, evaluated) != 0;
    wrong += evaluated[SIK_EVALUATED_VERDICT] != SIK_NO || evaluated[SIK_EVALUATED_PASSES] != 2;
    out[0] = 0xFF; /* a byte before the record */
    wrong += write_record(program, 7, trace, 1, 3, table, 4, out + 1, 63, written) != 0;
    wrong += written[SIK_WRITTEN_LENGTH] != 21 || written[SIK_WRITTEN_VERDICT] != SIK_NO;
    wrong += written[SIK_WRITTEN_PASSES] != 2;
    wrong += read_record(out, 22, parts) != 0;
    wrong += parts[SIK_PARTS_PROGRAM_START] != 1 || parts[SIK_PARTS_PROGRAM_LENGTH] != 7;
    wrong += parts[SIK_PARTS_TRACE_START] != 8 || parts[SIK_PARTS_TRACE_LENGTH] != 1 || parts[SIK_PARTS_SAMPLES] != 3;
    wrong += parts[SIK_PARTS_VERDICT] != SIK_NO || parts[SIK_PARTS_PASSES] != 2 || parts[SIK_PARTS_BEFORE] != 1;
    wrong += parts[SIK_PARTS_FORMAT] != 2 || parts[SIK_PARTS_LABEL_START] != 0 || parts[SIK_PARTS_LABEL_LENGTH] != 0;
    wrong += parts[SIK_PARTS_GUARD_START] != 0 || parts[SIK_PARTS_GUARD_LENGTH] != 0;
    wrong += parts[SIK_PARTS_GUARD_SAMPLES] != 0;
    wrong += check_record(out, 22, table, 4, checked) != 0 || checked[SIK_CHECKED_AGREEMENT] != SIK_AGREES;
    trace[0] |= 0x08, out[8] |= 0x80; /* a bit above the last sample, lent and in the record */
    wrong += evaluate(program, 7, trace, 1, 3, table, 4, evaluated) != SIK_REFUSED_PADDING_SET;
    wrong += write_record(program, 7, trace, 1, 3, table, 4, out + 1, 63, written) != SIK_REFUSED_PADDING_SET;
    wrong += read_record(out, 22, parts) != SIK_REFUSED_PADDING_SET;
    wrong += check_record(out, 22, table, 4, checked) != SIK_REFUSED_PADDING_SET;
    return wrong;
}

/* 'Null of parameter 1' over two contacts, on 1 0 1 of the ram and nine samples of the guard: no, in two passes. */
static int wrong_two(void)
{
    const uint8_t program[] = {0x81, 0x02, 0x03, 0x02, 0x02, 0x00, 0x22, 0x11};
    const uint8_t ram[] = {0x05}, guard[] = {0xFF, 0x01};
    uint8_t out[64];
    uint16_t table[40];
    uint64_t evaluated[SIK_EVALUATED_SIZE], written[SIK_WRITTEN_SIZE], parts[SIK_PARTS_SIZE], checked[SIK_CHECKED_SIZE];
    int wrong = 0;
    wrong += check_program(program, 8) != 0;
    wrong += evaluate_two(program, 8, ram, 1, 3, guard, 2, 9, table, 40, evaluated) != 0;
    wrong += evaluated[SIK_EVALUATED_VERDICT] != SIK_NO || evaluated[SIK_EVALUATED_PASSES] != 2;
    wrong += table[39] != 1 || table[0] != 2 || table[10] != 2 || table[11] != 1; /* four rows of ten cells */
    wrong += evaluate_two(program, 8, ram, 1, 3, guard, 2, 9, table, 39, evaluated) != SIK_REFUSED_TABLE_SHORT;
    wrong += evaluate_two(program, 8, ram, 1, 3, guard, 2, 8, table, 40, evaluated) != SIK_REFUSED_TRACE_LENGTH;
    wrong += evaluate(program, 8, ram, 1, 3, table, 40, evaluated) != SIK_REFUSED_FUNCTION_COUNT;
    out[0] = 0xFF; /* a byte before the record */
    wrong += write_record_two(program, 8, ram, 1, 3, guard, 2, 9, table, 40, out + 1, 63, written) != 0;
    wrong += written[SIK_WRITTEN_LENGTH] != 26 || written[SIK_WRITTEN_VERDICT] != SIK_NO;
    wrong += written[SIK_WRITTEN_PASSES] != 2;
    wrong += read_record(out, 27, parts) != 0 || parts[SIK_PARTS_FORMAT] != 3 || parts[SIK_PARTS_BEFORE] != 1;
    wrong += parts[SIK_PARTS_PROGRAM_START] != 1 || parts[SIK_PARTS_PROGRAM_LENGTH] != 8;
    wrong += parts[SIK_PARTS_TRACE_START] != 9 || parts[SIK_PARTS_TRACE_LENGTH] != 1 || parts[SIK_PARTS_SAMPLES] != 3;
    wrong += parts[SIK_PARTS_GUARD_START] != 10 || parts[SIK_PARTS_GUARD_LENGTH] != 2;
    wrong += parts[SIK_PARTS_GUARD_SAMPLES] != 9 || parts[SIK_PARTS_LABEL_LENGTH] != 0;
    wrong += parts[SIK_PARTS_VERDICT] != SIK_NO || parts[SIK_PARTS_PASSES] != 2;
    wrong += check_record(out, 27, table, 40, checked) != 0 || checked[SIK_CHECKED_AGREEMENT] != SIK_AGREES;
    out[11] |= 0x80; /* a bit above the last sample of the guard */
    wrong += read_record(out, 27, parts) != SIK_REFUSED_PADDING_SET;
    return wrong;
}

/* Rows B, D, E and F of document 01: forever with as many calls as configurations, 3 calls to yes on 1 1 1 and 1 to no on
 * 1 0 1, 1 call to yes, and a call in an argument; and a call in a condition of a function that main never comes to. A
 * refusal leaves the answer as it was. */
static int wrong_follow(void)
{
    const uint8_t row_b[] = {0x01, 0x01, 0x01, 0x02, 0x00, 0x80, 0x10};
    const uint8_t row_d[] = {0x01, 0x01, 0x01, 0x0B, 0x00, 0x23, 0x22, 0x10, 0x01, 0x23, 0x20, 0x10, 0x80, 0x21, 0x10, 0x00};
    const uint8_t row_e[] = {0x02, 0x01, 0x01, 0x01, 0x00, 0x81, 0x00, 0x00, 0x01, 0x00, 0x01};
    const uint8_t row_f[] = {0x02, 0x01, 0x01, 0x03, 0x00, 0x81, 0x80, 0x10, 0x01, 0x00, 0x01, 0x00, 0x01};
    const uint8_t apart[] = {0x02, 0x01, 0x01, 0x01, 0x00, 0x01, 0x00, 0x00, 0x04, 0x00, 0x23, 0x81, 0x00, 0x01};
    const uint8_t ones[] = {0x07}, mixed[] = {0x05}, padded[] = {0x0D};
    uint64_t followed[SIK_FOLLOWED_SIZE];
    int wrong = 0;
    wrong += follow(row_b, sizeof row_b, mixed, 1, 3, followed) != 0;
    wrong += followed[SIK_FOLLOWED_VERDICT] != SIK_FOREVER || followed[SIK_FOLLOWED_CALLS] != 4;
    wrong += follow(row_d, sizeof row_d, ones, 1, 3, followed) != 0;
    wrong += followed[SIK_FOLLOWED_VERDICT] != SIK_YES || followed[SIK_FOLLOWED_CALLS] != 3;
    wrong += follow(row_d, sizeof row_d, mixed, 1, 3, followed) != 0;
    wrong += followed[SIK_FOLLOWED_VERDICT] != SIK_NO || followed[SIK_FOLLOWED_CALLS] != 1;
    wrong += follow(row_e, sizeof row_e, NULL, 0, 0, followed) != 0;
    wrong += followed[SIK_FOLLOWED_VERDICT] != SIK_YES || followed[SIK_FOLLOWED_CALLS] != 1;
    followed[SIK_FOLLOWED_VERDICT] = followed[SIK_FOLLOWED_CALLS] = 77;
    wrong += follow(row_f, sizeof row_f, padded, 1, 4096, followed) != SIK_REFUSED_CALL_ELSEWHERE;
    wrong += follow(apart, sizeof apart, padded, 1, 3, followed) != SIK_REFUSED_CALL_ELSEWHERE;
    wrong += follow(row_d, sizeof row_d, padded, 1, 4096, followed) != SIK_REFUSED_TRACE_LENGTH;
    wrong += follow(row_d, sizeof row_d, padded, 1, 3, followed) != SIK_REFUSED_PADDING_SET;
    wrong += follow_two(row_d, sizeof row_d, ones, 1, 3, ones, 1, 3, followed) != SIK_REFUSED_FUNCTION_COUNT;
    wrong += followed[SIK_FOLLOWED_VERDICT] != 77 || followed[SIK_FOLLOWED_CALLS] != 77;
    return wrong;
}

/* 'If null of parameter 0 then hd of parameter 1, else main on the tails of both' over two contacts, on 1 0 1 of the ram: 3
 * calls to yes on four samples of the guard, whose newest is 1; on three, head of the empty list after as many; on two, the
 * third call is not made, since its second argument is tail of the empty list. On traces of 4,095 samples main has 16,777,216
 * configurations, and no function can be added. */
static int wrong_follow_two(void)
{
    const uint8_t program[] = {0x81, 0x02, 0x03, 0x02, 0x0A, 0x00, 0x23, 0x22, 0x10, 0x20, 0x11, 0x80, 0x21, 0x10, 0x21, 0x11};
    const uint8_t added[] = {0x82, 0x02, 0x03, 0x02, 0x01, 0x00, 0x01, 0x00, 0x00, 0x00, 0x01, 0x00, 0x01};
    const uint8_t ram[] = {0x05}, guard[] = {0x08}, none[] = {0x00};
    static const uint8_t zeros[512] = {0};
    uint64_t followed[SIK_FOLLOWED_SIZE];
    int wrong = 0;
    wrong += follow_two(program, sizeof program, ram, 1, 3, guard, 1, 4, followed) != 0;
    wrong += followed[SIK_FOLLOWED_VERDICT] != SIK_YES || followed[SIK_FOLLOWED_CALLS] != 3;
    wrong += follow_two(program, sizeof program, ram, 1, 3, none, 1, 3, followed) != 0;
    wrong += followed[SIK_FOLLOWED_VERDICT] != SIK_HEAD || followed[SIK_FOLLOWED_CALLS] != 3;
    wrong += follow_two(program, sizeof program, ram, 1, 3, none, 1, 2, followed) != 0;
    wrong += followed[SIK_FOLLOWED_VERDICT] != SIK_TAIL || followed[SIK_FOLLOWED_CALLS] != 2;
    wrong += follow(program, sizeof program, ram, 1, 3, followed) != SIK_REFUSED_FUNCTION_COUNT;
    wrong += follow_two(program, sizeof program, zeros, 512, 4095, zeros, 512, 4095, followed) != 0;
    wrong += followed[SIK_FOLLOWED_VERDICT] != SIK_HEAD || followed[SIK_FOLLOWED_CALLS] != 4095;
    wrong += follow_two(added, sizeof added, zeros, 512, 4095, zeros, 512, 4095, followed) != SIK_REFUSED_TABLE_SHORT;
    return wrong;
}

/* The archive of document 01, a record of format 1 whose label is zeros. */
static int wrong_label(void)
{
    const uint8_t record[] = {0x01, 0x01, 0x01, 0x02, 0x00, 0x22, 0x10, 0x05, 0x00, 0x00, 0x00, 0x00, 0x00, 0x00, 0x00,
                              0x00, 0x01, 0x02, 0x00, 0x00, 0x00, 0x15, 0x00, 0x0E, 0x00, 0x03, 0x00, 0x01, 0x52};
    uint16_t table[4];
    uint64_t parts[SIK_PARTS_SIZE], checked[SIK_CHECKED_SIZE];
    int wrong = 0;
    wrong += read_record(record, sizeof record, parts) != 0 || parts[SIK_PARTS_FORMAT] != 1;
    wrong += parts[SIK_PARTS_LABEL_START] != 8 || parts[SIK_PARTS_LABEL_LENGTH] != 8;
    wrong += check_record(record, sizeof record, table, 4, checked) != 0 || checked[SIK_CHECKED_AGREEMENT] != SIK_AGREES;
    return wrong;
}

/* The text of the version has its three numbers. */
static int wrong_version(void)
{
    char text[64];
    sprintf(text, "%d.%d.%d", SIK_VERSION_MAJOR, SIK_VERSION_MINOR, SIK_VERSION_PATCH);
    return strcmp(text, SIK_VERSION) != 0;
}

int main(void)
{
    return wrong_refusals() + wrong_order() + wrong_places() + wrong_two() + wrong_follow() + wrong_follow_two() +
           wrong_label() + wrong_version();
}
