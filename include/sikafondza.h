/* Sikafondza: the functions of the proved library that a program in C calls.
 *
 * Every function answers for all bytes and numbers and returns. It answers 0, or the number of a refusal
 * (SIK_REFUSED_..). A refusal changes nothing that is lent, the arrays for the answer included. A function reads and
 * writes nothing but the memory that it is lent, and keeps no pointer to it. A pointer to no elements may be null. What
 * is lent for reading must not change during the call, and what is lent for writing must overlap nothing else that is
 * lent to the same call. The functions keep no state of their own, so calls on different memory may run at the same
 * time. A call takes at most about 50 KB of stack (measured on x86-64).
 *
 * An array for a state or an answer has its places named by an enum (SIK_RING_.., SIK_EVALUATED_.., SIK_FOLLOWED_..,
 * SIK_WRITTEN_.., SIK_PARTS_.., SIK_CHECKED_..), which ends in its number of places, .._SIZE.
 *
 * Link with libsikafondza.a (`make lib` puts it with this file under build/).
 */
#ifndef SIKAFONDZA_H
#define SIKAFONDZA_H

#include <stddef.h>
#include <stdint.h>

/* The version of the library, as numbers and as a text such as "3.2.0". */
#define SIK_VERSION_MAJOR 3
#define SIK_VERSION_MINOR 2
#define SIK_VERSION_PATCH 0
#define SIK_VERSION \
    SIK_VERSION_TEXT(SIK_VERSION_MAJOR) "." SIK_VERSION_TEXT(SIK_VERSION_MINOR) "." SIK_VERSION_TEXT(SIK_VERSION_PATCH)
#define SIK_VERSION_TEXT(macro) SIK_VERSION_TEXT_OF(macro)
#define SIK_VERSION_TEXT_OF(number) #number

#ifdef __cplusplus
extern "C" {
#endif

/* Verdicts. */
enum {
    SIK_FOREVER = 0, /* no finite derivation exists: the rule never ends */
    SIK_NO = 1,      /* False */
    SIK_YES = 2,     /* True */
    SIK_HEAD = 3,    /* head of empty */
    SIK_TAIL = 4     /* tail of empty */
};

/* Refusals. The number answered is that of the first that applies, among those that the function can meet: in the order
 * of this list, but 23 directly after 3 of a record, and directly after 20 of a lent trace, 24 directly after 17, and 25 and
 * 26 in the place of 16.
 * The list of refusals above each function has its order. Of a program with several faults, in 7 to 9 the first function at
 * fault decides; in 12 to 17, 25 and 26 the first function, and in it the first byte, whatever the numbers of the later ones.
 * So the program 02 01 01 01 00 10 00 00 01 00 24 is refused with 16, for the list in the body of function 0, and not with
 * 14, for the 0x24 in that of function 1.
 *
 * 16, 25 and 26 say that a node is of another kind than its place demands (a Bool, a list of the ram, a list of the guard;
 * hd and null take a list of either), and where to look. An if passes what is around it on to its branches: of the places
 * that are an operand of hd, tl or null, a condition or an argument, the nearest around the node decides.
 */
enum {
    SIK_REFUSED_TRAILER_MISSING = 1,         /* fewer than eight bytes remain for a trailer, or fewer than ten where the
                                                last two are 03 52 */
    SIK_REFUSED_MARK_OR_FORMAT = 2,          /* the mark is not 0x52 or the format is none of 1 to 3 */
    SIK_REFUSED_TRAILER_FIELDS = 3,          /* n, or in format 3 m, is above 4,095; the second distance is not n / 8
                                                rounded up plus 13 in format 1, plus 5 in format 2, or in format 3 plus
                                                m / 8 rounded up plus 5; the first is not larger than the second; or
                                                the first exceeds the bytes before the trailer */
    SIK_REFUSED_VERDICT_OR_PASSES = 4,       /* the verdict byte is above 4 or the pass count is 0 */
    SIK_REFUSED_PROGRAM_LENGTH = 5,          /* the program is empty or longer than 4,096 bytes */
    SIK_REFUSED_FUNCTION_COUNT = 6,          /* the count byte is neither 1 to 32 nor 0x81 to 0xA0; or the program is over
                                                one contact with two traces or in format 3, or over two with one trace or
                                                in format 1 or 2 */
    SIK_REFUSED_HEADER_CUT = 7,              /* fewer than four bytes remain for a header, over two contacts than five */
    SIK_REFUSED_PARAMETER_KINDS = 8,         /* the parameter count is above 4; a kind bit is set for an absent parameter
                                                or among bits 5 to 7; or a guard bit is set where no list is, or among
                                                bits 5 to 7 */
    SIK_REFUSED_BODY_LENGTH = 9,             /* the body length is 0, above 1,024 or above what remains */
    SIK_REFUSED_BYTES_AFTER_FUNCTIONS = 10,  /* bytes remain after the last function */
    SIK_REFUSED_MAIN_KIND = 11,              /* function 0 is not of main's kind: one list parameter, over two contacts a
                                                list of the ram and then one of the guard, and Bool result */
    SIK_REFUSED_BODY_ENDS = 12,              /* a body ends where a node is due */
    SIK_REFUSED_TOO_DEEP = 13,               /* a node would be the 65th in depth */
    SIK_REFUSED_LIST_CONSTRUCTOR = 14,       /* a byte is 0x24 */
    SIK_REFUSED_UNKNOWN_BYTE = 15,           /* a byte is not in the table (0x03 is in it over two contacts only), or names an
                                                absent parameter or function */
    SIK_REFUSED_WRONG_KIND = 16,             /* what a body gives, or a branch of it, is not of the function's result kind */
    SIK_REFUSED_BYTES_AFTER_EXPRESSION = 17, /* bytes remain in a body after its expression */
    SIK_REFUSED_RING_LENGTH = 18,            /* the ring slice is empty or longer than 4,095 */
    SIK_REFUSED_RING_STATE = 19,             /* the ring's next place is not below its length, or its count is above it */
    SIK_REFUSED_TRACE_LENGTH = 20,           /* n is above 4,095, or the trace has not n / 8 rounded up bytes; of two
                                                traces either */
    SIK_REFUSED_TABLE_SHORT = 21,            /* the cells needed exceed the lent table or 16,777,216; in following, which
                                                needs no cells, there are more than 16,777,216 configurations */
    SIK_REFUSED_OUTPUT_SHORT = 22,           /* the output is shorter than what is to be written */
    SIK_REFUSED_PADDING_SET = 23,            /* a bit above the last sample is set, in the last byte of a trace, of two
                                                traces of either; where n is a multiple of 8 there is none */
    SIK_REFUSED_CALL_ELSEWHERE = 24,         /* in following, the rule does not only loop: in one of its functions a call
                                                stands elsewhere than as the whole body, or as a branch of an if that
                                                itself is in such a place */
    SIK_REFUSED_OPERAND_KIND = 25,           /* a condition, or what hd, tl or null is applied to, has the wrong kind */
    SIK_REFUSED_ARGUMENT_KIND = 26           /* an argument of a call has another kind than the function's parameter */
};

/* The state of a ring; both numbers are 0 for a new ring. */
enum {
    SIK_RING_NEXT = 0,  /* the place of the next sample */
    SIK_RING_COUNT = 1, /* how many samples are held */
    SIK_RING_SIZE = 2
};

/* Adds a sample to a ring of one contact's last samples, one byte a sample.
 *   slots      the ring's memory, 1 to 4,095 bytes; a byte other than 0 reads as 1
 *   state      the ring's state
 *   sample     0, or anything else for 1
 * Changes one byte of slots, and state. A full ring loses its oldest sample.
 * Refusals: 18, 19.
 */
uint32_t sik_ring_add(uint8_t *slots, size_t slots_len, uint64_t state[SIK_RING_SIZE], uint8_t sample);

/* Packs the samples that a ring holds into out, oldest first: sample i is bit i mod 8, counted from the lowest,
 * of byte i / 8; bits above the last sample are written 0. Bytes past them keep their content.
 *   slots, state   as above
 *   out            at least state[SIK_RING_COUNT] / 8 rounded up bytes
 *   samples        one number, which becomes the number of samples
 * Refusals: 18, 19, 22.
 */
uint32_t sik_ring_trace(const uint8_t *slots, size_t slots_len, const uint64_t state[SIK_RING_SIZE], uint8_t *out,
                        size_t out_len, uint64_t samples[1]);

/* Checks a rule program of either sort: over one contact, or over two, such as the ram and the guard of a press. Its first
 * byte tells the sort. The functions below take the sort that the traces or the record's format are for, and refuse the
 * other by 6. Changes nothing.
 * Refusals: 5 to 17 (25 and 26 with 16).
 */
uint32_t sik_check_program(const uint8_t *program, size_t program_len);

/* What evaluating answers. */
enum {
    SIK_EVALUATED_VERDICT = 0, /* the verdict (SIK_FOREVER to SIK_TAIL) */
    SIK_EVALUATED_PASSES = 1,  /* the pass count, which is the number of the first pass that stored no outcome */
    SIK_EVALUATED_SIZE = 2
};

/* Evaluates a rule program over one contact on a packed trace of n samples.
 *   program        the rule
 *   trace          n / 8 rounded up bytes, packed as above, bits above the last sample 0; sik_ring_trace writes such a trace
 *   table          where it works: one cell for each configuration of the program's functions, which is a function
 *                  with a value for each parameter (2 values for a Bool, n + 1 for a list; a function without
 *                  parameters has one configuration). What it held does not matter. It is left with the outcomes:
 *                  0 undecided, 1 False, 2 True, 3 head of empty, 4 tail of empty, 5 + k a suffix of length k; cells
 *                  beyond those needed keep their content
 *   answer         becomes the verdict and the pass count
 * Refusals: 5 to 17 (25 and 26 with 16), 20, 23, 21.
 */
uint32_t sik_evaluate(const uint8_t *program, size_t program_len, const uint8_t *trace, size_t trace_len, uint64_t n,
                      uint16_t *table, size_t table_len, uint64_t answer[SIK_EVALUATED_SIZE]);

/* Evaluates a rule program over two contacts on their packed traces, of n samples of the ram and of m samples of the guard.
 *   program            the rule
 *   ram, n, guard, m   as trace and n for sik_evaluate, for each contact by itself
 *   table              as for sik_evaluate; a list of the ram has n + 1 values, one of the guard m + 1
 *   answer             becomes the verdict and the pass count
 * Refusals: 5 to 17 (25 and 26 with 16), 20, 23, 21; 20 of either trace goes before 23 of either.
 */
uint32_t sik_evaluate_two(const uint8_t *program, size_t program_len, const uint8_t *ram, size_t ram_len, uint64_t n,
                          const uint8_t *guard, size_t guard_len, uint64_t m, uint16_t *table, size_t table_len,
                          uint64_t answer[SIK_EVALUATED_SIZE]);

/* What following answers. */
enum {
    SIK_FOLLOWED_VERDICT = 0, /* the verdict (SIK_FOREVER to SIK_TAIL) */
    SIK_FOLLOWED_CALLS = 1,   /* how many calls were made */
    SIK_FOLLOWED_SIZE = 2
};

/* Decides a rule program over one contact that only loops on a packed trace of n samples, with no table: by following the
 * calls from main on the whole trace. A rule only loops if each call in its functions, in those that main never comes to as
 * well, is the whole body, or a branch of an if that itself is in such a place; so none stands in a condition, an operand
 * or an argument. The verdict is the one that sik_evaluate answers. The function writes nothing but answer.
 *   program, trace, n   as for sik_evaluate
 *   answer              becomes the verdict and the calls made
 * Taking main at first is no call. A call is made, and counted, once all its arguments have values; an error in one of them
 * is the verdict. SIK_FOREVER is answered when as many calls were made as the program's functions have configurations,
 * which is the number of cells that sik_evaluate needs; the body of the last callee is not taken. So SIK_FOREVER comes
 * with exactly that many calls, and any other verdict with fewer.
 * There is no pass count here: a record, which has one, is written by sik_write_record, with a table.
 * Refusals: 5 to 17 (25 and 26 with 16), 24, 20, 23, 21, which is met by more than 16,777,216 configurations alone.
 */
uint32_t sik_follow(const uint8_t *program, size_t program_len, const uint8_t *trace, size_t trace_len, uint64_t n,
                    uint64_t answer[SIK_FOLLOWED_SIZE]);

/* Follows as sik_follow does, a rule program over two contacts that only loops, from main on both whole traces, of n samples
 * of the ram and of m samples of the guard. The verdict is the one that sik_evaluate_two answers.
 *   program, ram, n, guard, m   as for sik_evaluate_two
 *   answer                      becomes the verdict and the calls made
 * Refusals: 5 to 17 (25 and 26 with 16), 24, 20, 23, 21 as for sik_follow; 20 of either trace goes before 23 of either.
 */
uint32_t sik_follow_two(const uint8_t *program, size_t program_len, const uint8_t *ram, size_t ram_len, uint64_t n,
                        const uint8_t *guard, size_t guard_len, uint64_t m, uint64_t answer[SIK_FOLLOWED_SIZE]);

/* What writing a record answers. */
enum {
    SIK_WRITTEN_LENGTH = 0,  /* the record's length */
    SIK_WRITTEN_VERDICT = 1, /* the verdict and the pass count, as of evaluating */
    SIK_WRITTEN_PASSES = 2,
    SIK_WRITTEN_SIZE = 3
};

/* Evaluates as sik_evaluate does, and writes a record of it, of format 2, to the front of out: program, trace, verdict,
 * pass count, trailer (docs/FORMAT.md). The trace's bytes are written as they are. Bytes past the record keep their
 * content. To append to an archive, of records of any format, lend the bytes after its last.
 *   program, trace, n, table   as for sik_evaluate
 *   out                        at least program_len + n / 8 rounded up + 13 bytes
 *   answer                     becomes the record's length, the verdict and the pass count
 * Refusals: 5 to 17 (25 and 26 with 16), 20, 23, 21, 22. On 22 too the table is as it was.
 */
uint32_t sik_write_record(const uint8_t *program, size_t program_len, const uint8_t *trace, size_t trace_len, uint64_t n,
                          uint16_t *table, size_t table_len, uint8_t *out, size_t out_len,
                          uint64_t answer[SIK_WRITTEN_SIZE]);

/* Evaluates as sik_evaluate_two does, and writes a record of it, of format 3, to the front of out: program, ram trace, guard
 * trace, verdict, pass count, trailer. The rest is as for sik_write_record.
 *   program, ram, n, guard, m, table   as for sik_evaluate_two
 *   out                                at least program_len + n / 8 rounded up + m / 8 rounded up + 15 bytes
 *   answer                             becomes the record's length, the verdict and the pass count
 * Refusals: 5 to 17 (25 and 26 with 16), 20, 23, 21, 22. On 22 too the table is as it was.
 */
uint32_t sik_write_record_two(const uint8_t *program, size_t program_len, const uint8_t *ram, size_t ram_len, uint64_t n,
                              const uint8_t *guard, size_t guard_len, uint64_t m, uint16_t *table, size_t table_len,
                              uint8_t *out, size_t out_len, uint64_t answer[SIK_WRITTEN_SIZE]);

/* The parts of a record, as places and lengths in the bytes that it was read from. */
enum {
    SIK_PARTS_PROGRAM_START = 0, /* the program's first byte */
    SIK_PARTS_PROGRAM_LENGTH = 1,
    SIK_PARTS_TRACE_START = 2, /* the trace's first byte; in format 3 that of the ram's */
    SIK_PARTS_TRACE_LENGTH = 3,
    SIK_PARTS_SAMPLES = 4,       /* n, the number of its samples */
    SIK_PARTS_LABEL_START = 5,   /* the label's first byte; 0 where there is no label */
    SIK_PARTS_VERDICT = 6,       /* the stored verdict (SIK_FOREVER to SIK_TAIL) */
    SIK_PARTS_PASSES = 7,        /* the stored pass count */
    SIK_PARTS_BEFORE = 8,        /* how many bytes stand before the record: an archive is walked by reading those next */
    SIK_PARTS_FORMAT = 9,        /* the record's format, 1 to 3 */
    SIK_PARTS_LABEL_LENGTH = 10, /* 8, or 0 for no label */
    SIK_PARTS_GUARD_START = 11,  /* the guard trace's first byte; formats 1 and 2 have no guard trace, and 0 here and in
                                    the next two */
    SIK_PARTS_GUARD_LENGTH = 12,
    SIK_PARTS_GUARD_SAMPLES = 13, /* m, the number of its samples */
    SIK_PARTS_SIZE = 14
};

/* Reads the record that the bytes end in, from the last byte backwards; bytes before it do not matter. The stored
 * verdict is only read, not worked out again. A record of format 1 has a site label, eight zeros if none was set; one
 * of format 2 or 3 has no label. A record of format 3 holds a rule over two contacts and both traces.
 *   parts      becomes the record's parts
 * Refusals: 1 to 3, 23, 4 to 17 (25 and 26 with 16).
 */
uint32_t sik_read_record(const uint8_t *bytes, size_t bytes_len, uint64_t parts[SIK_PARTS_SIZE]);

/* What checking a record answers. */
enum {
    SIK_CHECKED_AGREEMENT = 0, /* SIK_AGREES or SIK_DIFFERS */
    SIK_CHECKED_SIZE = 1
};

/* Whether a record's verdict and pass count are what its rule gives. */
enum { SIK_DIFFERS = 0, SIK_AGREES = 1 };

/* Checks the record that the bytes end in: works the verdict and the pass count out again and compares both.
 *   bytes      as for sik_read_record
 *   table      as for sik_evaluate and sik_evaluate_two, left with the cells worked out, also where the record differs
 *   answer     becomes the agreement
 * Refusals: 1 to 3, 23, 4 to 17 (25 and 26 with 16), 21.
 */
uint32_t sik_check_record(const uint8_t *bytes, size_t bytes_len, uint16_t *table, size_t table_len,
                          uint64_t answer[SIK_CHECKED_SIZE]);

#ifdef __cplusplus
}
#endif

#endif
