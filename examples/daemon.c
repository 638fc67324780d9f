/* A small gateway: what a daemon in C does with the library, step by step.
 *
 * It watches a press with two contacts: a sample of the ram is 1 while the ram moves, one of the guard is 1 while the
 * guard is closed. Samples go into a ring for each contact, and the traces are taken from the rings. Each rule is
 * checked; followed, which needs no table and decides it if it only loops; evaluated with the table; and recorded. It
 * is taken on the ram's trace or on both, as it is over one contact or two. The record is appended to an archive. Then
 * the archive is read back from its file and walked from its end, and each record is checked. Every refusal is told in
 * words with its number.
 *
 * Build:  make lib && cc -std=c99 -Ibuild/include examples/daemon.c -Lbuild/lib -lsikafondza -o daemon
 * Run:    ./daemon [-i] [-a ARCHIVE] [RULE ..]          (`make example` builds it and runs it with no arguments)
 *   -i          samples come from standard input, two characters 0 or 1 for each moment, the ram's and the guard's,
 *               white space apart; else from SAMPLES
 *   -a ARCHIVE  the file that records are appended to; else a temporary one with OLDER in it, removed at the end
 *   RULE        a rule in hexadecimal, such as "01 01 01 02 00 22 10"; with none, those of RULES
 * Exit status: 0; 1 for a wrong argument or sample, or a file that cannot be opened, read or written; 2 if a record
 * of the archive is refused or differs.
 */
#include <ctype.h>
#include <errno.h>
#include <inttypes.h>
#include <stdio.h>
#include <stdlib.h>
#include <string.h>
#include "sikafondza.h"

enum {
    SLOTS = 9,                         /* samples that a ring holds */
    TRACE = (SLOTS + 7) / 8,           /* bytes of the longest trace */
    CELLS = 16384,                     /* cells of the table: a rule that needs more is refused */
    PROGRAM = 4096,                    /* bytes of the longest rule */
    RECORD = PROGRAM + 2 * TRACE + 15, /* bytes of the longest record that is written, on both traces */
    ARCHIVE = 1 << 20                  /* bytes of the longest archive that this daemon reads back */
};

/* The ram's and the guard's sample of each moment: in the last but one the guard is open, and the ram moves. */
static const char SAMPLES[] = "00 01 11 11 11 11 11 11 11 11 10 11";
static const struct { const char *name, *hex; } RULES[] = {
    {"every sample is 1", "01 01 01 0B 00 23 22 10 01 23 20 10 80 21 10 00"},
    {"not every sample is 1", "02 01 01 05 00 23 81 10 00 01 01 01 0B 00 23 22 10 01 23 20 10 81 21 10 00"},
    {"every sample is 1, but tl forgotten", "01 01 01 0A 00 23 22 10 01 23 20 10 80 10 00"},
    {"a list with a sample in front", "01 01 01 04 00 22 24 01 10"},
    {"the samples after the oldest", "01 01 01 02 00 21 10"},
    {"every sample is 1, but hd forgotten", "01 01 01 0A 00 23 22 10 01 23 10 80 21 10 00"},
    {"every sample is 1, but hd for tl", "01 01 01 0B 00 23 22 10 01 23 20 10 80 20 10 00"},
    /* Over two contacts; main has the ram's list as parameter 0 and the guard's as parameter 1:
     *   81                one function, and 80 more for two contacts
     *   02 03 02          main's header: two parameters; bits 0 and 1: both are lists; bit 1: the second is the guard's
     *   15 00             its body has 21 bytes:
     *   23 22 10 01       if the ram's list is empty (null), then True
     *   23 20 10          else if the ram moves in the oldest sample (hd),
     *   23 20 11            then if the guard is closed in the oldest sample,
     *   80 21 10 21 11        then main on what follows the two (tl)
     *   00                    else False
     *   80 21 10 21 11      else main on what follows the two */
    {"the ram may not move while the guard is open",
     "81 02 03 02 15 00 23 22 10 01 23 20 10 23 20 11 80 21 10 21 11 00 80 21 10 21 11"}};
/* A record of format 1, such as older archives hold: the first rule on nine samples, with the label PRESS-07. */
static const uint8_t OLDER[] = {0x01, 0x01, 0x01, 0x0B, 0x00, 0x23, 0x22, 0x10, 0x01, 0x23, 0x20, 0x10, 0x80,
                                0x21, 0x10, 0x00, 0xFF, 0x01, 'P',  'R',  'E',  'S',  'S',  '-',  '0',  '7',
                                0x02, 0x02, 0x00, 0x00, 0x00, 0x1F, 0x00, 0x0F, 0x00, 0x09, 0x00, 0x01, 0x52};
static const char *const VERDICTS[] = {"forever", "no", "yes", "head of empty", "tail of empty"};
static const char *const REFUSALS[] = {
    [SIK_REFUSED_TRAILER_MISSING] = "too few bytes for a trailer",
    [SIK_REFUSED_MARK_OR_FORMAT] = "not the end of a record of format 1, 2 or 3",
    [SIK_REFUSED_TRAILER_FIELDS] = "the lengths in the trailer do not fit",
    [SIK_REFUSED_VERDICT_OR_PASSES] = "no such verdict, or a pass count of 0",
    [SIK_REFUSED_PROGRAM_LENGTH] = "the rule is empty or too long",
    [SIK_REFUSED_FUNCTION_COUNT] = "no functions or too many, or a rule over another number of contacts",
    [SIK_REFUSED_HEADER_CUT] = "the header of a function is cut off",
    [SIK_REFUSED_PARAMETER_KINDS] = "too many parameters, a kind for an absent one, or a guard's list where none is",
    [SIK_REFUSED_BODY_LENGTH] = "a body is empty, too long or cut off",
    [SIK_REFUSED_BYTES_AFTER_FUNCTIONS] = "bytes after the last function",
    [SIK_REFUSED_MAIN_KIND] = "function 0 does not make a Bool of one list, or of one list of each contact",
    [SIK_REFUSED_BODY_ENDS] = "an expression is cut off",
    [SIK_REFUSED_TOO_DEEP] = "an expression is nested too deep",
    [SIK_REFUSED_LIST_CONSTRUCTOR] = "a rule cannot construct lists",
    [SIK_REFUSED_UNKNOWN_BYTE] = "an unknown byte, or an absent parameter or function",
    [SIK_REFUSED_WRONG_KIND] = "what a body or a branch of it gives has another kind than the function's result",
    [SIK_REFUSED_BYTES_AFTER_EXPRESSION] = "bytes after an expression",
    [SIK_REFUSED_RING_LENGTH] = "the ring has no slots or too many",
    [SIK_REFUSED_RING_STATE] = "the state does not fit the ring",
    [SIK_REFUSED_TRACE_LENGTH] = "too many samples, or a trace of another length",
    [SIK_REFUSED_TABLE_SHORT] = "the table has too few cells for the rule",
    [SIK_REFUSED_OUTPUT_SHORT] = "the output is too short",
    [SIK_REFUSED_PADDING_SET] = "a bit above the last sample is set",
    [SIK_REFUSED_CALL_ELSEWHERE] = "it does not only loop: a call stands in a condition, an operand or an argument",
    [SIK_REFUSED_OPERAND_KIND] = "a condition, or what hd, tl or null is applied to, has the wrong kind",
    [SIK_REFUSED_ARGUMENT_KIND] = "an argument of a call has another kind than the function's parameter"};

/* A contact: its ring with the state, and the trace that is taken from the ring. */
struct contact {
    uint8_t slots[SLOTS], trace[TRACE];
    uint64_t state[SIK_RING_SIZE], samples /* in the trace */;
};

/* What is lent to the library. */
static struct contact ram, guard;
static uint8_t program[PROGRAM + 1], record[RECORD], archived[ARCHIVE];
static uint64_t parts[SIK_PARTS_SIZE];
static size_t archived_len;
static uint16_t table[CELLS];

/* Ends the line with the refusal if there is one; answers whether there is. */
static int refused(uint32_t number)
{
    if (number != 0)
        printf("refused with %" PRIu32 ": %s\n", number, REFUSALS[number]);
    return number != 0;
}

static int fail(const char *what, const char *why)
{
    fflush(stdout);
    fprintf(stderr, "daemon: %s: %s\n", what, why);
    return 1;
}

/* A contact's ring takes a sample, and the trace is taken from the ring. */
static uint32_t add_sample(struct contact *c, int sample)
{
    const uint32_t number = sik_ring_add(c->slots, SLOTS, c->state, (uint8_t)sample);
    return number != 0 ? number : sik_ring_trace(c->slots, SLOTS, c->state, c->trace, TRACE, &c->samples);
}

static void tell_trace(const struct contact *c)
{
    for (uint64_t i = 0; i < c->samples; i++)
        putchar(c->trace[i / 8] >> i % 8 & 1 ? '1' : '0');
}

/* The samples of a moment come in. */
static void add_moment(int of_ram, int of_guard)
{
    const char *lost = ram.state[SIK_RING_COUNT] == SLOTS ? ", the oldest are lost" : "";
    printf("samples %d %d: ", of_ram, of_guard);
    if (refused(add_sample(&ram, of_ram)) || refused(add_sample(&guard, of_guard)))
        return;
    printf("the rings hold ");
    tell_trace(&ram);
    printf(" and ");
    tell_trace(&guard);
    puts(lost);
}

/* The next character of a text, or of standard input where there is none, that is no white space; or EOF. */
static int next_sample(const char **text)
{
    int c;
    do
        c = *text == NULL ? getchar() : **text == '\0' ? EOF : *(*text)++;
    while (isspace(c));
    return c;
}

static int add_samples(const char *text)
{
    int of_ram, of_guard;
    while ((of_ram = next_sample(&text)) != EOF) {
        of_guard = next_sample(&text);
        if ((of_ram != '0' && of_ram != '1') || (of_guard != '0' && of_guard != '1'))
            return fail("standard input", "a moment has two samples, each a character 0 or 1");
        add_moment(of_ram == '1', of_guard == '1');
    }
    return text == NULL && ferror(stdin) ? fail("standard input cannot be read", strerror(errno)) : 0;
}

/* Puts a rule's bytes into program; answers how many, or -1 if the text is not hexadecimal. Bytes past the room are
 * left out: there is room for one more than a rule may have, so the library refuses that rule all the same. */
static int read_hex(const char *text)
{
    int len = 0;
    for (; *text != '\0'; text++) {
        const char digits[3] = {text[0], text[1], '\0'};
        if (*text == ' ')
            continue;
        if (strspn(digits, "0123456789ABCDEFabcdef") != 2)
            return -1;
        if (len <= PROGRAM)
            program[len++] = (uint8_t)strtoul(digits, NULL, 16);
        text++;
    }
    return len;
}

static int append(const uint8_t *bytes, size_t len, FILE *archive)
{
    if (fseek(archive, 0, SEEK_END) != 0 || fwrite(bytes, 1, len, archive) != len || fflush(archive) != 0)
        return fail("the archive cannot be written", strerror(errno));
    return 0;
}

static size_t trace_len(const struct contact *c) { return (size_t)(c->samples + 7) / 8; }

/* Follows the rule in program on the ram's trace, or on both. */
static uint32_t follow(size_t len, int two, uint64_t answer[SIK_FOLLOWED_SIZE])
{
    if (two)
        return sik_follow_two(program, len, ram.trace, trace_len(&ram), ram.samples, guard.trace, trace_len(&guard),
                              guard.samples, answer);
    return sik_follow(program, len, ram.trace, trace_len(&ram), ram.samples, answer);
}

/* Evaluates it there. */
static uint32_t evaluate(size_t len, int two, uint64_t answer[SIK_EVALUATED_SIZE])
{
    if (two)
        return sik_evaluate_two(program, len, ram.trace, trace_len(&ram), ram.samples, guard.trace, trace_len(&guard),
                                guard.samples, table, CELLS, answer);
    return sik_evaluate(program, len, ram.trace, trace_len(&ram), ram.samples, table, CELLS, answer);
}

/* The same, and puts a record of it into record. */
static uint32_t write_record(size_t len, int two, uint64_t answer[SIK_WRITTEN_SIZE])
{
    if (two)
        return sik_write_record_two(program, len, ram.trace, trace_len(&ram), ram.samples, guard.trace,
                                    trace_len(&guard), guard.samples, table, CELLS, record, RECORD, answer);
    return sik_write_record(program, len, ram.trace, trace_len(&ram), ram.samples, table, CELLS, record, RECORD, answer);
}

/* Checks, follows, evaluates and records a rule. One that does not only loop cannot be followed, and is recorded all
 * the same. Any other refusal leaves no record. None is a failure of the daemon. */
static int run_rule(const char *name, const char *hex, FILE *archive)
{
    const size_t len = (size_t)read_hex(hex);
    const int two = len > 0 && program[0] >= 0x80; /* over two contacts, by the first byte */
    uint64_t followed[SIK_FOLLOWED_SIZE], evaluated[SIK_EVALUATED_SIZE], written[SIK_WRITTEN_SIZE];
    printf("rule '%s': ", name);
    if (refused(sik_check_program(program, len)))
        return 0;
    printf("accepted, bytes %zu, contacts %d\n  followed: ", len, two ? 2 : 1);
    if (!refused(follow(len, two, followed)))
        printf("%s, calls %" PRIu64 "\n", VERDICTS[followed[SIK_FOLLOWED_VERDICT]], followed[SIK_FOLLOWED_CALLS]);
    printf("  evaluated: ");
    if (refused(evaluate(len, two, evaluated)))
        return 0;
    printf("%s, passes %" PRIu64 "\n  recorded: ", VERDICTS[evaluated[SIK_EVALUATED_VERDICT]],
           evaluated[SIK_EVALUATED_PASSES]);
    if (refused(write_record(len, two, written)))
        return 0;
    printf("bytes %" PRIu64 "\n", written[SIK_WRITTEN_LENGTH]);
    return append(record, (size_t)written[SIK_WRITTEN_LENGTH], archive);
}

/* Reads the whole archive from its file. */
static int read_archive(FILE *archive)
{
    const int failed = fseek(archive, 0, SEEK_SET);
    archived_len = failed ? 0 : fread(archived, 1, ARCHIVE, archive);
    if (failed || ferror(archive))
        return fail("the archive cannot be read", strerror(errno));
    return archived_len < ARCHIVE ? 0 : fail("the archive cannot be read", "it is too long");
}

/* Tells the label of the record that was read, or that it has none. */
static void tell_label(void)
{
    const uint8_t *label = archived + parts[SIK_PARTS_LABEL_START];
    fputs(parts[SIK_PARTS_LABEL_LENGTH] == 0 ? "no label" : "label ", stdout);
    for (uint64_t i = 0; i < parts[SIK_PARTS_LABEL_LENGTH]; i++)
        putchar(isprint(label[i]) ? label[i] : '.');
}

/* Tells the numbers of samples of the record that was read: the ram's, and in format 3 the guard's. */
static void tell_samples(void)
{
    printf("samples %" PRIu64, parts[SIK_PARTS_SAMPLES]);
    if (parts[SIK_PARTS_FORMAT] == 3)
        printf(" and %" PRIu64, parts[SIK_PARTS_GUARD_SAMPLES]);
}

/* Walks the archive from its end and checks each record; answers 0 if all agree, else 2. A record that cannot be
 * read ends the walk, since nothing tells where the one before it ends. */
static int walk(void)
{
    uint64_t checked[SIK_CHECKED_SIZE];
    int records = 0, agree = 0;
    printf("archive: bytes %zu\n", archived_len);
    for (size_t len = archived_len; len > 0; len = (size_t)parts[SIK_PARTS_BEFORE]) {
        printf("record %d from the end: ", ++records);
        if (refused(sik_read_record(archived, len, parts)))
            return 2;
        printf("bytes %" PRIu64 ", ", len - parts[SIK_PARTS_BEFORE]);
        tell_label();
        printf(", ");
        tell_samples();
        printf(", %s, passes %" PRIu64 ": ", VERDICTS[parts[SIK_PARTS_VERDICT]], parts[SIK_PARTS_PASSES]);
        if (refused(sik_check_record(archived, len, table, CELLS, checked)))
            continue;
        puts(checked[SIK_CHECKED_AGREEMENT] == SIK_AGREES ? "agrees" : "differs");
        agree += checked[SIK_CHECKED_AGREEMENT] == SIK_AGREES;
    }
    printf("end of the archive: %d of %d records agree\n", agree, records);
    return agree == records ? 0 : 2;
}

int main(int argc, char **argv)
{
    const char *path = NULL;
    int input = 0, next = 1, status = 0;
    for (; next < argc && argv[next][0] == '-'; next++)
        if (strcmp(argv[next], "-i") == 0)
            input = 1;
        else if (strcmp(argv[next], "-a") == 0 && next + 1 < argc)
            path = argv[++next];
        else
            return fail(argv[next], "the arguments are [-i] [-a ARCHIVE] [RULE ..]");
    for (int i = next; i < argc; i++)
        if (read_hex(argv[i]) < 0)
            return fail(argv[i], "a rule is given in hexadecimal");

    FILE *archive = path != NULL ? fopen(path, "a+b") : tmpfile();
    if (archive == NULL)
        return fail("the archive cannot be opened", strerror(errno));
    if ((path == NULL && append(OLDER, sizeof OLDER, archive) != 0) || read_archive(archive) != 0)
        return 1;
    if (archived_len > 0 && sik_read_record(archived, archived_len, parts) != 0) {
        puts("nothing is appended: the archive does not end in a record");
        return walk();
    }

    status = add_samples(input ? NULL : SAMPLES);
    if (next == argc)
        for (size_t i = 0; i < sizeof RULES / sizeof *RULES && status == 0; i++)
            status = run_rule(RULES[i].name, RULES[i].hex, archive);
    for (; next < argc && status == 0; next++)
        status = run_rule(argv[next], argv[next], archive);
    if (status == 0 && (status = read_archive(archive)) == 0)
        status = walk();

    fclose(archive);
    if (fflush(stdout) != 0 || ferror(stdout))
        return fail("standard output cannot be written", strerror(errno));
    return status;
}
