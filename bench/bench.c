/* Times the engine against bench/plain.c in one run, on the same sessions.
 *
 * The two are timed in turns and the best turn of each counts, so that a busy machine slows
 * neither one more than the other. */
#define _POSIX_C_SOURCE 199309L
#include <stdint.h>
#include <stdio.h>
#include <stdlib.h>
#include <string.h>
#include <time.h>

#include "../include/cusphewa.h"
#include "sessions.h"

size_t plain_report(const uint8_t *session, size_t session_len, uint8_t *report, size_t report_len);
uint64_t plain_write(size_t nodes, size_t sheets, const uint8_t *owners, size_t owners_len, const uint32_t *steps, size_t steps_len,
                     uint8_t *session, size_t session_len);
uint64_t plain_read(const uint8_t *session, size_t session_len, uint32_t *steps, size_t steps_len);
uint64_t plain_answers(const uint8_t *session, size_t session_len, uint64_t *answers, size_t answers_len);
uint64_t plain_state(const uint8_t *session, size_t session_len, uint8_t *room, size_t room_len);

enum { BUFFER = 4096, MOST_WORDS = CUSPHEWA_STEP_WORDS * CUSPHEWA_MOST_STEPS };

/* What the calls write to, and the steps' words that a session is written from. */
static uint8_t report[BUFFER], written[SESSION_BYTES], state[CUSPHEWA_STATE_BYTES];
static uint32_t listed[MOST_WORDS], words[MOST_WORDS];
static uint64_t answers[CUSPHEWA_MOST_ANSWERS];

/* A call on the session; 0 where it did not do its work. */
typedef int call(const struct session *);

#define CALLS(side) \
    static int side##_reports(const struct session *s) \
    { \
        return side##_report(s->bytes, s->length, report, sizeof report) != 0; \
    } \
    static int side##_writes(const struct session *s) \
    { \
        size_t sheets = s->bytes[1], steps = CUSPHEWA_STEP_WORDS * s->commands; \
        return side##_write(s->bytes[0], sheets, s->bytes + 2, sheets, words, steps, written, SESSION_BYTES) >> 48 == \
               CUSPHEWA_WRITTEN; \
    } \
    static int side##_reads(const struct session *s) \
    { \
        return side##_read(s->bytes, s->length, listed, MOST_WORDS) >> 48 == CUSPHEWA_LISTED; \
    } \
    static int side##_answers_all(const struct session *s) \
    { \
        return side##_answers(s->bytes, s->length, answers, CUSPHEWA_MOST_ANSWERS) >> 48 == CUSPHEWA_WRITTEN; \
    } \
    static int side##_tells(const struct session *s) \
    { \
        return side##_state(s->bytes, s->length, state, sizeof state) >> 48 == CUSPHEWA_WRITTEN; \
    }
CALLS(cusphewa)
CALLS(plain)

static double now(void)
{
    struct timespec t;
    clock_gettime(CLOCK_MONOTONIC, &t);
    return (double)t.tv_sec * 1e9 + (double)t.tv_nsec;
}

static double turn(call *timed, const struct session *s, int calls)
{
    double start = now();
    for (int i = 0; i < calls; i++) {
        if (!timed(s))
            exit(1);
        /* What the call wrote counts as used, so that no call can be left out. */
        __asm__ volatile("" : : : "memory");
    }
    return (now() - start) / calls;
}

/* Both must print the same report, without refusal, or the times mean nothing. */
static void check(const struct session *s)
{
    static uint8_t one[BUFFER], two[BUFFER];
    memset(one, 0x55, sizeof one);
    memset(two, 0x55, sizeof two);
    size_t length = cusphewa_report(s->bytes, s->length, one, sizeof one);
    if (length != plain_report(s->bytes, s->length, two, sizeof two) || memcmp(one, two, BUFFER)) {
        fprintf(stderr, "%s: the reports differ\n", s->name);
        exit(1);
    }
    char tally[32];
    snprintf(tally, sizeof tally, "\nT %zu ", s->commands);
    one[length] = 0;
    if (strstr((char *)one, "\nR ") || !strstr((char *)one, tally)) {
        fprintf(stderr, "%s: not accepted whole\n", s->name);
        exit(1);
    }
}

/* Does the call leave exactly this in the buffer that it writes to? */
static int leaves(call *made, const struct session *s, void *buffer, const void *expected, size_t size)
{
    memset(buffer, 0, size);
    return made(s) && !memcmp(buffer, expected, size);
}

/* Both must list the same steps, and write the session from them. */
static void check_writing(const struct session *s)
{
    size_t size = CUSPHEWA_STEP_WORDS * s->commands * sizeof *words;
    if (!leaves(cusphewa_reads, s, listed, words, size) || !leaves(plain_reads, s, listed, words, size) ||
        !leaves(cusphewa_writes, s, written, s->bytes, s->length) ||
        !leaves(plain_writes, s, written, s->bytes, s->length)) {
        fprintf(stderr, "%s: not written or read\n", s->name);
        exit(1);
    }
}

/* Both must list the same answers and tell the same state. */
static void check_told(const struct session *s)
{
    static uint64_t list[CUSPHEWA_MOST_ANSWERS];
    static uint8_t text[CUSPHEWA_STATE_BYTES];
    memset(list, 0, sizeof list);
    memset(text, 0, sizeof text);
    uint64_t count = plain_answers(s->bytes, s->length, list, CUSPHEWA_MOST_ANSWERS);
    uint64_t length = plain_state(s->bytes, s->length, text, sizeof text);
    if (CUSPHEWA_VALUE(count) != s->commands || cusphewa_answers(s->bytes, s->length, answers, CUSPHEWA_MOST_ANSWERS) != count ||
        cusphewa_state(s->bytes, s->length, state, sizeof state) != length ||
        !leaves(cusphewa_answers_all, s, answers, list, sizeof list) || !leaves(cusphewa_tells, s, state, text, sizeof text)) {
        fprintf(stderr, "%s: the answers or the states differ\n", s->name);
        exit(1);
    }
}

/* The best of so many turns of each. */
static void measure(call *engine_call, call *plain_call, const struct session *s, int turns, double *engine, double *plain)
{
    /* A turn of about half a millisecond is long enough for the clock. */
    int calls = 1 + (int)(5e5 / (turn(plain_call, s, 20) + 1));
    *engine = *plain = 1e18;
    for (int j = 0; j < turns; j++) {
        double time = turn(engine_call, s, calls);
        if (time < *engine)
            *engine = time;
        time = turn(plain_call, s, calls);
        if (time < *plain)
            *plain = time;
    }
}

/* A line of a table: what a call costs, and what each command of it. */
static void line(const char *name, call *engine_call, call *plain_call, const struct session *s, int turns)
{
    double engine, plain, commands = s->commands ? (double)s->commands : 1;
    measure(engine_call, plain_call, s, turns, &engine, &plain);
    printf("%-21s %6zu %6zu | %10.1f %8.2f | %10.1f %8.2f | %6.2f\n", name, s->length, s->commands, engine,
           engine / commands, plain, plain / commands, engine / plain);
}

static void title(const char *name)
{
    printf("%-21s %6s %6s | %10s %8s | %10s %8s | %6s\n", name, "bytes", "cmds", "engine ns", "ns/cmd", "plain ns",
           "ns/cmd", "ratio");
}

static void sessions(int turns)
{
    static struct session s;
    static void (*const make[])(struct session *) = {
        make_own,        make_serial_long,  make_conflict_long, make_serial,       make_conflict, make_one_sheet,
        make_all_sheets, make_turns_of_two, make_turns,         make_turns_at_one, make_w,        make_empty,
    };
    title("session");
    for (size_t i = 0; i < sizeof make / sizeof *make; i++) {
        make[i](&s);
        check(&s);
        line(s.name, cusphewa_reports, plain_reports, &s, turns);
    }
}

/* What each further command costs, from one length to the next. */
static void lengths(int turns)
{
    static struct session s;
    static const size_t bytes[] = { 128, 1024, 2048, 4096, 8192, 16384 };
    double engine_before = 0, plain_before = 0, before = 0;
    printf("\n%-21s %6s %6s | %10s %8s | %10s %8s |\n", "own reads and writes", "bytes", "cmds", "engine ns",
           "ns/more", "plain ns", "ns/more");
    for (size_t i = 0; i < sizeof bytes / sizeof *bytes; i++) {
        double engine, plain;
        own(&s, bytes[i]);
        check(&s);
        measure(cusphewa_reports, plain_reports, &s, turns, &engine, &plain);
        double more = (double)s.commands - before;
        printf("%-21s %6zu %6zu | %10.1f %8.2f | %10.1f %8.2f |\n", "", s.length, s.commands, engine,
               (engine - engine_before) / more, plain, (plain - plain_before) / more);
        engine_before = engine;
        plain_before = plain;
        before = (double)s.commands;
    }
}

/* The same session written and read. */
static void writing(int turns)
{
    static struct session s;
    static void (*const make[])(struct session *) = { make_half_mixed, make_mixed, make_own, make_serial_long };
    printf("\n");
    title("writing and reading");
    for (size_t i = 0; i < sizeof make / sizeof *make; i++) {
        char name[64];
        make[i](&s);
        plain_read(s.bytes, s.length, words, MOST_WORDS);
        check_writing(&s);
        snprintf(name, sizeof name, "write, %.14s", s.name);
        line(name, cusphewa_writes, plain_writes, &s, turns);
        snprintf(name, sizeof name, "read, %.15s", s.name);
        line(name, cusphewa_reads, plain_reads, &s, turns);
    }
}

/* Every command's answer in one pass, and the state as text. */
static void answers_and_states(int turns)
{
    static struct session s;
    static void (*const listed_of[])(struct session *) = { make_own, make_conflict_long, make_w };
    static void (*const told_of[])(struct session *) = { make_own, make_queues, make_w };
    char name[64];
    printf("\n");
    title("answers and states");
    for (size_t i = 0; i < sizeof listed_of / sizeof *listed_of; i++) {
        listed_of[i](&s);
        check(&s);
        check_told(&s);
        snprintf(name, sizeof name, "answers, %.12s", s.name);
        line(name, cusphewa_answers_all, plain_answers_all, &s, turns);
    }
    for (size_t i = 0; i < sizeof told_of / sizeof *told_of; i++) {
        told_of[i](&s);
        check(&s);
        check_told(&s);
        snprintf(name, sizeof name, "state, %.14s", s.name);
        line(name, cusphewa_tells, plain_tells, &s, turns);
    }
}

/* A session from a file. */
static void load(struct session *s, const char *path)
{
    FILE *file = fopen(path, "rb");
    const char *slash = strrchr(path, '/');
    if (!file) {
        perror(path);
        exit(1);
    }
    s->name = slash ? slash + 1 : path;
    s->length = fread(s->bytes, 1, sizeof s->bytes, file);
    s->commands = CUSPHEWA_VALUE(plain_answers(s->bytes, s->length, answers, CUSPHEWA_MOST_ANSWERS));
    fclose(file);
}

/* The slowest sessions known: one made here, and those in files that a search has found. */
static void slowest(int turns, char **paths, int count)
{
    static struct session s;
    printf("\n");
    title("slowest known");
    for (int i = -1; i < count; i++) {
        if (i < 0)
            make_all_written(&s);
        else
            load(&s, paths[i]);
        check(&s);
        line(s.name, cusphewa_reports, plain_reports, &s, turns);
    }
}

int main(int count, char **arguments)
{
    int turns = count > 1 ? atoi(arguments[1]) : 300;
    sessions(turns);
    lengths(turns);
    writing(turns);
    answers_and_states(turns);
    slowest(turns, arguments + 2, count > 2 ? count - 2 : 0);
    return 0;
}
