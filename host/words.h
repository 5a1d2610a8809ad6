/* A session in words, as `compose` takes it and `steps` prints it, and what these programs share with `trace` and `state`. */
#ifndef WORDS_H
#define WORDS_H

#include "cusphewa.h"
#include <stdio.h>

struct command {
    const char *name; /* its words have one blank between them */
    uint32_t number;
    const char *operands[CUSPHEWA_STEP_WORDS - 1]; /* null behind the last */
};

/* Every command's words: a command added later is one more line. */
static const struct command commands[] = {
    {"BEGIN", 1, {"save"}},
    {"READ", 2, {"save", "sheet"}},
    {"WRITE", 3, {"save", "sheet", "content"}},
    {"SUBMIT", 4, {"save"}},
    {"TAKE", 5, {"node"}},
    {"DECIDE", 6, {"save"}},
    {"APPLY", 7, {"node", "save"}},
    {"GIVE UP", 8, {"save"}},
};

#define COMMANDS (sizeof commands / sizeof *commands)

/* The words of the header's two lines. */
#define NODES "nodes"
#define OWNERS "owners"

size_t operand_count(const struct command *command);

/* A step's line in the table; without one the program fails. */
const struct command *command_of(const uint32_t *step);

/* A step in words, without an end of line; the header's two lines. */
void print_step(const uint32_t *step);
void print_header(const uint8_t *session, size_t bytes);

/* Why reading or writing is refused. */
const char *reason(unsigned refusal);

/* Says one line on standard error and ends the program with status 1. */
_Noreturn void fail(const char *format, ...);

struct input {
    FILE *file;
    const char *name;
};

/* The file named as the only argument, or standard input. */
struct input open_input(int argc, char **argv);

/* Fail where not all was read, or not all written. */
void check_input(const struct input *in);
void close_output(void);

#endif
