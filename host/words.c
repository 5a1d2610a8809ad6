/* What the programs over words share. */
#include "words.h"
#include <errno.h>
#include <inttypes.h>
#include <stdarg.h>
#include <stdlib.h>
#include <string.h>

size_t operand_count(const struct command *command)
{
    size_t n = 0;
    while (n < CUSPHEWA_STEP_WORDS - 1 && command->operands[n])
        n++;
    return n;
}

const struct command *command_of(const uint32_t *step)
{
    for (size_t i = 0; i < COMMANDS; i++)
        if (commands[i].number == step[0])
            return &commands[i];
    fail("internal error: command %" PRIu32 " has no word", step[0]);
}

void print_step(const uint32_t *step)
{
    const struct command *c = command_of(step);
    fputs(c->name, stdout);
    for (size_t i = 0; i < operand_count(c); i++)
        printf(" %" PRIu32, step[1 + i]);
}

void print_header(const uint8_t *session, size_t bytes)
{
    uint64_t part = cusphewa_owners(session, bytes);
    const uint8_t *owners = session + (part >> 32);
    size_t sheets = part & 0xffffffff;
    printf(NODES " %u\n" OWNERS, session[0]);
    for (size_t i = 0; i < sheets; i++)
        printf(" %u", owners[i]);
    putchar('\n');
}

const char *reason(unsigned refusal)
{
    switch (refusal) {
    case CUSPHEWA_BAD_SESSION:
        return "the header is short or out of range, or the session over 16,384 bytes";
    case CUSPHEWA_UNKNOWN_COMMAND:
        return "unknown command";
    case CUSPHEWA_CUT_SHORT:
        return "operands cut short";
    case CUSPHEWA_OUT_OF_RANGE:
        return "no such save, node or sheet";
    default:
        return "not expected here";
    }
}

void fail(const char *format, ...)
{
    va_list parts;
    va_start(parts, format);
    vfprintf(stderr, format, parts);
    va_end(parts);
    fputc('\n', stderr);
    exit(1);
}

struct input open_input(int argc, char **argv)
{
    struct input in = {stdin, "standard input"};
    if (argc > 2) {
        fprintf(stderr, "usage: %s [FILE]\n", argv[0]);
        exit(2);
    }
    if (argc == 2) {
        in.name = argv[1];
        in.file = fopen(in.name, "rb");
        if (!in.file)
            fail("cannot read %s: %s", in.name, strerror(errno));
    }
    return in;
}

void check_input(const struct input *in)
{
    if (ferror(in->file))
        fail("cannot read %s: %s", in->name, strerror(errno));
}

void close_output(void)
{
    /* an earlier write may be the one that failed */
    if (ferror(stdout) || fflush(stdout) != 0)
        fail("cannot write standard output: %s", strerror(errno));
}
