/* Reads a session in words from standard input, or from the file named, and prints its bytes. The bytes, and every refusal of a header or
   a step, are cusphewa_write's: no rule about sessions is here, only how words and numbers are spelled. */
#include "words.h"
#include <ctype.h>
#include <stdbool.h>
#include <stdlib.h>
#include <string.h>

/* A line up to its comment, of which the first `at` bytes have been read. */
struct line {
    struct input in;
    size_t number;
    char *text;
    size_t length, room, at;
};

/* A word of the line; behind the last one its length is 0. */
struct word {
    const char *text;
    size_t length;
};

struct session {
    size_t nodes, nodes_line;
    uint8_t *owners;
    size_t sheets, owners_room, owners_line;
    uint32_t *steps;
    size_t count, steps_room;
    size_t *lines; /* of the steps */
    size_t lines_room;
};

/* The list with room for one more behind its first `count` elements; it is never null. */
static void *with_room(void *list, size_t *room, size_t count, size_t size)
{
    if (list && count < *room)
        return list;
    size_t more = count < 64 ? 64 : count;
    list = more > SIZE_MAX / 2 / size ? NULL : realloc(list, 2 * more * size);
    if (!list)
        fail("no memory for an input of this length");
    *room = 2 * more;
    return list;
}

/* ---- Lines and words */

/* Behind the last line its number is that of the line that is missing. */
static bool next_line(struct line *l)
{
    bool comment = false;
    int c = getc(l->in.file);
    bool found = c != EOF;
    l->number++;
    l->length = l->at = 0;
    for (; c != EOF && c != '\n'; c = getc(l->in.file)) {
        comment = comment || c == '#';
        if (comment)
            continue;
        l->text = with_room(l->text, &l->room, l->length, 1);
        l->text[l->length++] = (char)c;
    }
    check_input(&l->in);
    if (!comment && l->length > 0 && l->text[l->length - 1] == '\r')
        l->length--;
    return found;
}

static bool is_blank(char c)
{
    return c == ' ' || c == '\t';
}

static void skip_blanks(struct line *l)
{
    while (l->at < l->length && is_blank(l->text[l->at]))
        l->at++;
}

static struct word next_word(struct line *l)
{
    skip_blanks(l);
    struct word w = {l->text, 0};
    if (l->at < l->length)
        w.text += l->at;
    for (; l->at < l->length && !is_blank(l->text[l->at]); l->at++)
        w.length++;
    return w;
}

/* The next line that has a word. */
static bool next_words(struct line *l)
{
    while (next_line(l)) {
        skip_blanks(l);
        if (l->at < l->length)
            return true;
    }
    return false;
}

static bool is_word(struct word w, const char *name, size_t length)
{
    if (w.length != length)
        return false;
    for (size_t i = 0; i < length; i++)
        if (tolower((unsigned char)w.text[i]) != tolower((unsigned char)name[i]))
            return false;
    return true;
}

/* Reads all words of the name, or nothing. */
static bool read_name(struct line *l, const char *name)
{
    size_t start = l->at;
    while (*name) {
        size_t length = strcspn(name, " ");
        if (!is_word(next_word(l), name, length)) {
            l->at = start;
            return false;
        }
        name += length;
        name += strspn(name, " ");
    }
    return true;
}

/* ---- What cannot be read */

/* Ends a message with the word that is there instead: all of it printable, and no more than a line takes. */
static _Noreturn void not_this(struct word w)
{
    enum { MOST = 40 };
    if (w.length > 0) {
        fputs(", not \"", stderr);
        for (size_t i = 0; i < w.length && i < MOST; i++)
            if (isprint((unsigned char)w.text[i]))
                fputc(w.text[i], stderr);
            else
                fprintf(stderr, "\\x%02X", (unsigned char)w.text[i]);
        fputs(w.length > MOST ? "...\"" : "\"", stderr);
    }
    fputc('\n', stderr);
    exit(1);
}

static _Noreturn void expected(const struct line *l, const char *what, struct word instead)
{
    fprintf(stderr, "line %zu: expected %s", l->number, what);
    not_this(instead);
}

/* What stands before the name at i, of n names that are listed. */
static const char *before(size_t i, size_t n, const char *last)
{
    return i == 0 ? "" : i + 1 < n ? ", " : last;
}

static _Noreturn void expected_command(const struct line *l, struct word instead)
{
    fprintf(stderr, "line %zu: expected a command (", l->number);
    for (size_t i = 0; i < COMMANDS; i++)
        fprintf(stderr, "%s%s", before(i, COMMANDS, " or "), commands[i].name);
    fputc(')', stderr);
    not_this(instead);
}

/* A word too many is shown, none where one is missing. */
static _Noreturn void expected_operands(const struct line *l, const struct command *c, struct word more)
{
    fprintf(stderr, "line %zu: %s expects ", l->number, c->name);
    for (size_t i = 0; i < operand_count(c); i++)
        fprintf(stderr, "%sa %s", before(i, operand_count(c), " and "), c->operands[i]);
    fputs(more.length > 0 ? " only" : "", stderr);
    not_this(more);
}

/* ---- The session */

/* A number has one spelling, so that `steps` gives back what was written. */
static uint32_t read_number(const struct line *l, struct word w)
{
    uint64_t n = 0;
    for (size_t i = 0; i < w.length; i++) {
        if (isdigit((unsigned char)w.text[i]))
            n = 10 * n + (uint64_t)(w.text[i] - '0');
        if (!isdigit((unsigned char)w.text[i]) || n > UINT32_MAX)
            expected(l, "a number up to 4294967295", w);
    }
    if (w.length > 1 && w.text[0] == '0')
        expected(l, "a number without leading zeros", w);
    return (uint32_t)n;
}

/* Goes behind the first word of the next line, which is to be this one. */
static void read_heading(struct line *l, const char *name, const char *what)
{
    if (!next_words(l) || !read_name(l, name))
        expected(l, what, next_word(l));
}

static void read_nodes(struct line *l, struct session *s)
{
    const char *what = "\"" NODES "\" and the number of nodes";
    read_heading(l, NODES, what);
    struct word w = next_word(l);
    if (w.length == 0)
        expected(l, what, w);
    s->nodes = read_number(l, w);
    s->nodes_line = l->number;
    w = next_word(l);
    if (w.length > 0)
        expected(l, "\"" NODES "\" and the number of nodes only", w);
}

static void read_owners(struct line *l, struct session *s)
{
    read_heading(l, OWNERS, "\"" OWNERS "\" and the owner of each sheet");
    s->owners_line = l->number;
    for (struct word w = next_word(l); w.length > 0; w = next_word(l)) {
        uint32_t owner = read_number(l, w);
        s->owners = with_room(s->owners, &s->owners_room, s->sheets, sizeof *s->owners);
        /* 255 is no node, for the number of nodes is a byte too: the writer refuses it as it would any larger one. */
        s->owners[s->sheets++] = owner < UINT8_MAX ? (uint8_t)owner : UINT8_MAX;
    }
}

static const struct command *read_command(struct line *l)
{
    for (size_t i = 0; i < COMMANDS; i++)
        if (read_name(l, commands[i].name))
            return &commands[i];
    expected_command(l, next_word(l));
}

static void read_step(struct line *l, struct session *s)
{
    const struct command *c = read_command(l);
    uint32_t step[CUSPHEWA_STEP_WORDS] = {c->number};
    for (size_t i = 0; i < operand_count(c); i++) {
        struct word w = next_word(l);
        if (w.length == 0)
            expected_operands(l, c, w);
        step[1 + i] = read_number(l, w);
    }
    struct word more = next_word(l);
    if (more.length > 0)
        expected_operands(l, c, more);
    s->steps = with_room(s->steps, &s->steps_room, s->count, sizeof step);
    s->lines = with_room(s->lines, &s->lines_room, s->count, sizeof *s->lines);
    memcpy(s->steps + CUSPHEWA_STEP_WORDS * s->count, step, sizeof step);
    s->lines[s->count++] = l->number;
}

/* ---- Its bytes */

static uint64_t write_session(const struct session *s, uint8_t *room, size_t bytes)
{
    return cusphewa_write(s->nodes, s->sheets, s->owners, s->sheets, s->steps, CUSPHEWA_STEP_WORDS * s->count, room, bytes);
}

static _Noreturn void refused(const struct session *s, uint64_t answer)
{
    unsigned number = CUSPHEWA_NUMBER(answer);
    uint64_t step = CUSPHEWA_VALUE(answer);
    if (number == CUSPHEWA_BAD_SESSION && step == 0)
        fail("lines %zu and %zu: refused 1: the header is out of range", s->nodes_line, s->owners_line);
    if (number == CUSPHEWA_BAD_SESSION)
        fail("refused 1: the session is over 16,384 bytes");
    if (step < s->count)
        fail("line %zu: refused %u: %s", s->lines[step], number, reason(number));
    fail("refused %u: %s", number, reason(number));
}

static void print_session(const struct session *s)
{
    /* lent no room, the writer says how much it needs */
    uint8_t none = 0;
    uint64_t answer = write_session(s, &none, 0);
    if (CUSPHEWA_NUMBER(answer) != CUSPHEWA_NO_ROOM)
        refused(s, answer);
    size_t bytes = (size_t)CUSPHEWA_VALUE(answer), room = 0;
    uint8_t *session = with_room(NULL, &room, bytes, 1);
    answer = write_session(s, session, room);
    if (CUSPHEWA_KIND(answer) != CUSPHEWA_WRITTEN)
        refused(s, answer);
    fwrite(session, 1, bytes, stdout);
    free(session);
    close_output();
}

int main(int argc, char **argv)
{
    struct line l = {.in = open_input(argc, argv)};
    struct session s = {0};
    /* the writer takes no null pointer for an empty list */
    s.owners = with_room(NULL, &s.owners_room, 0, sizeof *s.owners);
    s.steps = with_room(NULL, &s.steps_room, 0, CUSPHEWA_STEP_WORDS * sizeof *s.steps);
    read_nodes(&l, &s);
    read_owners(&l, &s);
    while (next_words(&l))
        read_step(&l, &s);
    print_session(&s);
    free(l.text);
    free(s.owners);
    free(s.steps);
    free(s.lines);
    return 0;
}
