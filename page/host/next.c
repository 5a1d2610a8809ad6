/* One state, and what may come next: steps are tried behind the prefix, and the engine answers each. Which ones it takes is not known here. */
#include "budget.h"
#include "calls.h"
#include "vocabulary.h"
#include "words.h"
#include <stdlib.h>
#include <string.h>

enum { SAVES = 256, MOST_SIZE = 8 };

/* The prefix with room for one step behind it, and what is left of the budget. */
struct trial {
    struct json *j;
    uint8_t *bytes;
    size_t length, left;
    bool some, spent;
    unsigned nodes, sheets;
    bool tried[SAVES]; /* the saves that have begun, and the first that has not */
};

/* The operands of a step by their names. */
struct operands {
    unsigned save, sheet, node, content;
};

static unsigned operand(const struct operands *o, const char *name)
{
    return strcmp(name, "save") == 0 ? o->save : strcmp(name, "sheet") == 0 ? o->sheet : strcmp(name, "node") == 0 ? o->node : o->content;
}

/* A content is the only operand of more than a byte; those tried fit the last of its bytes. */
static size_t spell(uint8_t *at, const struct command *c, struct operands o)
{
    size_t size = command_size((uint8_t)c->number), n = operand_count(c);
    memset(at, 0, size);
    at[0] = (uint8_t)c->number;
    for (size_t i = 0; i < n; i++)
        at[i + 1 == n ? size - 1 : i + 1] = (uint8_t)operand(&o, c->operands[i]);
    return size;
}

static void try_step(struct trial *t, const struct command *c, struct operands o)
{
    size_t cost = t->length + CALL_COST;
    t->spent = t->spent || cost > t->left;
    if (t->spent)
        return;
    t->left -= cost;
    size_t size = spell(t->bytes + t->length, c, o);
    uint64_t a = cusphewa_answer(t->bytes, t->length + size);
    json_put(t->j, "%s[[", t->some ? "," : "");
    for (size_t i = 0; i < size; i++)
        json_put(t->j, "%s%u", i ? "," : "", t->bytes[t->length + i]);
    json_put(t->j, "],%u,%llu,%u]", CUSPHEWA_KIND(a), (unsigned long long)CUSPHEWA_VALUE(a), CUSPHEWA_NUMBER(a));
    t->some = true;
}

static bool has(const struct command *c, const char *name)
{
    for (size_t i = 0; i < operand_count(c); i++)
        if (strcmp(c->operands[i], name) == 0)
            return true;
    return false;
}

/* Every step of a command on these saves, at every node and sheet that it names. */
static void try_command(struct trial *t, const struct command *c)
{
    unsigned saves = has(c, "save") ? SAVES : 1, nodes = has(c, "node") ? t->nodes : 1, sheets = has(c, "sheet") ? t->sheets : 1;
    for (unsigned save = 0; save < saves; save++)
        for (unsigned node = 0; t->tried[save] && node < nodes; node++)
            for (unsigned sheet = 0; sheet < sheets; sheet++)
                try_step(t, c, (struct operands){save, sheet, node, 1});
}

/* First the commands that name no sheet, for they are few: where the budget is spent, these have been tried. */
static void try_commands(struct trial *t)
{
    for (int sheets = 0; sheets < 2; sheets++)
        for (size_t i = 0; i < COMMANDS; i++)
            if (has(&commands[i], "sheet") == (sheets == 1))
                try_command(t, &commands[i]);
}

/* The saves that have begun are those of the state's S lines. */
static void find_saves(struct trial *t, const char *text, size_t length)
{
    for (const char *line = text, *end = text + length; line < end;) {
        if (line[0] == 'S' && line[1] == ' ')
            t->tried[strtoul(line + 2, NULL, 10) % SAVES] = true;
        const char *stop = memchr(line, '\n', (size_t)(end - line));
        line = stop ? stop + 1 : end;
    }
    for (size_t i = 0; i < SAVES; i++)
        if (!t->tried[i]) {
            t->tried[i] = true;
            return;
        }
}

static void put_next(struct json *j, const uint8_t *session, size_t length, const char *text, size_t text_length)
{
    struct trial t = {.j = j, .bytes = malloc(length + MOST_SIZE), .length = length, .left = NEXT_COST};
    if (!t.bytes) {
        j->lost = true;
        return;
    }
    memcpy(t.bytes, session, length);
    t.nodes = session[0];
    t.sheets = (unsigned)(cusphewa_owners(session, length) & 0xffffffff);
    find_saves(&t, text, text_length);
    json_put(j, ",\"next\":[");
    if (CUSPHEWA_KIND(cusphewa_answer(session, length)) != CUSPHEWA_REFUSED)
        try_commands(&t);
    json_put(j, "],\"spent\":%s", t.spent ? "true" : "false");
    free(t.bytes);
}

/* The session without its last command: the longest prefix that ends where a command begins. */
static size_t before_last(const uint8_t *session, size_t length)
{
    uint64_t owners = cusphewa_owners(session, length);
    size_t at = (size_t)(owners >> 32) + (size_t)(owners & 0xffffffff);
    for (size_t size; at < length && (size = command_size(session[at])) != 0 && at + size < length;)
        at += size;
    return at < length ? at : length;
}

/* The state's text goes to `room`, and into the JSON under this name. */
static size_t put_text(struct json *j, const char *name, const uint8_t *session, size_t length, char *room)
{
    uint64_t written = cusphewa_state(session, length, (uint8_t *)room, CUSPHEWA_STATE_BYTES);
    size_t bytes = CUSPHEWA_KIND(written) == CUSPHEWA_WRITTEN ? (size_t)CUSPHEWA_VALUE(written) : 0;
    json_put(j, "\"%s\":", name);
    json_string(j, room, bytes);
    return bytes;
}

void put_state(struct json *j, const uint8_t *session, size_t length)
{
    char *room = malloc(CUSPHEWA_STATE_BYTES);
    if (!room || cusphewa_owners(session, length) == 0) {
        j->lost = j->lost || !room;
        json_put(j, "{\"before\":\"\",\"state\":\"\",\"next\":[],\"spent\":false}");
        free(room);
        return;
    }
    json_put(j, "{");
    put_text(j, "before", session, before_last(session, length), room);
    json_put(j, ",");
    size_t bytes = put_text(j, "state", session, length, room);
    put_next(j, session, length, room, bytes);
    json_put(j, "}");
    free(room);
}
