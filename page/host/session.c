/* A whole session: one pass for its answers, and a state for each prefix where the budget allows it. */
#include "budget.h"
#include "calls.h"
#include "vocabulary.h"
#include <stdlib.h>

static void put_report(struct json *j, const uint8_t *session, size_t length)
{
    uint8_t report[CUSPHEWA_REPORT_BYTES];
    size_t bytes = cusphewa_report(session, length, report, sizeof report);
    json_put(j, ",\"report\":");
    json_string(j, (const char *)report, bytes);
}

/* The refusal's offset and number, if there is one, and the part of the session that is shown. */
static void put_refusal(struct json *j, const uint8_t *session, size_t length)
{
    uint64_t last = cusphewa_answer(session, length), part = cusphewa_shown(session, length);
    if (CUSPHEWA_KIND(last) == CUSPHEWA_REFUSED)
        json_put(j, ",\"refusal\":[%llu,%u]", (unsigned long long)CUSPHEWA_VALUE(last), CUSPHEWA_NUMBER(last));
    else
        json_put(j, ",\"refusal\":null");
    json_put(j, ",\"shown\":[%lu,%lu]", (unsigned long)(part >> 32), (unsigned long)(part & 0xffffffff));
}

/* The number of nodes is the session's first byte; the engine says where the owners stand. Gives back where the commands begin, or 0. */
static size_t put_header(struct json *j, const uint8_t *session, size_t length)
{
    uint64_t owners = cusphewa_owners(session, length);
    size_t at = (size_t)(owners >> 32), count = (size_t)(owners & 0xffffffff);
    if (owners == 0) {
        json_put(j, ",\"nodes\":0,\"owners\":[]");
        return 0;
    }
    json_put(j, ",\"nodes\":%u,\"owners\":[", session[0]);
    for (size_t k = 0; k < count; k++)
        json_put(j, "%s%u", k ? "," : "", session[at + k]);
    json_put(j, "]");
    return at + count;
}

struct steps {
    uint64_t answers[CUSPHEWA_MOST_ANSWERS];
    size_t ends[CUSPHEWA_MOST_ANSWERS]; /* the offset behind each command */
    size_t count;
};

/* Every answer, and where its command ends; a refused one ends with the part that is shown of it. */
static void find_steps(struct steps *s, const uint8_t *session, size_t length, size_t from)
{
    uint64_t given = cusphewa_answers(session, length, s->answers, CUSPHEWA_MOST_ANSWERS);
    s->count = from && CUSPHEWA_KIND(given) == CUSPHEWA_WRITTEN ? (size_t)CUSPHEWA_VALUE(given) : 0;
    for (size_t i = 0, at = from; i < s->count; i++) {
        bool refused = CUSPHEWA_KIND(s->answers[i]) == CUSPHEWA_REFUSED;
        at += refused ? (size_t)(cusphewa_shown(session, length) & 0xffffffff) : command_size(session[at]);
        s->ends[i] = at;
    }
}

static void put_steps(struct json *j, const struct steps *s, size_t from)
{
    json_put(j, ",\"commands\":%zu,\"steps\":[", from);
    for (size_t i = 0; i < s->count; i++) {
        uint64_t a = s->answers[i];
        size_t at = i ? s->ends[i - 1] : from;
        json_put(j, "%s[%zu,%zu,%u,%llu,%u]", i ? "," : "", at, s->ends[i] - at, CUSPHEWA_KIND(a), (unsigned long long)CUSPHEWA_VALUE(a),
                 CUSPHEWA_NUMBER(a));
    }
    json_put(j, "]");
}

/* Puts one state's text as long as it fits into the room that is left; says whether it did. */
static bool put_text(struct json *j, const uint8_t *session, size_t length, uint8_t *room, size_t *left)
{
    uint64_t written = cusphewa_state(session, length, room, *left);
    if (CUSPHEWA_KIND(written) != CUSPHEWA_WRITTEN)
        return false;
    *left -= (size_t)CUSPHEWA_VALUE(written);
    json_string(j, (const char *)room, (size_t)CUSPHEWA_VALUE(written));
    return true;
}

/* The states before the first command and after each accepted one; or nothing, where they are too many or too long. */
static void put_states(struct json *j, const struct steps *s, const uint8_t *session, size_t from)
{
    size_t states = s->count + 1, left = DRAWN_BYTES, start = j->length;
    if (s->count && CUSPHEWA_KIND(s->answers[s->count - 1]) == CUSPHEWA_REFUSED)
        states--;
    uint8_t *room = malloc(DRAWN_BYTES);
    bool drawn = room && s->count <= DRAWN_STEPS;
    json_put(j, ",\"states\":[");
    for (size_t i = 0; drawn && i < states; i++) {
        json_put(j, i ? "," : "");
        drawn = put_text(j, session, i ? s->ends[i - 1] : from, room, &left);
    }
    free(room);
    if (drawn) {
        json_put(j, "]");
        return;
    }
    json_cut(j, start);
    json_put(j, ",\"states\":null,\"limit\":{\"steps\":%d,\"bytes\":%d,\"over\":\"%s\"}", DRAWN_STEPS, DRAWN_BYTES,
             s->count > DRAWN_STEPS ? "steps" : "bytes");
}

/* What reading all the bytes says, also those behind a stop: the first of 1 to 4 that they earn. */
static void put_listed(struct json *j, const uint8_t *session, size_t length)
{
    uint32_t none = 0;
    uint64_t listed = cusphewa_read(session, length, &none, 0);
    unsigned number = CUSPHEWA_KIND(listed) == CUSPHEWA_REFUSED ? CUSPHEWA_NUMBER(listed) : 0;
    if (number == CUSPHEWA_NO_ROOM) /* it can be read: lent no room, the call only says how much it takes */
        number = 0;
    json_put(j, ",\"listed\":[%llu,%u]", number ? (unsigned long long)CUSPHEWA_VALUE(listed) : 0, number);
}

void put_session(struct json *j, const uint8_t *session, size_t length)
{
    struct steps *s = malloc(sizeof *s);
    if (!s) {
        j->lost = true;
        return;
    }
    json_put(j, "{\"length\":%zu", length);
    size_t from = put_header(j, session, length);
    find_steps(s, session, length, from);
    put_steps(j, s, from);
    put_report(j, session, length);
    put_refusal(j, session, length);
    put_listed(j, session, length);
    if (from)
        put_states(j, s, session, from);
    else
        json_put(j, ",\"states\":null");
    json_put(j, "}");
    free(s);
}
