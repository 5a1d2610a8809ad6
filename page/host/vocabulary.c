/* The vocabulary of host/words.h, for the page. */
#include "vocabulary.h"
#include "budget.h"
#include "calls.h"
#include "words.h"
#include <string.h>

/* How many bytes an operand takes in a session. */
static size_t operand_width(const char *operand)
{
    return strcmp(operand, "content") == 0 ? 4 : 1;
}

static size_t size_of(const struct command *c)
{
    size_t size = 1;
    for (size_t i = 0; i < operand_count(c); i++)
        size += operand_width(c->operands[i]);
    return size;
}

size_t command_size(uint8_t byte)
{
    for (size_t i = 0; i < COMMANDS; i++)
        if (commands[i].number == byte)
            return size_of(&commands[i]);
    return 0;
}

/* The writer of the engine is asked how long a session of one such command is: a width that is wrong here ends the host at once, and not in
   wrong offsets later. */
bool commands_fit(void)
{
    const uint8_t owners[] = {0};
    uint8_t room[64];
    for (size_t i = 0; i < COMMANDS; i++) {
        const uint32_t step[CUSPHEWA_STEP_WORDS] = {commands[i].number};
        uint64_t written = cusphewa_write(1, 1, owners, 1, step, CUSPHEWA_STEP_WORDS, room, sizeof room);
        if (CUSPHEWA_KIND(written) != CUSPHEWA_WRITTEN || CUSPHEWA_VALUE(written) != 3 + size_of(&commands[i]))
            return false;
    }
    return true;
}

static void put_command(struct json *j, const struct command *c)
{
    json_put(j, "{\"name\":\"%s\",\"number\":%u,\"operands\":[", c->name, (unsigned)c->number);
    for (size_t i = 0; i < operand_count(c); i++)
        json_put(j, "%s[\"%s\",%zu]", i ? "," : "", c->operands[i], operand_width(c->operands[i]));
    json_put(j, "]}");
}

void put_words(struct json *j)
{
    json_put(j, "{\"nodes\":\"%s\",\"owners\":\"%s\",\"bytes\":%d,\"commands\":[", NODES, OWNERS, SESSION_BYTES);
    for (size_t i = 0; i < COMMANDS; i++) {
        json_put(j, i ? "," : "");
        put_command(j, &commands[i]);
    }
    json_put(j, "]}");
}
