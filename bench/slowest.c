/* Searches for the session whose report costs the engine the most instructions, by climbing: a session is changed at random, and the
 * change is kept where it costs no less. README.md says how to run it, and what it can and cannot find.
 *
 * It runs under valgrind's massif, whose clock is the number of instructions: a session costs the same each time, whatever else the
 * machine does. */
#define _POSIX_C_SOURCE 200809L
#include <fcntl.h>
#include <inttypes.h>
#include <time.h>
#include <unistd.h>
#include <valgrind/valgrind.h>

#include "../include/cusphewa.h"
#include "plain.c" /* its state says of each command whether it is accepted */
#include "sessions.h"

enum { CLIMBS = 4, MOST_MISSES = 500, OF_A_TRY = 4000000 };

/* A session, what it costs, and what the tries to better it have cost. */
struct climb {
    struct session s;
    uint64_t cost, spent;
};

static _Noreturn void fail(const char *what)
{
    fprintf(stderr, "slowest: %s\n", what);
    exit(1);
}

static uint64_t seed;

static uint32_t draw(size_t below)
{
    seed ^= seed << 13;
    seed ^= seed >> 7;
    seed ^= seed << 17;
    return (uint32_t)((seed * 2685821657736338717u >> 32) * below >> 32);
}

/* Massif is asked for its count before a report and behind it; it writes the two to the files that the requests name. */
#define ASK "snapshot "
static char request[2][512];

static uint64_t count_in(const char *path)
{
    char text[4096];
    int file = open(path, O_RDONLY);
    ssize_t length = read(file, text, sizeof text - 1);
    close(file);
    text[length > 0 ? length : 0] = 0;
    const char *time = strstr(text, "\ntime=");
    if (!time)
        fail("massif does not tell what it has counted");
    return strtoull(time + 6, NULL, 10);
}

typedef size_t reporter(const uint8_t *session, size_t session_len, uint8_t *report, size_t report_len);

static uint64_t cost(reporter *report, const struct session *s)
{
    static uint8_t room[LEAST_BUFFER];
    VALGRIND_MONITOR_COMMAND(request[0]);
    report(s->bytes, s->length, room, sizeof room);
    VALGRIND_MONITOR_COMMAND(request[1]);
    return count_in(request[1] + strlen(ASK)) - count_in(request[0] + strlen(ASK));
}

static size_t head_of(const struct session *s) { return 2 + (size_t)s->bytes[1]; }

/* Adds the command if it fits and is accepted. */
static int add(struct session *s, struct state *state, const uint8_t *command)
{
    size_t size = SIZE[command[0]], head = head_of(s);
    if (size > SESSION_BYTES - s->length)
        return 0;
    memcpy(s->bytes + s->length, command, size);
    if (run_unlisted(state, s->bytes + s->length - head, head + size).kind == REFUSED)
        return 0;
    s->length += size;
    s->commands++;
    return 1;
}

static uint32_t operands(const uint8_t *command) { return command[0] == 3 ? 3 : SIZE[command[0]] - 1u; }

static void any_operand(const struct session *s, uint8_t *command, uint32_t operand)
{
    uint32_t most = ranges_of(s->bytes[0], s->bytes[1]).most[command[0]][operand];
    command[operand == 2 ? 6 : 1 + operand] = (uint8_t)draw(most > 255 ? 256 : most + 1); /* of a content the last byte will do */
}

static void any_command(const struct session *s, uint8_t *command, uint32_t number)
{
    memset(command, 0, LONGEST);
    command[0] = (uint8_t)number;
    for (uint32_t i = 0; i < operands(command); i++)
        any_operand(s, command, i);
}

/* Makes a whole session of its header and these commands: what is refused is left out, what is too long is cut off, and what is too short
   is filled up with any commands that are accepted, some more often than others. */
static void settle(struct session *s, const uint8_t *commands, size_t length)
{
    struct state state;
    uint8_t command[LONGEST], often[64];
    s->length = head_of(s);
    s->commands = 0;
    start(&state, s->bytes, s->length);
    for (const uint8_t *at = commands; at < commands + length; at += SIZE[*at])
        add(s, &state, at);
    for (size_t i = 0; i < sizeof often; i++)
        often[i] = i < COMMANDS ? (uint8_t)(1 + i) : draw(3) ? often[draw(i)] : 2;
    for (int misses = 0; misses < MOST_MISSES && s->length < SESSION_BYTES - 1; misses++) {
        any_command(s, command, often[draw(sizeof often)]);
        if (add(s, &state, command))
            misses = 0;
    }
}

static void make_any(struct session *s)
{
    s->name = "any commands";
    s->bytes[0] = (uint8_t)(1 + draw(MOST_NODES));
    s->bytes[1] = (uint8_t)(1 + draw(MOST_SHEETS));
    for (int k = 0; k < s->bytes[1]; k++)
        s->bytes[2 + k] = (uint8_t)draw(s->bytes[0]);
    settle(s, NULL, 0);
}

static struct turns any_turns(void)
{
    return (struct turns){ 1 + (int)draw(ALL_NODES), 1 + (int)draw(SAVES - 2), (int)draw(ALL_SHEETS), (int)draw(ALL_SHEETS), (int)draw(2) };
}

struct stretch {
    const uint8_t *from, *to;
};

/* Some commands, mostly few, and as often as not near the beginning, where most is laid down for the rest. */
static struct stretch any_stretch(const struct session *s)
{
    const uint8_t *stop = s->bytes + s->length;
    size_t first = draw(2) ? draw(s->commands + 1) : draw((size_t)1 << draw(13)), count = 1 + draw((size_t)1 << draw(9));
    struct stretch x = { s->bytes + head_of(s), NULL };
    for (; first-- && x.from < stop; x.from += SIZE[*x.from])
        ;
    for (x.to = x.from; count-- && x.to < stop; x.to += SIZE[*x.to])
        ;
    return x;
}

/* The saves, the sheets or the nodes of all these commands are moved on by the same number. */
static void move_on(const struct session *s, uint8_t *from, const uint8_t *to)
{
    /* By the command's number, the byte that has the operand. */
    static const uint8_t place[3][COMMANDS + 1] = { { 0, 1, 1, 1, 1, 0, 1, 2, 1 }, { 0, 0, 2, 2 }, { 0, 0, 0, 0, 0, 1, 0, 1 } };
    const uint32_t limit[] = { MOST_SAVES, s->bytes[1], s->bytes[0] };
    uint32_t kind = draw(3), by = draw(2) ? 1 : draw(limit[kind]);
    for (; from < to; from += SIZE[*from]) {
        uint8_t *operand = from + place[kind][*from];
        if (operand > from)
            *operand = (uint8_t)((*operand + by) % limit[kind]);
    }
}

static uint8_t *copy(uint8_t *to, const uint8_t *from, const uint8_t *stop)
{
    memcpy(to, from, (size_t)(stop - from));
    return to + (stop - from);
}

/* Some stretch gives way to something made of it, or to another one. */
static void change(struct session *s)
{
    static uint8_t made[3 * SESSION_BYTES];
    struct stretch old = any_stretch(s), other = any_stretch(s);
    uint8_t *fresh = copy(made, s->bytes + head_of(s), old.from), *to = fresh;
    switch (draw(7)) {
    case 0: /* nothing */
        break;
    case 1: /* it and one more command */
        any_command(s, to, 1 + draw(COMMANDS));
        to = copy(to + SIZE[*to], old.from, old.to);
        break;
    case 2: /* its first command with another operand */
        to = copy(to, old.from, old.to);
        if (to > fresh)
            any_operand(s, fresh, draw(operands(fresh)));
        break;
    case 3: /* it moved on */
        to = copy(to, old.from, old.to);
        move_on(s, fresh, to);
        break;
    case 4: /* it and itself, as it is or moved on */
        fresh = copy(to, old.from, old.to);
        to = copy(fresh, old.from, old.to);
        if (draw(2))
            move_on(s, fresh, to);
        break;
    case 5: /* it behind the next one */
        other = old;
        for (size_t count = 1 + draw(8); count-- && old.to < s->bytes + s->length; old.to += SIZE[*old.to])
            ;
        to = copy(copy(to, other.to, old.to), other.from, other.to);
        break;
    default: /* another one */
        to = copy(to, other.from, other.to);
    }
    to = copy(to, old.to, s->bytes + s->length);
    settle(s, made, (size_t)(to - made));
}

static void tell(const char *name, uint64_t tries, const struct climb *c)
{
    uint64_t plain = cost(plain_report, &c->s);
    printf("%-21s %8" PRIu64 " %6zu %6zu | %11" PRIu64 " | %11" PRIu64 " | %6.2f\n", name, tries, c->s.length, c->s.commands, c->cost,
           plain, (double)c->cost / (double)plain);
    fflush(stdout);
}

/* The costliest of the sessions in turns, from one of them on: each of their numbers goes up or down while that costs more. */
static void climb_turns(struct climb *best, struct turns x)
{
    static const int least[] = { 1, 1, 0, 0, 0 }, most[] = { ALL_NODES, SAVES - 2, ALL_SHEETS - 1, ALL_SHEETS - 1, 1 };
    static struct climb tried;
    int *const number[] = { &x.nodes, &x.saves, &x.sheet, &x.opened, &x.written };
    make_turns_of(&best->s, "saves in turns", x);
    best->cost = cost(cusphewa_report, &best->s);
    tell(best->s.name, 0, best);
    for (int step = 16; step; step /= 4)
        for (int i = 0; i < 10; i++) {
            int *value = number[i / 2], by = i % 2 ? step : -step;
            while (*value + by >= least[i / 2] && *value + by <= most[i / 2]) {
                *value += by;
                make_turns_of(&tried.s, best->s.name, x);
                tried.cost = cost(cusphewa_report, &tried.s);
                if (tried.cost <= best->cost) {
                    *value -= by;
                    break;
                }
                *best = tried;
            }
        }
}

static void load(struct session *s, const char *path)
{
    static uint8_t bytes[SESSION_BYTES];
    FILE *file = fopen(path, "rb");
    size_t length = file ? fread(bytes, 1, sizeof bytes, file) : 0, head = header_size(bytes, length);
    if (!head || CUSPHEWA_KIND(cusphewa_answer(bytes, length)) == CUSPHEWA_REFUSED)
        fail("the session to begin with is not there, or not accepted whole");
    fclose(file);
    s->name = "as given";
    memcpy(s->bytes, bytes, head);
    settle(s, bytes + head, length - head);
}

/* The engine must accept it whole and print what plain.c prints, or the search was for nothing. */
static void save(const struct session *s, const char *path)
{
    static uint8_t one[LEAST_BUFFER], two[LEAST_BUFFER];
    size_t length = cusphewa_report(s->bytes, s->length, one, sizeof one);
    if (CUSPHEWA_KIND(cusphewa_answer(s->bytes, s->length)) == CUSPHEWA_REFUSED ||
        length != plain_report(s->bytes, s->length, two, sizeof two) || memcmp(one, two, length))
        fail("the engine and plain.c differ on the session");
    FILE *file = fopen(path, "wb");
    if (!file || fwrite(s->bytes, 1, s->length, file) != s->length || fclose(file))
        fail("the session cannot be written");
}

/* The next one to be tried: the best has as much time as the others together. Time is reckoned by instructions, so that a seed always goes
   the same way. */
static struct climb *next(struct climb *climb, const struct climb *best)
{
    struct climb *least = climb;
    for (struct climb *c = climb; c < climb + CLIMBS; c++)
        if (c->spent / (c == best ? CLIMBS - 1 : 1) < least->spent / (least == best ? CLIMBS - 1 : 1))
            least = c;
    return least;
}

static struct climb *best_of(struct climb *climb)
{
    struct climb *best = climb;
    for (struct climb *c = climb; c < climb + CLIMBS; c++)
        best = c->cost > best->cost ? c : best;
    return best;
}

static void search(struct climb *climb, time_t end)
{
    static struct climb tried;
    uint64_t tries = 0, told = 0;
    for (; time(NULL) < end; tries++) {
        struct climb *best = best_of(climb), *from = next(climb, best);
        if (best->cost > told + told / 1000)
            tell(best->s.name, tries, best), told = best->cost;
        tried = *from;
        change(&tried.s);
        tried.cost = cost(cusphewa_report, &tried.s);
        from->spent = tried.spent += OF_A_TRY + tried.cost;
        if (tried.cost >= from->cost)
            *from = tried;
    }
    for (int i = 0; i < CLIMBS; i++)
        tell(climb[i].s.name, tries, &climb[i]);
}

int main(int count, char **arguments)
{
    static struct climb climb[CLIMBS];
    if (count < 5 || !RUNNING_ON_VALGRIND)
        fail("bench/slowest runs this program");
    time_t end = time(NULL) + atoi(arguments[3]);
    for (int i = 0; i < 2; i++)
        snprintf(request[i], sizeof *request, ASK "%s/%d", arguments[1], i);
    seed = 88172645463325252u + strtoull(arguments[4], NULL, 10);
    int made = 2;
    if (count > 5)
        load(&climb[made++].s, arguments[5]);
    printf("%-21s %8s %6s %6s | %11s | %11s | %6s\n", "instructions", "tries", "bytes", "cmds", "engine", "plain", "ratio");
    climb_turns(&climb[0], ALL_WRITTEN);
    climb_turns(&climb[1], any_turns());
    for (int i = 2; i < CLIMBS; i++) {
        if (i >= made)
            make_any(&climb[i].s);
        climb[i].cost = cost(cusphewa_report, &climb[i].s);
    }
    for (int i = 0; i < CLIMBS; i++)
        tell(climb[i].s.name, 0, &climb[i]);
    search(climb, end);
    save(&best_of(climb)->s, arguments[2]);
    return 0;
}
