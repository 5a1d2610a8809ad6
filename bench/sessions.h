/* The benchmark's sessions, made by code: README.md says what stands in each. */
#ifndef SESSIONS_H
#define SESSIONS_H

#include <stdint.h>
#include <stdio.h>
#include <stdlib.h>
#include <string.h>

enum { SESSION_BYTES = 16384, SAVES = 32, NODES = 4, SHEETS = 16, ALL_NODES = 8, ALL_SHEETS = 64 };

struct session {
    const char *name;
    uint8_t bytes[SESSION_BYTES];
    size_t length, commands;
};

static inline void put(struct session *s, size_t count, const uint8_t *bytes)
{
    if (count > SESSION_BYTES - s->length) {
        fprintf(stderr, "%s: the session is too long\n", s->name);
        exit(1);
    }
    memcpy(s->bytes + s->length, bytes, count);
    s->length += count;
}

static inline void command(struct session *s, size_t count, const uint8_t *bytes)
{
    put(s, count, bytes);
    s->commands++;
}

#define COMMAND(s, ...) \
    command(s, sizeof (uint8_t[]){ __VA_ARGS__ }, (uint8_t[]){ __VA_ARGS__ })

static inline void header(struct session *s, const char *name, int nodes, int sheets)
{
    s->name = name;
    s->length = s->commands = 0;
    put(s, 2, (uint8_t[]){ (uint8_t)nodes, (uint8_t)sheets });
    for (int k = 0; k < sheets; k++)
        put(s, 1, (uint8_t[]){ (uint8_t)(k % nodes) });
}

static inline void read_sheet(struct session *s, int t, int k)
{
    COMMAND(s, 2, (uint8_t)t, (uint8_t)k);
}

static inline void write_sheet(struct session *s, int t, int k, uint32_t v)
{
    COMMAND(s, 3, (uint8_t)t, (uint8_t)k, (uint8_t)(v >> 24), (uint8_t)(v >> 16), (uint8_t)(v >> 8),
            (uint8_t)v);
}

static inline void on_save(struct session *s, int byte, int t) { COMMAND(s, (uint8_t)byte, (uint8_t)t); }

static inline void nodes_take(struct session *s, int nodes)
{
    for (int n = 0; n < nodes; n++)
        COMMAND(s, 5, (uint8_t)n);
}

static inline void nodes_apply(struct session *s, int nodes, int t)
{
    for (int n = 0; n < nodes; n++)
        COMMAND(s, 7, (uint8_t)n, (uint8_t)t);
}

/* All sheets, and then `more` reads of own copies. */
static inline void read_and_write_all(struct session *s, int t, int more)
{
    for (int k = 0; k < SHEETS; k++)
        read_sheet(s, t, k);
    for (int k = 0; k < SHEETS; k++)
        write_sheet(s, t, k, (uint32_t)(t * 1000003 + k));
    for (int k = 0; k < more; k++)
        read_sheet(s, t, k % SHEETS);
}

/* One save reads and writes its own copies until the session has so many bytes. */
static inline void own(struct session *s, size_t bytes)
{
    header(s, "own reads and writes", 1, SHEETS);
    on_save(s, 1, 0);
    for (int k = 0; k < SHEETS; k++)
        read_sheet(s, 0, k);
    for (int k = 0; s->length < bytes; k = (k + 1) % SHEETS) {
        size_t left = bytes - s->length;
        /* The last bytes must be a sum of threes and sevens. */
        if (left > 40 ? s->commands % 2 : left % 3 == 0)
            read_sheet(s, 0, k);
        else
            write_sheet(s, 0, k, (uint32_t)(s->length * 2654435761u));
    }
}

static inline void make_own(struct session *s) { own(s, SESSION_BYTES); }

static inline void serial(struct session *s, const char *name, int more)
{
    header(s, name, NODES, SHEETS);
    for (int t = 0; t < SAVES; t++) {
        on_save(s, 1, t);
        read_and_write_all(s, t, more);
        on_save(s, 4, t);
        nodes_take(s, NODES);
        on_save(s, 6, t);
        nodes_apply(s, NODES, t);
    }
}

/* All saves run at once on all sheets: the first commits, each other one runs twice. */
static inline void conflict(struct session *s, const char *name, int more)
{
    header(s, name, NODES, SHEETS);
    for (int t = 0; t < SAVES; t++) {
        on_save(s, 1, t);
        read_and_write_all(s, t, more);
    }
    for (int t = 0; t < SAVES; t++)
        on_save(s, 4, t);
    for (int t = 0; t < SAVES; t++)
        nodes_take(s, NODES);
    for (int t = 0; t < SAVES; t++) {
        on_save(s, 6, t);
        if (t > 0) {
            read_and_write_all(s, t, 0);
            on_save(s, 4, t);
        }
        nodes_apply(s, NODES, t);
    }
}

/* With these reads the sessions have nearly 16,384 bytes. */
static inline void make_serial_long(struct session *s) { serial(s, "serial saves, long", 108); }

static inline void make_serial(struct session *s) { serial(s, "serial saves", 0); }

static inline void make_conflict_long(struct session *s) { conflict(s, "all in conflict, long", 56); }

static inline void make_conflict(struct session *s) { conflict(s, "all in conflict", 0); }

/* Each save works on one sheet of 64 on 8 nodes: most steps are the nodes' own. */
static inline void make_one_sheet(struct session *s)
{
    header(s, "one sheet each", ALL_NODES, ALL_SHEETS);
    for (int t = 0; t < SAVES; t++) {
        int k = 2 * t;
        on_save(s, 1, t);
        read_sheet(s, t, k);
        write_sheet(s, t, k, (uint32_t)t);
        on_save(s, 4, t);
        nodes_take(s, ALL_NODES);
        on_save(s, 6, t);
        COMMAND(s, 7, (uint8_t)(k % ALL_NODES), (uint8_t)t);
    }
}

/* Each save reads all 64 sheets on 8 nodes, and writes one. */
static inline void make_all_sheets(struct session *s)
{
    header(s, "all sheets each", ALL_NODES, ALL_SHEETS);
    for (int t = 0; t < SAVES; t++) {
        on_save(s, 1, t);
        for (int k = 0; k < ALL_SHEETS; k++)
            read_sheet(s, t, k);
        write_sheet(s, t, 2 * t, (uint32_t)t);
        on_save(s, 4, t);
        nodes_take(s, ALL_NODES);
        on_save(s, 6, t);
        nodes_apply(s, ALL_NODES, t);
    }
}

/* Sessions of saves in turns. */
struct turns {
    int nodes, saves;
    int sheet;   /* of the queue that the saves stand in */
    int opened;  /* how many other sheets a save reads in its first run */
    int written; /* has one more save written all sheets before? */
};

static inline void write_all(struct session *s, int nodes, int t)
{
    on_save(s, 1, t);
    for (int k = 0; k < ALL_SHEETS; k++) {
        read_sheet(s, t, k);
        write_sheet(s, t, k, 1);
    }
    on_save(s, 4, t);
    nodes_take(s, nodes);
    on_save(s, 6, t);
    nodes_apply(s, nodes, t);
}

/* The saves stand in one queue, each with an X that fails the others. */
static inline void line_up(struct session *s, struct turns x)
{
    int first = x.saves;
    for (int i = 0; i <= x.saves; i++) {
        int t = i ? i - 1 : first;
        on_save(s, 1, t);
        read_sheet(s, t, x.sheet);
        write_sheet(s, t, x.sheet, (uint32_t)t);
        for (int k = 1; k <= x.opened && t != first; k++)
            read_sheet(s, t, (x.sheet + k) % ALL_SHEETS);
    }
    for (int i = 0; i <= x.saves; i++) {
        on_save(s, 4, i ? i - 1 : first);
        nodes_take(s, x.nodes);
    }
    on_save(s, 6, first);
    COMMAND(s, 7, (uint8_t)(x.sheet % x.nodes), (uint8_t)first);
}

/* The first save in the queue opens a sheet, or writes one that is only S, and goes to the end, where it fails again; then it is the
   next one's turn. It ends with the session's bytes, or when all of them have an X on every sheet. */
static inline void make_turns_of(struct session *s, const char *name, struct turns x)
{
    int turn = 2 + 3 + 7 + 2 + 2 * x.nodes;
    header(s, name, x.nodes, ALL_SHEETS);
    if (x.written)
        write_all(s, x.nodes, SAVES - 1);
    line_up(s, x);
    for (int round = x.opened + 1; round < 2 * ALL_SHEETS - 1; round++)
        for (int t = 0; t < x.saves; t++) {
            if (SESSION_BYTES - s->length < (size_t)turn)
                return;
            on_save(s, 6, t);
            int writes = round >= ALL_SHEETS, k = (x.sheet + (writes ? round - ALL_SHEETS + 1 : round)) % ALL_SHEETS;
            read_sheet(s, t, k);
            if (writes)
                write_sheet(s, t, k, (uint32_t)(t * 1000003 + k));
            on_save(s, 4, t);
            nodes_take(s, x.nodes);
        }
}

static inline void make_turns_of_two(struct session *s)
{
    make_turns_of(s, "a sheet in each run", (struct turns){ .nodes = ALL_NODES, .saves = 2 });
}

static inline void make_turns(struct session *s)
{
    make_turns_of(s, "32 saves in turns", (struct turns){ .nodes = ALL_NODES, .saves = SAVES - 1 });
}

static inline void make_turns_at_one(struct session *s)
{
    make_turns_of(s, ".., at one node", (struct turns){ .nodes = 1, .saves = SAVES - 1 });
}

/* Once all sheets have been X, a hint that is never taken back says so for good; and the X that a save meets is on the last sheet. */
#define ALL_WRITTEN ((struct turns){ .nodes = 1, .saves = SAVES - 2, .sheet = ALL_SHEETS - 1, .written = 1 })

static inline void make_all_written(struct session *s) { make_turns_of(s, "all written, in turns", ALL_WRITTEN); }

/* Each save has a copy of all 64 sheets and an entry in every queue, half of them X: a state with many lines, most of them long. */
static inline void make_queues(struct session *s)
{
    header(s, "32 saves on 64 sheets", ALL_NODES, ALL_SHEETS);
    for (int t = 0; t < SAVES; t++) {
        on_save(s, 1, t);
        for (int k = 0; k < ALL_SHEETS; k++)
            read_sheet(s, t, k);
        for (int k = t % 2; k < ALL_SHEETS; k += 2)
            write_sheet(s, t, k, (uint32_t)(t * 1000003 + k));
    }
    for (int t = 0; t < SAVES; t++)
        on_save(s, 4, t);
    for (int t = 0; t < SAVES; t++)
        nodes_take(s, ALL_NODES);
}

static inline void make_w(struct session *s)
{
    static const uint8_t w[58] = {
        2, 2, 0, 1, 1, 0, 1, 1, 2, 0, 0, 2, 1, 0, 3, 0, 0, 0, 0, 0, 7, 3, 1, 0, 0, 0, 0, 9, 4, 0,
        4, 1, 5, 0, 5, 0, 6, 0, 7, 0, 0, 6, 1, 2, 1, 0, 3, 1, 0, 0, 0, 0, 9, 4, 1, 7, 0, 1,
    };
    s->name = "W";
    s->length = 0;
    put(s, sizeof w, w);
    s->commands = 17;
}

static inline void make_empty(struct session *s) { header(s, "no commands", 1, 1); }

/* All eight commands, in no order, with operands in range; the engine would stop at once. */
static inline void mixed(struct session *s, size_t bytes)
{
    uint32_t seed = 1;
    header(s, "mixed", ALL_NODES, ALL_SHEETS);
    while (s->length < bytes) {
        size_t left = bytes - s->length;
        seed = seed * 1664525 + 1013904223;
        int t = seed >> 8 & 31, k = seed >> 13 & 63, n = seed >> 19 & 7;
        /* The last bytes must be a sum of twos and threes. */
        int number = left > 9 ? 1 + (int)(seed >> 29) : left % 2 ? 2 : 1;
        if (number == 2)
            read_sheet(s, t, k);
        else if (number == 3)
            write_sheet(s, t, k, seed);
        else if (number == 7)
            COMMAND(s, 7, (uint8_t)n, (uint8_t)t);
        else
            on_save(s, number, number == 5 ? n : t);
    }
}

static inline void make_half_mixed(struct session *s) { mixed(s, SESSION_BYTES / 2); }

static inline void make_mixed(struct session *s) { mixed(s, SESSION_BYTES); }

#endif
