/* A plain implementation of document 01, with the requests of document 02, in C: arrays, no allocation, written for speed.
 *
 * Sets of sheets are 64-bit masks. A queue has at most one entry of a save, at the save's last place: it is a
 * mask of saves, with a second mask that says which of them are X. Every node takes the places in the one
 * order, so the entries of a queue always stand in that order, and each save has a mask of those with an
 * earlier last place. "An X before it" is then one AND. Former places stand in the order alone: no test goes
 * over them.
 */
#include <stddef.h>
#include <stdint.h>
#include <string.h>

/* Where a call of its own would cost the shortest sessions a tenth. */
#define ALWAYS_INLINE inline __attribute__((always_inline))

enum { MOST_NODES = 8, MOST_SHEETS = 64, MOST_SAVES = 32, MOST_BYTES = 16384, LEAST_BUFFER = 4096 };

/* Each place of a save but its first takes a DECIDE, a READ and a SUBMIT: seven bytes. */
enum { MOST_PLACES = MOST_SAVES + MOST_BYTES / 7 };

/* A header has three bytes and a command two; a single byte that is left is answered too. */
enum { MOST_ANSWERS = (MOST_BYTES - 3 + 1) / 2 };

/* No state's text is longer: each save has a line for each sheet's claim and copy, and one in each queue, with all saves before it. */
enum { STATE_BYTES = 524288, LONGEST_LINE = 128 };

enum { UNUSED, FIRST_RUN, SECOND_RUN, SUBMITTED, COMMITTED, DROPPED };

enum { NO_COMMAND, ACCEPTED, CONTENT, VALID, INVALID, DECIDED, SECOND, REFUSED, WRITTEN, LISTED };

/* Why a TAKE found its save invalid: its value has the sheet above these bits and the save in them, its number is the rule. */
enum { SHEET_AT = 16 };
enum { X_GRANTED = 1, X_WAITING, COUNTER_BEHIND };

struct save {
    uint64_t copied, written; /* sheets with a copy from this run; those of them written */
    uint64_t claim, claim_x;  /* the claim; where it is X */
    uint64_t held;            /* sheets with an entry in the queue */
    uint16_t place;           /* the last one */
    uint8_t phase, failed, runs;
};

struct state {
    uint32_t nodes, sheets;
    uint32_t places, former;    /* of the order; those of them that are not their save's last */
    uint32_t placed;            /* the saves with a place */
    uint32_t accepted, first_commits, second_commits;
    uint64_t owned[MOST_NODES]; /* the sheets of each node */
    uint16_t taken[MOST_NODES]; /* how many places of the order each node has taken */
    struct save save[MOST_SAVES];
    uint32_t content[MOST_SHEETS], wct[MOST_SHEETS];
    uint32_t queue[MOST_SHEETS], queue_x[MOST_SHEETS]; /* the saves with an entry; with an X */
    /* Not cleared at the start: the masks say which copies there are, and which saves have a place. */
    uint32_t copy[MOST_SAVES][MOST_SHEETS], seen[MOST_SAVES][MOST_SHEETS];
    uint32_t before[MOST_SAVES]; /* the saves whose last place is earlier */
    uint8_t order[MOST_PLACES];
};

struct end {
    uint32_t offset, shown;
    uint32_t kind, value, number; /* as cusphewa_answer codes them */
};

/* Are these the counts and owners of a session? */
static inline int good_header(size_t nodes, size_t sheets, const uint8_t *owners)
{
    if (nodes - 1 >= MOST_NODES || sheets - 1 >= MOST_SHEETS)
        return 0;
    uint32_t bad = 0;
    for (size_t k = 0; k < sheets; k++)
        bad |= owners[k] >= nodes;
    return !bad;
}

/* The number of the header's bytes; 0 for refusal 1. */
static inline size_t header_size(const uint8_t *session, size_t length)
{
    if (length > MOST_BYTES || length < 2 || length < (size_t)2 + session[1])
        return 0;
    return good_header(session[0], session[1], session + 2) ? (size_t)2 + session[1] : 0;
}

/* Reads the header and clears what the masks do not cover; 0 for refusal 1. */
static inline int start(struct state *s, const uint8_t *session, size_t length)
{
    if (!header_size(session, length))
        return 0;
    uint32_t nodes = session[0], sheets = session[1];
    memset(s->owned, 0, sizeof s->owned);
    for (uint32_t k = 0; k < sheets; k++)
        s->owned[session[2 + k]] |= (uint64_t)1 << k;
    s->nodes = nodes;
    s->sheets = sheets;
    s->places = s->former = s->placed = s->accepted = s->first_commits = s->second_commits = 0;
    memset(s->taken, 0, sizeof s->taken);
    for (int t = 0; t < MOST_SAVES; t++)
        s->save[t].phase = UNUSED;
    memset(s->content, 0, sheets * sizeof *s->content);
    memset(s->wct, 0, sheets * sizeof *s->wct);
    memset(s->queue, 0, sheets * sizeof *s->queue);
    memset(s->queue_x, 0, sheets * sizeof *s->queue_x);
    return 1;
}

static inline struct end refuse(const uint8_t *session, const uint8_t *at, uint32_t shown, uint32_t number)
{
    uint32_t offset = (uint32_t)(at - session);
    struct end end = { offset, shown, REFUSED, offset, number };
    return end;
}

/* What the save is refused with by a command that its phase does not allow. */
static inline uint32_t out_of_phase(const struct save *t)
{
    return t->phase == UNUSED ? 13 : t->phase == COMMITTED || t->phase == DROPPED ? 14 : 5;
}

/* Is the front entry an X? It is where some X has none before it. */
static inline int front_is_x(const struct state *s, uint32_t queue, uint32_t x)
{
    for (; x; x &= x - 1)
        if (!(queue & s->before[__builtin_ctz(x)]))
            return 1;
    return 0;
}

/* The rule of the last command's answer, a TAKE that found its save invalid. Nothing has changed since, but for the save's own entry,
   which stands last; so no other TAKE has to look for its rule. */
static inline uint32_t rule_of(const struct state *s, uint32_t value)
{
    uint32_t k = value >> SHEET_AT, before = s->before[value & ((1 << SHEET_AT) - 1)];
    uint32_t queue = s->queue[k] & before, x = s->queue_x[k] & before;
    return front_is_x(s, queue, x) ? X_GRANTED : x ? X_WAITING : COUNTER_BEHIND;
}

/* The save's entries at these sheets go. */
static inline void remove_entries(struct state *s, uint32_t number_t, uint64_t sheets)
{
    uint32_t gone = ~((uint32_t)1 << number_t);
    for (uint64_t left = sheets; left; left &= left - 1) {
        uint32_t k = (uint32_t)__builtin_ctzll(left);
        s->queue[k] &= gone;
        s->queue_x[k] &= gone;
    }
}

/* The save joins the end of the order, with a claim for all its copies. */
static inline void take_place(struct state *s, uint32_t number_t)
{
    struct save *t = &s->save[number_t];
    t->claim |= t->copied;
    t->claim_x |= t->written;
    t->phase = SUBMITTED;
    t->place = (uint16_t)s->places;
    s->order[s->places++] = (uint8_t)number_t;
    s->before[number_t] = s->placed;
    s->placed |= (uint32_t)1 << number_t;
}

/* The save's last place is one no more. */
static inline void withdraw(struct state *s, uint32_t number_t)
{
    struct save *t = &s->save[number_t];
    uint32_t gone = ~((uint32_t)1 << number_t);
    remove_entries(s, number_t, t->held);
    t->held = 0;
    t->failed = 0;
    s->former++;
    s->placed &= gone;
    for (int other = 0; other < MOST_SAVES; other++)
        s->before[other] &= gone;
}

/* An answer as cusphewa_answer codes it. */
static inline uint64_t code(uint32_t kind, uint32_t value, uint32_t number)
{
    return ((uint64_t)kind << 48) + ((uint64_t)value << 8) + number;
}

/* The commands. The accepted ones' answers are listed where there is a list; where there is none, nothing is left of that. */
static ALWAYS_INLINE struct end run_listed(struct state *s, const uint8_t *session, size_t length, uint64_t *answers)
{
    const uint8_t *at = session + 2 + s->sheets, *stop = session + length;
    uint32_t kind = NO_COMMAND, value = 0, accepted = 0;
    const uint32_t sheets = s->sheets;
    uint32_t number = 0, size = 0;

#define REFUSE(why) do { number = (why); goto refused; } while (0)
#define NEEDS(bytes) do { size = (bytes); if ((size_t)(stop - at) < size) goto cut; } while (0)

    for (; at < stop; at += size, accepted++) {
        switch (at[0]) {
        case 1: { /* BEGIN t */
            NEEDS(2);
            if (at[1] >= MOST_SAVES)
                REFUSE(4);
            struct save *t = &s->save[at[1]];
            if (t->phase != UNUSED)
                REFUSE(out_of_phase(t));
            t->copied = t->written = t->claim = t->claim_x = t->held = 0;
            t->failed = 0;
            t->runs = 1;
            t->phase = FIRST_RUN;
            kind = ACCEPTED, value = 0;
            break;
        }
        case 2: { /* READ t k */
            NEEDS(3);
            uint32_t number_t = at[1], k = at[2];
            if (number_t >= MOST_SAVES || k >= sheets)
                REFUSE(4);
            struct save *t = &s->save[number_t];
            if (t->phase != FIRST_RUN && t->phase != SECOND_RUN)
                REFUSE(out_of_phase(t));
            uint64_t bit = (uint64_t)1 << k;
            if (!(t->copied & bit)) {
                if (t->phase == FIRST_RUN && front_is_x(s, s->queue[k], s->queue_x[k]))
                    REFUSE(6);
                t->copied |= bit;
                s->copy[number_t][k] = s->content[k];
                s->seen[number_t][k] = s->wct[k];
            }
            kind = CONTENT, value = s->copy[number_t][k];
            break;
        }
        case 3: { /* WRITE t k v */
            NEEDS(7);
            uint32_t number_t = at[1], k = at[2];
            if (number_t >= MOST_SAVES || k >= sheets)
                REFUSE(4);
            struct save *t = &s->save[number_t];
            if (t->phase != FIRST_RUN && t->phase != SECOND_RUN)
                REFUSE(out_of_phase(t));
            uint64_t bit = (uint64_t)1 << k;
            if (!(t->copied & bit))
                REFUSE(7);
            t->written |= bit;
            s->copy[number_t][k] = (uint32_t)at[3] << 24 | (uint32_t)at[4] << 16 |
                                   (uint32_t)at[5] << 8 | at[6];
            kind = ACCEPTED, value = 0;
            break;
        }
        case 4: { /* SUBMIT t */
            NEEDS(2);
            if (at[1] >= MOST_SAVES)
                REFUSE(4);
            struct save *t = &s->save[at[1]];
            if (t->phase == FIRST_RUN) {
                take_place(s, at[1]);
            } else if (t->phase != SECOND_RUN) {
                REFUSE(out_of_phase(t));
            } else if ((t->copied & ~t->claim) | (t->written & ~t->claim_x)) {
                withdraw(s, at[1]);
                take_place(s, at[1]);
            } else {
                t->phase = COMMITTED;
                s->second_commits++;
            }
            kind = ACCEPTED, value = 0;
            break;
        }
        case 5: { /* TAKE n */
            NEEDS(2);
            uint32_t n = at[1];
            if (n >= s->nodes)
                REFUSE(4);
            uint32_t place = s->taken[n];
            if (place == s->places)
                REFUSE(9);
            s->taken[n]++;
            uint32_t number_t = s->order[place], here = (uint32_t)1 << number_t;
            struct save *t = &s->save[number_t];
            uint64_t ours = t->claim & s->owned[n], met_x = 0, behind = 0;
            kind = VALID, value = number_t;
            /* At a former place the node only moves on, as with no sheet here. */
            if (!ours || t->place != place)
                break;
            t->held |= ours;
            for (uint64_t left = ours; left; left &= left - 1) {
                uint32_t k = (uint32_t)__builtin_ctzll(left);
                met_x |= (uint64_t)(s->queue_x[k] != 0) << k;
                behind |= (uint64_t)(s->seen[number_t][k] < s->wct[k]) << k;
                s->queue[k] |= here;
                if (t->claim_x >> k & 1)
                    s->queue_x[k] |= here;
            }
            /* All of them have their entries. A sheet that an earlier run has claimed need not have a copy; the lowest one that failed is
               the cause's. */
            uint64_t failed = met_x | (behind & t->copied);
            if (failed) {
                t->failed = 1;
                kind = INVALID, value |= (uint32_t)__builtin_ctzll(failed) << SHEET_AT;
            }
            break;
        }
        case 6: { /* DECIDE t */
            NEEDS(2);
            if (at[1] >= MOST_SAVES)
                REFUSE(4);
            struct save *t = &s->save[at[1]];
            if (t->phase != SUBMITTED)
                REFUSE(out_of_phase(t));
            if (t->held != t->claim)
                REFUSE(10);
            uint32_t before = s->before[at[1]], waits = 0;
            for (uint64_t left = t->claim; left; left &= left - 1) {
                uint32_t k = (uint32_t)__builtin_ctzll(left);
                waits |= (t->claim_x >> k & 1 ? s->queue[k] : s->queue_x[k]) & before;
            }
            if (waits)
                REFUSE(10);
            if (t->failed) {
                t->copied = t->written = 0;
                t->phase = SECOND_RUN;
                t->runs++;
                kind = SECOND;
            } else {
                t->phase = COMMITTED;
                s->first_commits += t->runs == 1;
                s->second_commits += t->runs > 1;
                kind = DECIDED;
            }
            value = 0;
            break;
        }
        case 7: { /* APPLY n t */
            NEEDS(3);
            uint32_t n = at[1], number_t = at[2];
            if (n >= s->nodes || number_t >= MOST_SAVES)
                REFUSE(4);
            struct save *t = &s->save[number_t];
            if (t->phase != COMMITTED && t->phase != DROPPED)
                REFUSE(out_of_phase(t));
            /* A save dropped in its first run holds nothing, so the mask answers for it too. */
            uint64_t ours = t->held & s->owned[n];
            if (!ours)
                REFUSE(11);
            t->held ^= ours;
            remove_entries(s, number_t, ours);
            if (t->phase == COMMITTED)
                for (uint64_t left = ours & t->written; left; left &= left - 1) {
                    uint32_t k = (uint32_t)__builtin_ctzll(left), v = s->copy[number_t][k];
                    s->wct[k] += s->content[k] != v;
                    s->content[k] = v;
                }
            kind = ACCEPTED, value = 0;
            break;
        }
        case 8: { /* GIVE UP t */
            NEEDS(2);
            if (at[1] >= MOST_SAVES)
                REFUSE(4);
            struct save *t = &s->save[at[1]];
            if (t->phase != FIRST_RUN && t->phase != SECOND_RUN)
                REFUSE(out_of_phase(t));
            t->phase = DROPPED;
            kind = ACCEPTED, value = 0;
            break;
        }
        default:
            size = 1;
            REFUSE(2);
        }
        if (answers)
            answers[accepted] = code(kind, value, kind == INVALID ? rule_of(s, value) : 0);
    }
    s->accepted = accepted;
    {
        struct end end = { (uint32_t)length, 0, kind, value, kind == INVALID ? rule_of(s, value) : 0 };
        return end;
    }
cut:
    size = (uint32_t)(stop - at);
    number = 3;
refused:
    s->accepted = accepted;
    return refuse(session, at, size, number);
#undef NEEDS
#undef REFUSE
}

static __attribute__((noinline)) struct end run_unlisted(struct state *s, const uint8_t *session, size_t length)
{
    return run_listed(s, session, length, NULL);
}

static ALWAYS_INLINE struct end run(struct state *s, const uint8_t *session, size_t length)
{
    return start(s, session, length) ? run_unlisted(s, session, length) : refuse(session, session, 0, 1);
}

static inline uint8_t *put_number(uint8_t *to, uint32_t number)
{
    if (number < 10) {
        *to = (uint8_t)('0' + number);
        return to + 1;
    }
    uint8_t digits[10];
    int first = 10;
    do {
        digits[--first] = (uint8_t)('0' + number % 10);
        number /= 10;
    } while (number);
    while (first < 10)
        *to++ = digits[first++];
    return to;
}

static inline uint8_t *put_field(uint8_t *to, uint32_t number)
{
    *to++ = ' ';
    return put_number(to, number);
}

/* The saves with a place, by last place. The order is them where none is a former place; else as many stand before a save as have an
   earlier last place. */
static inline const uint8_t *rows_of(const struct state *s, uint8_t *row)
{
    if (!s->former)
        return s->order;
    for (uint32_t left = s->placed; left; left &= left - 1) {
        uint32_t number_t = (uint32_t)__builtin_ctz(left);
        row[__builtin_popcount(s->before[number_t])] = (uint8_t)number_t;
    }
    return row;
}

/* The report's lines but for that of a refusal. */
static ALWAYS_INLINE uint8_t *put_lines(const struct state *s, const uint8_t *row, uint8_t *to)
{
    for (uint32_t i = 0; i < s->places - s->former; i++) {
        const struct save *t = &s->save[row[i]];
        *to++ = 'P';
        to = put_field(to, row[i]);
        to = put_field(to, t->runs);
        *to++ = ' ';
        *to++ = t->phase == COMMITTED ? 'C' : t->phase == DROPPED ? 'D' : 'U';
        *to++ = '\n';
    }
    for (uint32_t k = 0; k < s->sheets; k++) {
        *to++ = 'O';
        to = put_field(to, k);
        to = put_field(to, s->content[k]);
        to = put_field(to, s->wct[k]);
        *to++ = '\n';
    }
    *to++ = 'T';
    to = put_field(to, s->accepted);
    to = put_field(to, s->first_commits);
    to = put_field(to, s->second_commits);
    *to++ = '\n';
    return to;
}

size_t plain_report(const uint8_t *session, size_t session_len, uint8_t *report, size_t report_len)
{
    if (report_len < LEAST_BUFFER)
        return 0;
    struct state s;
    struct end end = run(&s, session, session_len);
    if (end.kind == REFUSED && end.number == 1) {
        memcpy(report, "R 0 1\n", 6);
        return 6;
    }
    uint8_t by_place[MOST_SAVES], *to = put_lines(&s, rows_of(&s, by_place), report);
    if (end.kind == REFUSED) {
        *to++ = 'R';
        to = put_field(to, end.offset);
        to = put_field(to, end.number);
        *to++ = '\n';
    }
    return (size_t)(to - report);
}

uint64_t plain_answer(const uint8_t *session, size_t session_len)
{
    struct state s;
    struct end end = run(&s, session, session_len);
    return ((uint64_t)end.kind << 48) + ((uint64_t)end.value << 8) + end.number;
}

uint64_t plain_shown(const uint8_t *session, size_t session_len)
{
    struct state s;
    struct end end = run(&s, session, session_len);
    return ((uint64_t)end.offset << 32) + end.shown;
}

static inline uint64_t refusal(uint32_t number, size_t place)
{
    return code(REFUSED, place > UINT32_MAX ? UINT32_MAX : (uint32_t)place, number);
}

/* Written at once where the list has room for all that the session can have, else on a list of its own, to be copied where it fits. */
uint64_t plain_answers(const uint8_t *session, size_t session_len, uint64_t *answers, size_t answers_len)
{
    struct state s;
    uint64_t own[MOST_ANSWERS], *list = answers_len < MOST_ANSWERS && answers_len < session_len / 2 ? own : answers;
    if (!start(&s, session, session_len))
        return refusal(1, 0);
    struct end end = run_listed(&s, session, session_len, list);
    size_t listed = s.accepted + (end.kind == REFUSED);
    if (listed > answers_len)
        return refusal(15, listed);
    if (end.kind == REFUSED)
        list[s.accepted] = code(REFUSED, end.offset, end.number);
    if (list == own)
        memcpy(answers, own, listed * sizeof *own);
    return code(WRITTEN, (uint32_t)listed, 0);
}

/* The text of a state: its lines go one behind another, or, where only their length is asked for, one over another. */
struct text {
    uint8_t *line;
    size_t length;
    int kept;
};

static inline void end_line(struct text *x, uint8_t *to)
{
    *to++ = '\n';
    size_t length = (size_t)(to - x->line);
    x->length += length;
    x->line += x->kept ? length : 0;
}

static inline uint8_t *put_letter(uint8_t *to, char letter)
{
    *to++ = ' ';
    *to++ = (uint8_t)letter;
    return to;
}

/* A save's, a sheet's or a node's number: at most two figures. */
static inline uint8_t *put_short(uint8_t *to, uint32_t number)
{
    *to++ = ' ';
    if (number >= 10)
        *to++ = (uint8_t)('0' + number / 10);
    *to++ = (uint8_t)('0' + number % 10);
    return to;
}

static inline int is_wide(const struct save *t)
{
    return t->phase == SECOND_RUN && ((t->copied & ~t->claim) | (t->written & ~t->claim_x));
}

static inline void put_save(struct text *x, const struct state *s, uint32_t number_t)
{
    const struct save *t = &s->save[number_t];
    uint8_t *to = x->line;
    *to++ = 'S';
    to = put_short(to, number_t);
    to = put_letter(to, "-FLSCD"[t->phase]);
    to = put_field(to, t->runs);
    to = put_letter(to, t->failed ? 'F' : '-');
    to = put_letter(to, is_wide(t) ? 'W' : '-');
    to = s->placed >> number_t & 1 ? put_field(to, t->place) : put_letter(to, '-');
    end_line(x, to);
}

static inline void put_places(struct text *x, const struct state *s)
{
    for (uint32_t q = 0; q < s->places; q++) {
        uint8_t *to = x->line;
        *to++ = 'L';
        to = put_field(to, q);
        to = put_short(to, s->order[q]);
        to = put_letter(to, s->save[s->order[q]].place == q ? 'L' : 'F');
        end_line(x, to);
    }
    for (uint32_t n = 0; n < s->nodes; n++) {
        uint8_t *to = x->line;
        *to++ = 'N';
        to = put_short(to, n);
        to = put_field(to, s->taken[n]);
        end_line(x, to);
    }
}

/* The sheets that the save claims or has copies of. */
static inline void put_copies(struct text *x, const struct state *s, uint32_t number_t)
{
    const struct save *t = &s->save[number_t];
    for (uint64_t left = t->claim | t->copied; left; left &= left - 1) {
        uint32_t k = (uint32_t)__builtin_ctzll(left), seen = s->seen[number_t][k];
        uint8_t *to = x->line;
        *to++ = 'C';
        to = put_short(to, number_t);
        to = put_short(to, k);
        to = put_letter(to, t->claim_x >> k & 1 ? 'X' : t->claim >> k & 1 ? 'S' : '-');
        if (t->copied >> k & 1) {
            to = put_letter(to, t->written >> k & 1 ? 'W' : 'R');
            to = put_field(to, s->copy[number_t][k]);
            to = put_field(to, seen);
            to = put_letter(to, seen < s->wct[k] ? 'B' : '-');
        } else {
            to = put_letter(to, '-');
        }
        end_line(x, to);
    }
}

/* Saves, as they stand in a line. */
struct names {
    size_t length;
    uint8_t text[3 * MOST_SAVES];
};

static inline void add_name(struct names *names, const uint8_t *text, size_t length)
{
    memcpy(names->text + names->length, text, length);
    names->length += length;
}

/* The entries come by last place. What stands in an entry's way is all that came before it, or the X among them. */
static inline void put_queue(struct text *x, const struct state *s, uint32_t k, const uint8_t *row)
{
    struct names all, all_x;
    all.length = all_x.length = 0;
    for (uint32_t left = s->queue[k]; left; row++) {
        uint32_t here = (uint32_t)1 << *row, is_x = s->queue_x[k] & here;
        if (!(left & here))
            continue;
        left ^= here;
        const struct names *way = is_x ? &all : &all_x;
        uint8_t *to = x->line, *name;
        *to++ = 'Q';
        name = put_short(to, k);
        to = put_short(name, *row);
        size_t length = (size_t)(to - name);
        to = put_letter(to, is_x ? 'X' : 'S');
        to = put_letter(to, way->length ? 'W' : 'G');
        memcpy(to, way->text, way->length);
        to += way->length;
        add_name(&all, name, length);
        if (is_x)
            add_name(&all_x, name, length);
        end_line(x, to);
    }
}

/* The text, or only its length. The report's lines, at most some thousand bytes, are not measured line by line. */
static size_t put_state(const struct state *s, uint8_t *room, int kept)
{
    uint8_t report[LEAST_BUFFER], by_place[MOST_SAVES], line[LONGEST_LINE];
    const uint8_t *row = rows_of(s, by_place);
    uint8_t *front = kept ? room : report, *behind = put_lines(s, row, front);
    struct text x = { kept ? behind : line, (size_t)(behind - front), kept };
    for (uint32_t t = 0; t < MOST_SAVES; t++)
        if (s->save[t].phase != UNUSED)
            put_save(&x, s, t);
    put_places(&x, s);
    for (uint32_t t = 0; t < MOST_SAVES; t++)
        if (s->save[t].phase != UNUSED)
            put_copies(&x, s, t);
    for (uint32_t k = 0; k < s->sheets; k++)
        put_queue(&x, s, k, row);
    return x.length;
}

/* Measured first where the room may be too short. */
uint64_t plain_state(const uint8_t *session, size_t session_len, uint8_t *room, size_t room_len)
{
    struct state s;
    struct end end = run(&s, session, session_len);
    if (end.kind == REFUSED && end.number == 1)
        return refusal(1, 0);
    if (room_len < STATE_BYTES) {
        size_t needed = put_state(&s, room, 0);
        if (needed > room_len)
            return refusal(15, needed);
    }
    return code(WRITTEN, (uint32_t)put_state(&s, room, 1), 0);
}

/* A step is a command's number and three operands; by the number, the bytes of its command and the bits that its second and third
   operand can have. */
enum { STEP = 4, COMMANDS = 8, LONGEST = 7 };

static const uint8_t SIZE[COMMANDS + 1] = { 0, 2, 3, 7, 2, 2, 2, 3, 2 };

static const uint32_t MASK[COMMANDS + 1][2] = {
    { 0 }, { 0 }, { 255, 0 }, { 255, UINT32_MAX }, { 0 }, { 0 }, { 0 }, { 255, 0 }, { 0 },
};

/* The largest operands of each command; 0 where it has none, so that one test serves for all. */
struct ranges {
    uint32_t most[COMMANDS + 1][STEP - 1];
};

static inline struct ranges ranges_of(size_t nodes, size_t sheets)
{
    uint32_t t = MOST_SAVES - 1, k = (uint32_t)sheets - 1, n = (uint32_t)nodes - 1;
    struct ranges r = { {
        { 0 }, { t }, { t, k }, { t, k, UINT32_MAX }, { t }, { n }, { t }, { n, t }, { t },
    } };
    return r;
}

static inline int out_of_range(const struct ranges *r, const uint32_t *step)
{
    const uint32_t *most = r->most[step[0]];
    return (step[1] > most[0]) | (step[2] > most[1]) | (step[3] > most[2]);
}

static inline int unknown(uint32_t number) { return number - 1 >= COMMANDS; }

/* Puts a step's bytes. As many are written as the longest command has, for the next step writes over them; near the end they go by a
   copy, so that nothing is written there. */
static inline void put_step(uint8_t *to, const uint8_t *end, const uint32_t *step)
{
    uint8_t last[LONGEST], *bytes = end - to < LONGEST ? last : to;
    uint32_t v = step[3];
    bytes[0] = (uint8_t)step[0];
    bytes[1] = (uint8_t)step[1];
    bytes[2] = (uint8_t)step[2];
    bytes[3] = (uint8_t)(v >> 24), bytes[4] = (uint8_t)(v >> 16), bytes[5] = (uint8_t)(v >> 8), bytes[6] = (uint8_t)v;
    if (bytes == last)
        memcpy(to, last, SIZE[step[0]]);
}

uint64_t plain_write(size_t nodes, size_t sheets, const uint8_t *owners, size_t owners_len, const uint32_t *steps,
                     size_t steps_len, uint8_t *session, size_t session_len)
{
    if (owners_len != sheets || !good_header(nodes, sheets, owners))
        return refusal(1, 0);
    const struct ranges r = ranges_of(nodes, sheets);
    size_t total = 2 + sheets, count = steps_len / STEP;
    for (size_t i = 0; i < count; i++) {
        const uint32_t *step = steps + STEP * i;
        if (unknown(step[0]))
            return refusal(2, i);
        if (out_of_range(&r, step))
            return refusal(4, i);
        total += SIZE[step[0]];
    }
    if (steps_len % STEP)
        return refusal(unknown(steps[STEP * count]) ? 2 : 4, count);
    if (total > MOST_BYTES)
        return refusal(1, count);
    if (total > session_len)
        return refusal(15, total);

    uint8_t *to = session + 2 + sheets, *end = session + total;
    session[0] = (uint8_t)nodes;
    session[1] = (uint8_t)sheets;
    memcpy(session + 2, owners, sheets);
    for (; to < end; to += SIZE[steps[0]], steps += STEP)
        put_step(to, end, steps);
    return ((uint64_t)WRITTEN << 48) + ((uint64_t)total << 8);
}

/* Gets the words of a command that is known and whole. As many bytes are read as the longest has, near the end from a copy; the masks
   do without a branch on the command. */
static inline void get_step(uint32_t *step, const uint8_t *at, const uint8_t *stop)
{
    uint8_t last[LONGEST] = { 0 };
    const uint32_t *mask = MASK[at[0]];
    if (stop - at < LONGEST)
        at = memcpy(last, at, SIZE[at[0]]);
    step[0] = at[0];
    step[1] = at[1];
    step[2] = at[2] & mask[0];
    step[3] = ((uint32_t)at[3] << 24 | (uint32_t)at[4] << 16 | (uint32_t)at[5] << 8 | at[6]) & mask[1];
}

uint64_t plain_read(const uint8_t *session, size_t session_len, uint32_t *steps, size_t steps_len)
{
    size_t header = header_size(session, session_len), count = 0;
    if (!header)
        return refusal(1, 0);
    const struct ranges r = ranges_of(session[0], session[1]);
    const uint8_t *at = session + header, *stop = session + session_len;
    for (; at < stop; at += SIZE[at[0]], count++) {
        uint32_t step[STEP];
        if (unknown(at[0]))
            return refusal(2, (size_t)(at - session));
        if (stop - at < SIZE[at[0]])
            return refusal(3, (size_t)(at - session));
        get_step(step, at, stop);
        if (out_of_range(&r, step))
            return refusal(4, (size_t)(at - session));
    }
    if (steps_len / STEP < count)
        return refusal(15, count);

    for (at = session + header; at < stop; at += SIZE[at[0]], steps += STEP)
        get_step(steps, at, stop);
    uint64_t value = ((uint64_t)session[0] << 32) + ((uint64_t)session[1] << 16) + count;
    return ((uint64_t)LISTED << 48) + (value << 8);
}

uint64_t plain_owners(const uint8_t *session, size_t session_len)
{
    size_t header = header_size(session, session_len);
    return header ? ((uint64_t)2 << 32) + header - 2 : 0;
}
