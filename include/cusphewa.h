/* The commit engine's calls. Link with libcusphewa.a (host/library makes it). */
#ifndef CUSPHEWA_H
#define CUSPHEWA_H

#include <stddef.h>
#include <stdint.h>

#ifdef __cplusplus
extern "C" {
#endif

/* A report buffer has at least this many bytes. */
#define CUSPHEWA_REPORT_BYTES 4096

/* Writes the session's report to the front of `report` and returns its length. Bytes beyond the report stay as they are.
   A buffer under CUSPHEWA_REPORT_BYTES is refusal 12: it is left untouched, and 0 is returned. No report is empty, so 0 means
   nothing else. Any bytes are a session. Neither pointer may be null, also where a length is 0. The two do not overlap. */
size_t cusphewa_report(const uint8_t *session, size_t session_len, uint8_t *report, size_t report_len);

/* The answer of a call on the session, as kind * 2^48 + value * 2^8 + number; parts that a kind does not use are 0. The macros below take it
   apart. */
enum {
    CUSPHEWA_NO_COMMAND = 0,
    CUSPHEWA_ACCEPTED = 1,
    CUSPHEWA_CONTENT = 2,       /* READ: the content is the value */
    CUSPHEWA_TAKE_VALID = 3,    /* TAKE: the save is the value; also at a former place of it */
    CUSPHEWA_TAKE_INVALID = 4,  /* TAKE: the value is sheet * 2^16 + save, of the first cause; the number is its rule */
    CUSPHEWA_COMMITTED = 5,     /* DECIDE */
    CUSPHEWA_SECOND_RUN = 6,    /* DECIDE: the save runs again, for the second time or a later one */
    CUSPHEWA_REFUSED = 7,       /* the offset is the value, the refusal the number */
    CUSPHEWA_WRITTEN = 8,       /* cusphewa_write, cusphewa_state: the number of bytes is the value; cusphewa_answers: that of answers */
    CUSPHEWA_LISTED = 9         /* cusphewa_read: the value is nodes * 2^32 + sheets * 2^16 + steps */
};
uint64_t cusphewa_answer(const uint8_t *session, size_t session_len);

#define CUSPHEWA_KIND(answer) ((unsigned)((answer) >> 48))
#define CUSPHEWA_VALUE(answer) ((uint64_t)(answer) >> 8 & 0xffffffffff)
#define CUSPHEWA_NUMBER(answer) ((unsigned)((answer) & 0xff))

/* Of a TAKE: the save; where the node found it invalid, the sheet and the rule of the first cause that it met. */
#define CUSPHEWA_SAVE(answer) ((unsigned)((answer) >> 8 & 0xffff))
#define CUSPHEWA_SHEET(answer) ((unsigned)((answer) >> 24 & 0xffff))
#define CUSPHEWA_RULE(answer) CUSPHEWA_NUMBER(answer)

/* The rules. On one sheet the X comes before the counter. */
enum {
    CUSPHEWA_X_GRANTED = 1,     /* the front entry of the sheet's queue is an X */
    CUSPHEWA_X_WAITING = 2,     /* the queue holds an X, but not at its front */
    CUSPHEWA_COUNTER_BEHIND = 3 /* the queue holds no X, and the copy's write counter is below the sheet's */
};

/* The refusals, by number. 13, 14 and 5 tell a save that never began, one that is over (committed or dropped), and one between. */
enum {
    CUSPHEWA_BAD_SESSION = 1,       /* the header is short or out of range, or the session over 16,384 bytes */
    CUSPHEWA_UNKNOWN_COMMAND = 2,
    CUSPHEWA_CUT_SHORT = 3,         /* operands are missing */
    CUSPHEWA_OUT_OF_RANGE = 4,      /* no such save, node or sheet */
    CUSPHEWA_WRONG_PHASE = 5,       /* a save begun and not over, whose phase does not allow the command */
    CUSPHEWA_SHEET_HELD = 6,        /* first-run READ: an X is at the front of the sheet's queue */
    CUSPHEWA_NO_COPY = 7,           /* WRITE without a copy from this run */
    CUSPHEWA_OUTSIDE_CLAIM = 8,     /* never occurs any more: a later run may open another sheet */
    CUSPHEWA_NOTHING_TO_TAKE = 9,   /* TAKE: the node has taken every submitted save */
    CUSPHEWA_UNDECIDED = 10,        /* DECIDE: a concerned node has not taken the save, or an entry waits */
    CUSPHEWA_NO_ENTRY = 11,         /* APPLY: the save has no entry at the node */
    CUSPHEWA_SHORT_BUFFER = 12,     /* cusphewa_report returns 0; no answer has it */
    CUSPHEWA_NEVER_BEGAN = 13,      /* any command but BEGIN on an unused save */
    CUSPHEWA_IS_OVER = 14,          /* any command but APPLY on a committed or dropped save */
    CUSPHEWA_NO_ROOM = 15           /* cusphewa_write, cusphewa_read, cusphewa_answers, cusphewa_state: the room lent is too short */
};

/* The part of the session that is shown, as offset * 2^32 + size. */
uint64_t cusphewa_shown(const uint8_t *session, size_t session_len);

/* Writing and reading a session. A step is CUSPHEWA_STEP_WORDS words: the command's number, which is its byte, then its operands in the
   order of the table of commands; a word that the command has no operand for is 0. So WRITE 1 0 9 is { 3, 1, 0, 9 }, and APPLY 0 1 is
   { 7, 0, 1, 0 }. Lengths of steps count words. Pointers and overlap as above. */
#define CUSPHEWA_STEP_WORDS 4

/* No session has more steps than this. */
#define CUSPHEWA_MOST_STEPS 8190

/* Writes the session of this header and these steps to the front of `session`: CUSPHEWA_WRITTEN with its length. Bytes beyond it stay as
   they are. Otherwise CUSPHEWA_REFUSED, with the first of these, and nothing is written:
     1   a bad header: nodes, sheets and owners not as in a session, or owners_len not sheets; the value is 0
     2   an unknown command; the value is the step, from 0
     4   a bad operand, or a known command whose words are cut short at the end of `steps`; the value is the step
     1   over 16,384 bytes; the value is the number of steps
     15  `session` is too short; the value is the number of bytes that it needs
   A value above 4,294,967,295 is told as that number. */
uint64_t cusphewa_write(size_t nodes, size_t sheets, const uint8_t *owners, size_t owners_len, const uint32_t *steps, size_t steps_len,
                        uint8_t *session, size_t session_len);

/* Reads the header and all steps, also those behind a stop: CUSPHEWA_LISTED with the counts, and the steps at the front of `steps`. Words
   beyond them stay as they are. Otherwise CUSPHEWA_REFUSED, with the first of 1 to 4 that the bytes earn and its offset, then with
   15 and the number of steps where `steps` is too short, and nothing is written. */
uint64_t cusphewa_read(const uint8_t *session, size_t session_len, uint32_t *steps, size_t steps_len);

/* The owners, a byte for each sheet, are a part of the session: offset * 2^32 + size. 0 where the session earns 1. */
uint64_t cusphewa_owners(const uint8_t *session, size_t session_len);

/* No session has more answers than this. */
#define CUSPHEWA_MOST_ANSWERS 8191

/* Every command's answer: CUSPHEWA_WRITTEN with their count, and the answers at the front of `answers`, one for each command up to and with
   the first refused one. Each is what cusphewa_answer gives for the session cut behind its command: so the kinds are those from
   CUSPHEWA_ACCEPTED to CUSPHEWA_SECOND_RUN, and the last one of a stopped session is its refusal. A session without commands has none.
   What stands beyond them stays as it is. Otherwise CUSPHEWA_REFUSED, with the first of these, and nothing is written:
     1   the session earns it; the value is 0
     15  `answers` is too short; the value is the number of answers
   Pointers and overlap as above. */
uint64_t cusphewa_answers(const uint8_t *session, size_t session_len, uint64_t *answers, size_t answers_len);

/* No state's text is longer than this. */
#define CUSPHEWA_STATE_BYTES 524288

/* Writes the state after the accepted commands, as text, to the front of `room`: CUSPHEWA_WRITTEN with its length. Bytes beyond it stay as
   they are. Lines end in 0A; decimal figures without leading zeros, one blank between fields. In this order:
     P t r o, O k v w, T a f s   the report's lines, never R
     S t p r f w q       a save that has begun: its phase (F first run, S submitted, L a later run, C committed, D dropped), the runs
                         entered, F where it is marked failed, W where it is in a wide run, its last place in the order, from 0
     L q t x             a place of the order: its save, and L where it is the save's last, F where it is a former one
     N n q               a node: how many places it has taken
     C t k c m v w b     a save's claim on a sheet, S or X, and its copy: R read or W also written, the content, the write counter seen,
                         and B where this is behind the sheet's; without a copy the line ends with the - for it
     Q k t c g u ..      an entry of a sheet's queue, from the front: its save, S or X, G granted or W waiting; behind a W the saves whose
                         entries stand in its way, from the front
   S and C go by save, C then by sheet, as Q does; a - stands for what there is none of. Otherwise CUSPHEWA_REFUSED, with the first of
   these, and nothing is written:
     1   the session earns it; the value is 0
     15  `room` is too short; the value is the number of bytes that it needs
   Pointers and overlap as above. */
uint64_t cusphewa_state(const uint8_t *session, size_t session_len, uint8_t *room, size_t room_len);

#ifdef __cplusplus
}
#endif

#endif
