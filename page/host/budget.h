/* What one request may cost. No request asks for more work or memory than these allow, whatever its body is. */
#ifndef BUDGET_H
#define BUDGET_H

enum {
    SESSION_BYTES = 16384,             /* of a session */
    BODY_BYTES = SESSION_BYTES + 1,    /* one more is read, so that the engine itself says 1 */
    DRAWN_STEPS = 400,                 /* a session of more commands is not sent state by state: a state for each prefix is quadratic */
    DRAWN_BYTES = 1024 * 1024,         /* nor one whose states' texts are longer than this together */
    NEXT_COST = 8 * 1024 * 1024,       /* of the steps tried after a prefix: for each its bytes and CALL_COST */
    CALL_COST = 1024,                  /* what a call on a session without commands costs, counted in bytes */
    IN_FLIGHT_BYTES = 64 * 1024 * 1024, /* of all replies that are not sent yet: above it a request is told to come again */
    CONNECTIONS = 256,
    IDLE_SECONDS = 10,                 /* a client that neither sends nor takes is let go */
    CLIENT_SECONDS = 30                /* and so is one that does, byte by byte, for longer than this */
};

#endif
