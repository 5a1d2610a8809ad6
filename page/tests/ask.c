/* Sessions from standard input, each a 4-byte length and its bytes; of each the library's own words on standard output: report, state, answers and
   the part shown, each with its 4-byte length. The tests hold the host and the page against these. */
#include "cusphewa.h"
#include <stdio.h>

static uint8_t session[16400], room[CUSPHEWA_STATE_BYTES];
static uint64_t answers[CUSPHEWA_MOST_ANSWERS];

static void put(const void *bytes, uint64_t length)
{
    uint32_t n = (uint32_t)length;
    fwrite(&n, sizeof n, 1, stdout);
    fwrite(bytes, 1, n, stdout);
}

static uint64_t written(uint64_t answer)
{
    return CUSPHEWA_KIND(answer) == CUSPHEWA_WRITTEN ? CUSPHEWA_VALUE(answer) : 0;
}

int main(void)
{
    uint32_t length;
    while (fread(&length, sizeof length, 1, stdin) == 1 && length <= sizeof session && fread(session, 1, length, stdin) == length) {
        put(room, cusphewa_report(session, length, room, sizeof room));
        put(room, written(cusphewa_state(session, length, room, sizeof room)));
        put(answers, sizeof *answers * written(cusphewa_answers(session, length, answers, CUSPHEWA_MOST_ANSWERS)));
        answers[0] = cusphewa_answer(session, length);
        answers[1] = cusphewa_shown(session, length);
        put(answers, 2 * sizeof *answers);
        fflush(stdout);
    }
    return 0;
}
