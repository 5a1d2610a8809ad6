/* A C host: reads a session from standard input, prints the report, and says on standard error what the call answered, if it is a refusal
   or a failed check. */
#include "cusphewa.h"
#include <stdio.h>

static const char *rule_name(unsigned rule)
{
    switch (rule) {
    case CUSPHEWA_X_GRANTED: return "X granted";
    case CUSPHEWA_X_WAITING: return "X waiting";
    case CUSPHEWA_COUNTER_BEHIND: return "counter behind";
    default: return "no rule";
    }
}

int main(void)
{
    static uint8_t session[16385]; /* one byte more than a session may have: refusal 1 */
    uint8_t report[CUSPHEWA_REPORT_BYTES];
    size_t n = fread(session, 1, sizeof session, stdin);
    size_t len = cusphewa_report(session, n, report, sizeof report);
    uint64_t answer = cusphewa_answer(session, n);
    fwrite(report, 1, len, stdout);
    if (CUSPHEWA_KIND(answer) == CUSPHEWA_REFUSED)
        fprintf(stderr, "refused at %u with %u\n", (unsigned)CUSPHEWA_VALUE(answer), CUSPHEWA_NUMBER(answer));
    if (CUSPHEWA_KIND(answer) == CUSPHEWA_TAKE_INVALID)
        fprintf(stderr, "save %u found invalid at sheet %u: %s\n", CUSPHEWA_SAVE(answer), CUSPHEWA_SHEET(answer),
                rule_name(CUSPHEWA_RULE(answer)));
    return len == 0;
}
