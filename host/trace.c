/* Reads a session's bytes from standard input, or from the file named, and prints it in words with every command's answer behind it, as a comment:
   what it prints composes to the part of the session that is accepted. The answers are cusphewa_answers', the steps cusphewa_read's. */
#include "words.h"
#include <inttypes.h>
#include <stdbool.h>

/* As the program `answer` says it. */
static void print_answer(uint64_t a)
{
    static const char *const rules[] = {"", "granted", "waiting", "behind"};
    switch (CUSPHEWA_KIND(a)) {
    case CUSPHEWA_ACCEPTED: fputs("accepted", stdout); break;
    case CUSPHEWA_CONTENT: printf("content %" PRIu64, CUSPHEWA_VALUE(a)); break;
    case CUSPHEWA_TAKE_VALID: printf("take %u valid", CUSPHEWA_SAVE(a)); break;
    case CUSPHEWA_TAKE_INVALID: printf("take %u invalid %u %s", CUSPHEWA_SAVE(a), CUSPHEWA_SHEET(a), rules[CUSPHEWA_RULE(a) & 3]); break;
    case CUSPHEWA_COMMITTED: fputs("decide committed", stdout); break;
    case CUSPHEWA_SECOND_RUN: fputs("decide second run", stdout); break;
    case CUSPHEWA_REFUSED: printf("refused %" PRIu64 " %u", CUSPHEWA_VALUE(a), CUSPHEWA_NUMBER(a)); break;
    default: fail("internal error: answer %" PRIu64 " of a command", a);
    }
}

/* The refused command has no words where its bytes can't be read: they are shown. */
static void print_refused(const uint8_t *session, size_t bytes, uint64_t answer)
{
    uint64_t part = cusphewa_shown(session, bytes);
    const uint8_t *shown = session + (part >> 32);
    fputs("# ", stdout);
    print_answer(answer);
    putchar(':');
    for (size_t i = 0; i < (part & 0xffffffff); i++)
        printf(" %02X", shown[i]);
    putchar('\n');
}

int main(int argc, char **argv)
{
    static uint8_t session[16385]; /* one byte more than a session may have: refusal 1 */
    static uint64_t answers[CUSPHEWA_MOST_ANSWERS];
    static uint32_t steps[CUSPHEWA_MOST_STEPS * CUSPHEWA_STEP_WORDS];
    struct input in = open_input(argc, argv);
    size_t bytes = fread(session, 1, sizeof session, in.file);
    check_input(&in);
    uint64_t told = cusphewa_answers(session, bytes, answers, CUSPHEWA_MOST_ANSWERS);
    if (CUSPHEWA_KIND(told) != CUSPHEWA_WRITTEN)
        fail("refused at %" PRIu64 " with %u: %s", CUSPHEWA_VALUE(told), CUSPHEWA_NUMBER(told), reason(CUSPHEWA_NUMBER(told)));
    size_t count = (size_t)CUSPHEWA_VALUE(told);
    bool stopped = count > 0 && CUSPHEWA_KIND(answers[count - 1]) == CUSPHEWA_REFUSED;
    size_t accepted = stopped ? (size_t)CUSPHEWA_VALUE(answers[count - 1]) : bytes;
    uint64_t listed = cusphewa_read(session, accepted, steps, sizeof steps / sizeof *steps);
    if (CUSPHEWA_KIND(listed) != CUSPHEWA_LISTED || (CUSPHEWA_VALUE(listed) & 0xffff) != count - stopped)
        fail("internal error: accepted steps that cannot be read");
    print_header(session, bytes);
    for (size_t i = 0; i < count - stopped; i++) {
        print_step(steps + CUSPHEWA_STEP_WORDS * i);
        fputs("  # ", stdout);
        print_answer(answers[i]);
        putchar('\n');
    }
    if (stopped)
        print_refused(session, bytes, answers[count - 1]);
    close_output();
    return 0;
}
