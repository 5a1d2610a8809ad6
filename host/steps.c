/* Reads a session's bytes from standard input, or from the file named, and prints it in the words that `compose` takes: the header and all
   steps, also those behind a stop, as cusphewa_read and cusphewa_owners give them. */
#include "words.h"
#include <inttypes.h>

int main(int argc, char **argv)
{
    static uint8_t session[16385]; /* one byte more than a session may have: refusal 1 */
    static uint32_t steps[CUSPHEWA_MOST_STEPS * CUSPHEWA_STEP_WORDS];
    struct input in = open_input(argc, argv);
    size_t bytes = fread(session, 1, sizeof session, in.file);
    check_input(&in);
    uint64_t answer = cusphewa_read(session, bytes, steps, sizeof steps / sizeof *steps);
    if (CUSPHEWA_KIND(answer) != CUSPHEWA_LISTED)
        fail("refused at %" PRIu64 " with %u: %s", CUSPHEWA_VALUE(answer), CUSPHEWA_NUMBER(answer), reason(CUSPHEWA_NUMBER(answer)));
    const uint32_t *end = steps + CUSPHEWA_STEP_WORDS * (CUSPHEWA_VALUE(answer) & 0xffff);
    for (const uint32_t *step = steps; step < end; step += CUSPHEWA_STEP_WORDS)
        command_of(step); /* fails before anything is printed */
    print_header(session, bytes);
    for (const uint32_t *step = steps; step < end; step += CUSPHEWA_STEP_WORDS) {
        print_step(step);
        putchar('\n');
    }
    close_output();
    return 0;
}
