/* Reads a session's bytes from standard input, or from the file named, and prints the state after its accepted commands, as cusphewa_state
   writes it. */
#include "words.h"
#include <inttypes.h>

int main(int argc, char **argv)
{
    static uint8_t session[16385]; /* one byte more than a session may have: refusal 1 */
    static uint8_t text[CUSPHEWA_STATE_BYTES];
    struct input in = open_input(argc, argv);
    size_t bytes = fread(session, 1, sizeof session, in.file);
    check_input(&in);
    uint64_t answer = cusphewa_state(session, bytes, text, sizeof text);
    if (CUSPHEWA_KIND(answer) != CUSPHEWA_WRITTEN)
        fail("refused at %" PRIu64 " with %u: %s", CUSPHEWA_VALUE(answer), CUSPHEWA_NUMBER(answer), reason(CUSPHEWA_NUMBER(answer)));
    fwrite(text, 1, (size_t)CUSPHEWA_VALUE(answer), stdout);
    close_output();
    return 0;
}
