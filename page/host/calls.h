/* What the engine's calls say, as JSON. No rule of the protocol is here. */
#ifndef CALLS_H
#define CALLS_H

#include "json.h"

/* False where this host and its library do not agree on the commands' sizes. */
bool commands_fit(void);

/* The commands, their numbers and their operands with their widths. */
void put_words(struct json *j);

/* All of a session: its header, every command's answer, the report, the part shown, and the states if they keep to the budget. */
void put_session(struct json *j, const uint8_t *session, size_t length);

/* The state after a session, the one before its last command, and the steps that may come next with the engine's answers. */
void put_state(struct json *j, const uint8_t *session, size_t length);

#endif
