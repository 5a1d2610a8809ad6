/* What the table of words says about a session's bytes. */
#ifndef VOCABULARY_H
#define VOCABULARY_H

#include "cusphewa.h"

/* Of a command with its byte; 0 for an unknown one. */
size_t command_size(uint8_t byte);

#endif
