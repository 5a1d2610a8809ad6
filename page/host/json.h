/* JSON text that grows. */
#ifndef JSON_H
#define JSON_H

#include <stdbool.h>
#include <stddef.h>
#include <stdint.h>

/* `lost` is set where there was no memory: what is put then goes nowhere, and the text is of no use. */
struct json {
    char *text;
    size_t length, room;
    bool lost;
};

/* Makes room for so many bytes more; null where there is none. */
char *json_room(struct json *j, size_t bytes);
void json_put(struct json *j, const char *format, ...) __attribute__((format(printf, 2, 3)));
/* These bytes as a string in quotes. */
void json_string(struct json *j, const char *bytes, size_t length);
/* Forgets what was put behind this length. */
void json_cut(struct json *j, size_t length);

#endif
