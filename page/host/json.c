#include "json.h"
#include <stdarg.h>
#include <stdio.h>
#include <stdlib.h>

char *json_room(struct json *j, size_t bytes)
{
    if (j->lost)
        return NULL;
    if (j->room - j->length < bytes) {
        size_t room = 2 * j->room + bytes + 4096;
        char *text = realloc(j->text, room);
        if (!text) {
            j->lost = true;
            return NULL;
        }
        j->text = text;
        j->room = room;
    }
    return j->text + j->length;
}

void json_put(struct json *j, const char *format, ...)
{
    va_list args;
    va_start(args, format);
    int length = vsnprintf(NULL, 0, format, args);
    va_end(args);
    char *at = length < 0 ? NULL : json_room(j, (size_t)length + 1);
    if (!at)
        return;
    va_start(args, format);
    vsnprintf(at, (size_t)length + 1, format, args);
    va_end(args);
    j->length += (size_t)length;
}

/* At most six characters come of one byte. */
static size_t escape(char *at, unsigned char byte)
{
    if (byte == '\n')
        return (size_t)snprintf(at, 7, "\\n");
    if (byte == '"' || byte == '\\')
        return (size_t)snprintf(at, 7, "\\%c", byte);
    if (byte < 0x20)
        return (size_t)snprintf(at, 7, "\\u%04x", byte);
    *at = (char)byte;
    return 1;
}

void json_string(struct json *j, const char *bytes, size_t length)
{
    char *at = json_room(j, 6 * length + 3);
    if (!at)
        return;
    char *end = at;
    *end++ = '"';
    for (size_t i = 0; i < length; i++)
        end += escape(end, (unsigned char)bytes[i]);
    *end++ = '"';
    j->length += (size_t)(end - at);
}

void json_cut(struct json *j, size_t length)
{
    j->length = length;
}
