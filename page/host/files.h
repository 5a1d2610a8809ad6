/* The page's files and the examples, which the build puts into the program. */
#ifndef FILES_H
#define FILES_H

#include <stddef.h>

struct file {
    const char *path, *type;
    const unsigned char *bytes;
    size_t length;
};

extern const struct file files[];
extern const size_t file_count;

#endif
