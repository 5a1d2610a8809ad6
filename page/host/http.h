/* The requests: what is let in, and what it is answered. */
#ifndef HTTP_H
#define HTTP_H

#include <stdbool.h>
#include <stdint.h>

/* Listens at this IPv4 address; port 0 takes a free one. Gives back the port, or 0 where it can't. */
uint16_t http_start(const char *address, uint16_t port);
/* Lets go who has been here for too long; to be called every now and then. */
void http_sweep(void);
void http_stop(void);

#endif
