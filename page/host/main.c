/* The course page's host: host [PORT] [--listen ADDRESS]. It keeps nothing between requests. */
#include "calls.h"
#include "http.h"
#include <pthread.h>
#include <signal.h>
#include <stdio.h>
#include <stdlib.h>
#include <string.h>
#include <time.h>

enum { PORT = 8470 };

struct arguments {
    const char *address;
    uint16_t port;
};

static bool read_port(const char *word, uint16_t *port)
{
    char *end;
    unsigned long number = strtoul(word, &end, 10);
    *port = (uint16_t)number;
    return word[0] >= '0' && word[0] <= '9' && *end == 0 && number <= UINT16_MAX;
}

static bool read_arguments(struct arguments *a, int argc, char **argv)
{
    for (int i = 1; i < argc; i++) {
        if (strcmp(argv[i], "--listen") == 0 && i + 1 < argc)
            a->address = argv[++i];
        else if (!read_port(argv[i], &a->port))
            return false;
    }
    return true;
}

int main(int argc, char **argv)
{
    struct arguments a = {"127.0.0.1", PORT};
    if (!read_arguments(&a, argc, argv)) {
        fprintf(stderr, "usage: %s [PORT] [--listen ADDRESS]\n", argv[0]);
        return 2;
    }
    if (strcmp(a.address, "0.0.0.0") == 0) {
        fprintf(stderr, "name the address that browsers will ask for: a request for another name is not answered\n");
        return 2;
    }
    if (!commands_fit()) {
        fprintf(stderr, "the library's commands are not those of this host\n");
        return 1;
    }
    sigset_t ends;
    sigemptyset(&ends);
    sigaddset(&ends, SIGINT);
    sigaddset(&ends, SIGTERM);
    pthread_sigmask(SIG_BLOCK, &ends, NULL); /* before the other thread starts, which takes it over */
    uint16_t port = http_start(a.address, a.port);
    if (port == 0) {
        fprintf(stderr, "cannot listen at %s, port %u: another program has it, or it is no IPv4 address of this machine\n", a.address, a.port);
        return 1;
    }
    printf("http://%s:%u/\n", a.address, port);
    fflush(stdout);
    const struct timespec second = {1, 0};
    while (sigtimedwait(&ends, NULL, &second) < 0)
        http_sweep();
    http_stop();
    return 0;
}
