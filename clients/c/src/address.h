/* Addresses of a service, and how a connection to one is made. */
#ifndef ICONVD_ADDRESS_H
#define ICONVD_ADDRESS_H

#include <stdbool.h>

#include "../iconvd.h"

struct stream;

enum address_kind { ADDRESS_EXEC, ADDRESS_UNIX, ADDRESS_TCP };

/* Everything is copied: a host may change its environment, and the strings that getenv() gave. */
struct address {
    enum address_kind kind;
    char *where;        /* as it was written, for messages */
    char *text;         /* the words, the path, or the host; argv, host and port point into it */
    char *program;      /* exec: the file, found by PATH; empty: there is none */
    char **argv;        /* exec: ended by NULL */
    char **environment; /* exec: a copy without LD_PRELOAD, ended by NULL */
    const char *port;   /* tcp: */
};

iconvd_status address_read(struct address *address, const char *where);
void address_free(struct address *address);

/* Connects a stream, by its time limit. False: errno says why. */
bool address_connect(const struct address *address, struct stream *stream);

/* Writes why address_connect() failed with an errno: "exec:iconvd pipe: the program iconvd was not found in PATH". */
void address_explain(const struct address *address, int error, char *text, size_t room);

/* spawn.c: starts the program of an exec: address. A connected socket, or -1 with errno. */
int spawn_connected(const struct address *address);

/* Why this process starts no programs; NULL: it does. */
const char *spawn_refused(void);

#endif
