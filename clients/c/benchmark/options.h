/* What the command line says. */
#ifndef BENCHMARK_OPTIONS_H
#define BENCHMARK_OPTIONS_H

#include <stdbool.h>
#include <stddef.h>
#include <stdint.h>

/* What a client asks for, again and again. */
enum kind { KIND_CONV, KIND_OPEN, KIND_RESET, KIND_UPLOAD, KIND_PING, KIND_COUNT };

extern const char *const KIND_NAMES[KIND_COUNT];

enum { MAX_SIZES = 8 };

struct options {
    const char *where;
    const char *from;
    const char *to;
    const char *text;           /* a name of text.c, or a file */
    unsigned shares[KIND_COUNT]; /* of the mix; 0: not in it */
    size_t sizes[MAX_SIZES];    /* bytes of text in a CONV */
    size_t size_count;
    unsigned mappings;          /* of the charmap that is uploaded */
    unsigned streams;
    unsigned callers;           /* on each stream */
    unsigned depth;             /* requests under way on each stream */
    unsigned threads;
    uint64_t keep;              /* requests after which a stream is closed and another opened */
    uint64_t requests;
    double seconds;             /* above 0: in place of a number of requests */
    int timeout;                /* for a connection, and for a reply, in milliseconds */
    bool strict;
    bool verify;
    bool json;
    bool csv;
};

/* Reads the command line. It prints and exits for --help, --version and faults (status 2). */
void options_read(struct options *options, int count, char **words);

/* Ends the program: a line `iconvd-benchmark: TEXT` and the status. */
__attribute__((format(printf, 2, 3), noreturn)) void give_up(int status, const char *format, ...);

#endif
