/* The streams of a process to one service. */
#ifndef ICONVD_POOL_H
#define ICONVD_POOL_H

#include "redial.h"
#include "remote.h"

enum { MOST_STREAMS = 16, LEAST_USUAL_STREAMS = 4, USUAL_TIMEOUT = 10000 };

/* FRESH: a new stream that has not answered; ON_TRIAL: the same, and others wait for what becomes of it; LIVE: it has answered. */
enum slot_state { UNCONNECTED, FRESH, ON_TRIAL, LIVE };

/* A stream with what its server holds. Everything is under the mutex, and is changed inside the gate. */
struct slot {
    pthread_mutex_t mutex;
    atomic_uint wanted; /* how many threads wait for this one and no other */
    struct stream stream;
    enum slot_state state;
    struct remote remote;
    uint64_t generation; /* counts up whenever the stream is lost, so that a descriptor of its own knows that it is gone */
};

/* A text whose conversion takes long does not have the last stream. */
enum text { SHORT_TEXT, LONG_TEXT };

/* Threads that wait for any stream, the first one first. */
struct line {
    struct turn *first, *last;
    atomic_llong since; /* when the first one came; 0: nobody waits */
};

struct iconvd_pool {
    struct gate gate;
    struct address address;
    int timeout;
    void (*log)(void *context, const char *line);
    void *context;
    struct encodings encodings;
    size_t slot_count;
    struct slot slots[MOST_STREAMS];
    void *page;               /* which the kernel zeroes in a child; NULL: it cannot */
    atomic_int *alive;        /* on that page */
    atomic_llong down_until;  /* no connection is tried before this time */
    bool waits;               /* calls wait for a server that went away: without, they fail at once, since the C library can convert */
    atomic_bool reached;      /* a server has taken a connection, and is no program that is started for each */
    struct redial redial;
    atomic_uint turn;         /* of the host's addresses */
    atomic_int live;          /* how many slots are */
    atomic_int silent;        /* how many connections in a row have ended without any answer */
    pthread_mutex_t known_mutex;
    struct pair *known;       /* pairs that the service has opened once */
    size_t known_count;
    atomic_uint next_pick;    /* which slot the next descriptor that is not shared is on when all are in use */
    pthread_mutex_t lines_mutex;
    struct line lines[LONG_TEXT + 1];
    atomic_uint waiting;      /* in both lines */
    atomic_ullong conversions, round_trips, connections, uploads;
};

/* The C library's iconv() is no cancellation point. A thread that were cancelled in a system call here would leave a mutex locked. */
static inline int cancelling_off(void) {
    int before;
    pthread_setcancelstate(PTHREAD_CANCEL_DISABLE, &before);
    return before;
}

static inline void cancelling_as(int before) {
    pthread_setcancelstate(before, NULL);
}

/* A pool that has not connected yet. ENOMEM, BADADDRESS. */
iconvd_status pool_begin(const char *where, const iconvd_options *options, struct iconvd_pool **pool);

/* Writes a line to the log, if there is one. */
__attribute__((format(printf, 2, 3))) void pool_log(const struct iconvd_pool *pool, const char *format, ...);

/* The encoding of a name that name_parse() has taken apart (missing.c). A charmap that cannot be read is UNSUPPORTED, and a line in the
   log says why. */
iconvd_status pool_find(struct iconvd_pool *pool, const char *name, struct encoding **found);

/* Whether the service opens the pair. It is asked once. */
iconvd_status pool_open(struct iconvd_pool *pool, const struct pair *pair);

/* Converts one piece by the shared descriptor of a pair, on any stream. A lost stream costs two more tries; a server that went away, or is
   full, is waited for. */
iconvd_status pool_convert(struct iconvd_pool *pool, const struct pair *pair, struct work *work);

/* The same, but by the charmaps alone: what a client computes (computed.c) is no character to it. */
iconvd_status pool_convert_mapped(struct iconvd_pool *pool, const struct pair *pair, struct work *work);

/* The same for several pieces, one behind the other, until one stops. */
iconvd_status pool_convert_batch(struct iconvd_pool *pool, const struct pair *pair, struct batch *batch);

/* turns.c */

/* A slot for a descriptor that is not shared: the first that nobody uses now, so that a process of one thread has one connection. */
struct slot *pool_pick(struct iconvd_pool *pool);

/* A slot for a pair, locked: a free one, else the first that becomes free, after those threads that have waited longer. One that is not
   connected is free when the server may be tried. NULL: no stream lived, and no try was due, until `end`; the log says why. */
struct slot *pool_take(struct iconvd_pool *pool, const struct pair *pair, enum text text, long long end);

/* Locks one slot. */
void slot_lock(struct slot *slot);

/* Locks a slot, unless somebody uses it or waits for it. */
bool slot_try(struct slot *slot);

void slot_unlock(struct iconvd_pool *pool, struct slot *slot);

/* In a child: none of the threads that waited is there. */
void turns_renew(struct iconvd_pool *pool);

/* tries.c */

/* A call's tries to have a stream that answers. */
struct tries {
    long long end; /* when its time is up */
    unsigned lost; /* how many streams it has lost */
    enum { NEVER, AT_ONCE, LATER } next; /* when it tries again, after a try without one */
};

struct tries tries_begin(const struct iconvd_pool *pool);

/* Makes a slot that is locked ready for requests: in a child, after the host closed the descriptor, or after a loss it is connected
   anew. False: it cannot be, or not now. */
bool slot_ready(struct iconvd_pool *pool, struct slot *slot, struct tries *tries);

/* Closes a stream, and forgets what its server holds. */
void slot_reset(struct iconvd_pool *pool, struct slot *slot);

/* Gives a lost stream up, with a line in the log. */
void slot_lose(struct iconvd_pool *pool, struct slot *slot, struct tries *tries);

/* Notes that a new stream has answered. */
void slot_settle(struct iconvd_pool *pool, struct slot *slot);

/* Says why a call that has waited ends without a stream. */
void tries_over(struct iconvd_pool *pool);

/* Logs a refused charmap, and counts uploads. */
void pool_note(struct iconvd_pool *pool, struct refusal *refusal);

/* fork.c: the first thing that every call of the library does. In a child it makes the pool usable again. */
bool fork_begin(struct iconvd_pool *pool);
void fork_end(struct iconvd_pool *pool);
void fork_check(struct iconvd_pool *pool);

#endif
