/* When a pool tries again to reach a server that went away, or that ends new streams since it is full.
 *
 * While the server is well each thread connects when it needs a stream. Once a stream was lost, or could not be had, one thread tries at a
 * time: at once at first, then 50 milliseconds after the last try, then after twice as long each time, up to a second. So it goes on until
 * a new stream has answered something. The other threads use the streams that live, or wait (turns.c). Times are those of
 * now_in_milliseconds(). */
#ifndef ICONVD_REDIAL_H
#define ICONVD_REDIAL_H

#include <pthread.h>
#include <stdatomic.h>
#include <stdbool.h>

/* Why a try failed: an errno, or one of these. */
enum { SERVER_CLOSES = -1, SERVER_SILENT = -2 };

struct redial {
    pthread_mutex_t mutex;  /* of what follows but `in_doubt`, which is written with it */
    atomic_bool in_doubt;   /* a stream was lost or could not be had, and no new one has answered since */
    bool trying;            /* a thread tries, and others wait for what becomes of it */
    unsigned failures;      /* tries one after another */
    long long next;         /* no try before that */
    int reason;             /* of the last failure */
};

/* What a thread that needs a new stream may do. */
enum permit {
    CONNECT, /* the server is well */
    TRY,     /* it is the one that tries: it ends that by redial_answered(), redial_failed() or redial_give_back() */
    NOT_NOW  /* another one tries, or it is too early */
};

void redial_begin(struct redial *redial);
void redial_end(struct redial *redial);

/* In a child: nobody waits or tries. */
void redial_renew(struct redial *redial);

/* Whether redial_ask() would say CONNECT or TRY now. */
bool redial_allows(struct redial *redial);

enum permit redial_ask(struct redial *redial);

/* A new stream has answered: the server is well. */
void redial_answered(struct redial *redial);

/* A stream that had answered was lost. */
void redial_doubt(struct redial *redial);

/* A stream could not be had. The next try is after a pause, of `most` milliseconds at most; with 0 it is made at once, since there is
   another address. Streams that fail before the next try count as one with the last. Returns whether it is the first failure. */
bool redial_failed(struct redial *redial, bool tried, int reason, int most);

/* A try has come to nothing, and says nothing about the server. */
void redial_give_back(struct redial *redial);

/* When the next try is; LLONG_MAX while another thread tries. */
long long redial_next(struct redial *redial);

/* The reason of the last failure; SERVER_SILENT where nothing has failed yet. */
int redial_reason(struct redial *redial);

/* A condition on which time is that of now_in_milliseconds(), and a wait until then, or for an hour if that is sooner. */
void timed_condition_begin(pthread_cond_t *condition);
void timed_condition_wait(pthread_cond_t *condition, pthread_mutex_t *mutex, long long until);

#endif
