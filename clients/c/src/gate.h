/* Lets fork() wait for no service.
 *
 * A thread is inside the gate while it changes what a child reads: which streams there are, and what their servers hold. It is outside
 * while it waits for a service. fork() closes the gate, waits until nobody is inside, which takes microseconds, and opens it again. So
 * it neither waits for a service that is stopped, nor for its turn among threads that convert without a pause. */
#ifndef ICONVD_GATE_H
#define ICONVD_GATE_H

#include <pthread.h>
#include <stdatomic.h>
#include <stdbool.h>

struct gate {
    atomic_bool closed;
    struct pass *passes;
    pthread_mutex_t forking; /* held from before a fork() until after it */
    pthread_mutex_t mutex;   /* of `left` */
    pthread_cond_t left;     /* somebody is outside now, while the gate is closed */
};

/* What one thread at a time goes in and out with. */
struct pass {
    struct gate *gate; /* NULL: there is none to go through */
    struct pass *next;
    atomic_bool inside;
};

void gate_begin(struct gate *gate);
void gate_end(struct gate *gate);

/* Adds a pass, before any thread uses the gate. */
void gate_add(struct gate *gate, struct pass *pass);

/* Goes in, after a fork() that is under way; goes out. */
void gate_enter(struct pass *pass);
void gate_leave(struct pass *pass);

/* Closes the gate and waits until nobody is inside; opens it again, in the parent. */
void gate_close(struct gate *gate);
void gate_open(struct gate *gate);

/* In a child, which has none of the threads that were at the gate: it is as at its beginning. */
void gate_renew(struct gate *gate);

#endif
