/* A thread that keeps its streams busy. */
#ifndef BENCHMARK_WORKER_H
#define BENCHMARK_WORKER_H

#include <pthread.h>

#include "client.h"

struct worker {
    struct course course;
    struct client *clients;
    size_t client_count;
    int poll;                  /* an epoll descriptor */
    unsigned failures;         /* streams one after another that could not be connected, or ended before they were open */
    uint64_t retry_at;         /* no stream is connected before that */
    uint64_t next_look;        /* when it looks after what no event tells */
    uint64_t published;        /* the last reply that other threads know of, */
    uint64_t answered;         /* and how many requests, */
    uint64_t errors;           /* and errors */
    pthread_barrier_t *opened; /* all streams of all threads are open */
    uint64_t end;              /* when the last request was answered, or given up */
    pthread_t thread;
};

/* Makes the worker's clients; `first` is the number of the first among all. */
void worker_begin(struct worker *worker, size_t first);

/* The thread: opens its streams, waits for the other threads, asks until nothing is left to ask, and reads all replies. */
void *worker_run(void *worker);

void worker_end(struct worker *worker);

#endif
