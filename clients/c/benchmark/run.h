/* What all threads share. */
#ifndef BENCHMARK_RUN_H
#define BENCHMARK_RUN_H

#include <stdalign.h>
#include <stdatomic.h>
#include <stdbool.h>
#include <stdint.h>

/* Times are nanoseconds of a clock that is never set back. */
struct run {
    alignas(64) _Atomic int64_t left; /* requests that are still to be asked */
    alignas(64) _Atomic uint64_t heard; /* when the last reply was read that shows that the server serves */
    _Atomic bool is_away;             /* no stream can be opened, and no reply has been read since */
    _Atomic uint64_t away;            /* how long it was so, each time from the last reply to the next one */
    _Atomic uint64_t begin;           /* when the first request was asked; 0: not all streams are open */
    _Atomic uint64_t processor;       /* how long this program had used processors then */
    _Atomic unsigned opened;          /* streams that are open, as far as is known */
    _Atomic uint64_t answered;        /* requests, a moment ago */
    _Atomic uint64_t errors;
};

uint64_t now_in_nanoseconds(void);

/* How long this program has used processors. */
uint64_t processor_nanoseconds(void);

/* Whether `limit` nanoseconds have passed since then. Another thread may have written a time that is a little later than `now`. */
static inline bool has_passed(uint64_t now, uint64_t since, uint64_t limit) {
    return now > since && now - since >= limit;
}

/* A reply was read at `now`: the server serves, and if it was away, it has come back. */
void run_heard(struct run *run, uint64_t now);

#endif
