/* What all threads share. */
#include "run.h"

#include <time.h>

static uint64_t nanoseconds_of(clockid_t clock) {
    struct timespec now;
    clock_gettime(clock, &now);
    return (uint64_t)now.tv_sec * 1000000000u + (uint64_t)now.tv_nsec;
}

uint64_t now_in_nanoseconds(void) {
    return nanoseconds_of(CLOCK_MONOTONIC);
}

uint64_t processor_nanoseconds(void) {
    return nanoseconds_of(CLOCK_PROCESS_CPUTIME_ID);
}

void run_heard(struct run *run, uint64_t now) {
    uint64_t last = run->heard;
    if (run->is_away && atomic_exchange(&run->is_away, false) && now > last)
        run->away += now - last;
    run->heard = now;
}
