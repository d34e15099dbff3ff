/* When a pool tries again. */
#include "redial.h"

#include <limits.h>
#include <time.h>

#include "transfer.h"

/* Milliseconds between two tries. */
enum { FIRST_PAUSE = 50, MOST_PAUSE = 1000, HOUR = 3600000 };

void timed_condition_begin(pthread_cond_t *condition) {
    pthread_condattr_t attributes;
    pthread_condattr_init(&attributes);
    pthread_condattr_setclock(&attributes, CLOCK_MONOTONIC);
    pthread_cond_init(condition, &attributes);
    pthread_condattr_destroy(&attributes);
}

void timed_condition_wait(pthread_cond_t *condition, pthread_mutex_t *mutex, long long until) {
    long long hour = now_in_milliseconds() + HOUR, time = until < hour ? until : hour;
    struct timespec at = {.tv_sec = (time_t)(time / 1000), .tv_nsec = (long)(time % 1000) * 1000000};
    pthread_cond_timedwait(condition, mutex, &at);
}

void redial_begin(struct redial *redial) {
    pthread_mutex_init(&redial->mutex, NULL);
}

void redial_end(struct redial *redial) {
    pthread_mutex_destroy(&redial->mutex);
}

void redial_renew(struct redial *redial) {
    redial_begin(redial);
    atomic_store(&redial->in_doubt, false);
    redial->trying = false;
    redial->failures = 0;
    redial->next = 0;
    redial->reason = 0;
}

/* What it says now. It is locked. */
static enum permit permit_now(const struct redial *redial) {
    if (!atomic_load(&redial->in_doubt))
        return CONNECT;
    return !redial->trying && now_in_milliseconds() >= redial->next ? TRY : NOT_NOW;
}

bool redial_allows(struct redial *redial) {
    if (!atomic_load(&redial->in_doubt))
        return true;
    pthread_mutex_lock(&redial->mutex);
    enum permit permit = permit_now(redial);
    pthread_mutex_unlock(&redial->mutex);
    return permit != NOT_NOW;
}

enum permit redial_ask(struct redial *redial) {
    pthread_mutex_lock(&redial->mutex);
    enum permit permit = permit_now(redial);
    redial->trying |= permit == TRY;
    pthread_mutex_unlock(&redial->mutex);
    return permit;
}

void redial_answered(struct redial *redial) {
    pthread_mutex_lock(&redial->mutex);
    atomic_store(&redial->in_doubt, false);
    redial->trying = false;
    redial->failures = 0;
    redial->next = 0;
    redial->reason = 0;
    pthread_mutex_unlock(&redial->mutex);
}

void redial_doubt(struct redial *redial) {
    pthread_mutex_lock(&redial->mutex);
    atomic_store(&redial->in_doubt, true);
    pthread_mutex_unlock(&redial->mutex);
}

bool redial_failed(struct redial *redial, bool tried, int reason, int most) {
    long long now = now_in_milliseconds(), pause = FIRST_PAUSE;
    pthread_mutex_lock(&redial->mutex);
    bool counts = most > 0 && now >= redial->next, first = counts && redial->failures == 0;
    if (counts) {
        for (unsigned i = 0; i < redial->failures && pause < MOST_PAUSE; i++)
            pause *= 2;
        pause = pause < MOST_PAUSE ? pause : MOST_PAUSE;
        redial->failures++;
        redial->next = now + (pause < most ? pause : most);
    }
    atomic_store(&redial->in_doubt, true);
    redial->reason = reason;
    redial->trying &= !tried;
    pthread_mutex_unlock(&redial->mutex);
    return first;
}

void redial_give_back(struct redial *redial) {
    pthread_mutex_lock(&redial->mutex);
    redial->trying = false;
    pthread_mutex_unlock(&redial->mutex);
}

long long redial_next(struct redial *redial) {
    pthread_mutex_lock(&redial->mutex);
    long long next = redial->trying ? LLONG_MAX : redial->next;
    pthread_mutex_unlock(&redial->mutex);
    return next;
}

int redial_reason(struct redial *redial) {
    pthread_mutex_lock(&redial->mutex);
    int reason = redial->reason ? redial->reason : SERVER_SILENT;
    pthread_mutex_unlock(&redial->mutex);
    return reason;
}
