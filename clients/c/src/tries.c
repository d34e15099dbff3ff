/* How a call has a stream that answers: what it does where one is lost, or cannot be had.
 *
 * A lost stream that had answered costs two more tries, at once. A server that cannot be reached, or that ends a new stream before it
 * has answered, went away or is full: the call waits for it, and tries again as redial.h says, until the pool's time limit is up. It does
 * not wait where that is of no use: the address was never reached, a program is started for each stream, or the C library can convert
 * (`pool->waits`). Nor does it after a service that did not answer within the time limit: none is asked for as long again. */
#include "pool.h"

#include <errno.h>
#include <limits.h>
#include <stdio.h>

#include "transfer.h"

/* How long no connection is tried where nobody waits for one, after one was refused, or after so many in a row have ended without any
   answer, in milliseconds. The latter is what a program that cannot be started looks like. */
enum { REST = 1000, SILENT_CONNECTIONS = 3, LOST_STREAMS = 3 };

struct tries tries_begin(const struct iconvd_pool *pool) {
    return (struct tries){.end = pool->timeout > 0 ? now_in_milliseconds() + pool->timeout : LLONG_MAX};
}

/* Whether calls wait for the server. */
static bool waits(struct iconvd_pool *pool) {
    return pool->waits && atomic_load(&pool->reached);
}

/* How long the pause before a try is at most: a short time limit has room for some tries. */
static int most_pause(const struct iconvd_pool *pool) {
    return pool->timeout > 0 ? pool->timeout / 2 + 1 : INT_MAX;
}

/* Says why there is no stream, by an errno or a reason of redial.h. */
static void log_reason(const struct iconvd_pool *pool, int reason, const char *more) {
    char why[300];
    if (reason == SERVER_CLOSES)
        snprintf(why, sizeof why, "%s: the server closes new connections (full or draining)", pool->address.where);
    else if (reason == SERVER_SILENT)
        snprintf(why, sizeof why, "%s: no reply within %g s (all places may be taken)", pool->address.where, pool->timeout / 1e3);
    else
        address_explain(&pool->address, reason, why, sizeof why);
    pool_log(pool, "no connection to the service: %s%s", why, more);
}

/* A stream could not be had, and the call may wait for another one. */
static void fail(struct iconvd_pool *pool, struct slot *slot, struct tries *tries, int reason) {
    bool tried = slot->state == ON_TRIAL, closes = reason == SERVER_CLOSES;
    unsigned addresses = slot->stream.addresses;
    bool other = closes && addresses > 1 && atomic_fetch_add(&pool->turn, 1) % addresses + 1 < addresses;
    slot->state = UNCONNECTED;
    tries->next = LATER;
    if (redial_failed(&pool->redial, tried, reason, other ? 0 : most_pause(pool)))
        log_reason(pool, reason, "; trying again");
}

/* Connects a slot that has no stream. */
static bool connect_slot(struct iconvd_pool *pool, struct slot *slot, struct tries *tries) {
    enum permit permit = redial_ask(&pool->redial);
    long long left = tries->end - now_in_milliseconds();
    slot->stream.timeout = pool->timeout;
    slot->stream.turn = atomic_load(&pool->turn);
    tries->next = LATER;
    if (permit == NOT_NOW)
        return false;
    /* A try ends with the time limit of the call, of which some is over. */
    if (permit == TRY && left < pool->timeout)
        slot->stream.timeout = left > 0 ? (int)left : 1;
    slot->state = permit == TRY ? ON_TRIAL : FRESH;
    if (stream_connect(&slot->stream, &pool->address)) {
        atomic_store(&pool->reached, pool->address.kind != ADDRESS_EXEC);
        atomic_fetch_add(&pool->connections, 1);
        return true;
    }
    if (waits(pool)) {
        fail(pool, slot, tries, errno);
        return false;
    }
    log_reason(pool, errno, "");
    atomic_store(&pool->down_until, now_in_milliseconds() + REST);
    tries->next = NEVER;
    slot_reset(pool, slot);
    return false;
}

bool slot_ready(struct iconvd_pool *pool, struct slot *slot, struct tries *tries) {
    if (slot->stream.fd >= 0 && stream_is_intact(&slot->stream))
        return true;
    if (slot->stream.fd >= 0)
        slot_reset(pool, slot);
    tries->next = NEVER;
    return now_in_milliseconds() >= atomic_load(&pool->down_until) && connect_slot(pool, slot, tries);
}

void slot_reset(struct iconvd_pool *pool, struct slot *slot) {
    stream_close(&slot->stream);
    slot->stream.timed_out = slot->stream.ended = false;
    remote_forget(&slot->remote);
    slot->generation++;
    if (slot->state == ON_TRIAL)
        redial_give_back(&pool->redial);
    if (slot->state == LIVE)
        atomic_fetch_sub(&pool->live, 1);
    slot->state = UNCONNECTED;
}

void slot_settle(struct iconvd_pool *pool, struct slot *slot) {
    if (slot->state != FRESH && slot->state != ON_TRIAL)
        return;
    if (slot->stream.answered) {
        slot->state = LIVE;
        atomic_fetch_add(&pool->live, 1);
        redial_answered(&pool->redial);
        if (slot->stream.timeout != pool->timeout) {
            slot->stream.timeout = pool->timeout;
            stream_limit(&slot->stream, pool->timeout);
        }
    } else if (slot->state == ON_TRIAL) {
        slot->state = FRESH;
        redial_give_back(&pool->redial);
    }
}

/* Loses a stream that the service did not answer within the time limit. */
static void lose_silent(struct iconvd_pool *pool, struct slot *slot, struct tries *tries) {
    bool is_new = !slot->stream.answered && pool->address.kind != ADDRESS_EXEC;
    if (is_new && waits(pool) && slot->stream.timeout != pool->timeout) {
        /* A short wait at the end of a call says less than what came before. */
        bool is_short = slot->stream.timeout < pool->timeout / 2;
        fail(pool, slot, tries, is_short ? redial_reason(&pool->redial) : SERVER_SILENT);
        return;
    }
    if (is_new)
        log_reason(pool, SERVER_SILENT, "");
    else
        pool_log(pool, "the service does not answer");
    atomic_store(&pool->down_until, now_in_milliseconds() + pool->timeout);
    tries->next = NEVER;
}

/* Says that a stream was lost: of a program that ends before its first reply once, and not for each try. */
static void log_loss(struct iconvd_pool *pool, const struct stream *stream, int silent) {
    bool is_program = pool->address.kind == ADDRESS_EXEC && stream->ended && !stream->heard;
    if (!is_program)
        pool_log(pool, "a connection is lost%s",
                 stream_may_be_used_up(stream) ? ": it may have reached the limit of 1,000,000 reads" : "");
    else if (silent == 1)
        pool_log(pool, "%s: the program ended before its first reply", pool->address.where);
}

/* Loses a stream that has ended, or has rubbish on it. */
static void lose_at_end(struct iconvd_pool *pool, struct slot *slot, struct tries *tries) {
    struct stream *stream = &slot->stream;
    bool closes = atomic_load(&pool->reached) && stream->ended && !stream->heard;
    if (closes && pool->waits) {
        fail(pool, slot, tries, SERVER_CLOSES);
        return;
    }
    int silent = stream->answered ? 0 : atomic_load(&pool->silent) + 1;
    if (closes)
        log_reason(pool, SERVER_CLOSES, "");
    else
        log_loss(pool, stream, silent);
    atomic_store(&pool->silent, silent);
    if (silent >= SILENT_CONNECTIONS)
        atomic_store(&pool->down_until, now_in_milliseconds() + REST);
    if (waits(pool))
        redial_doubt(&pool->redial);
    tries->next = ++tries->lost < LOST_STREAMS ? AT_ONCE : NEVER;
}

void slot_lose(struct iconvd_pool *pool, struct slot *slot, struct tries *tries) {
    if (slot->stream.answered)
        slot_settle(pool, slot);
    if (slot->stream.timed_out)
        lose_silent(pool, slot, tries);
    else
        lose_at_end(pool, slot, tries);
    slot_reset(pool, slot);
}

void tries_over(struct iconvd_pool *pool) {
    log_reason(pool, redial_reason(&pool->redial), "");
}
