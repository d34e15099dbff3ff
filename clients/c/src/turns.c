/* Which stream a thread takes, and in which order threads do so when all are in use.
 *
 * A mutex alone is not fair: a thread that converts without a pause takes it again before one that waits for it has woken up. So who
 * finds all streams in use waits in a line. Who comes later may overtake it for a while, since waking a thread takes longer than
 * converting a short text; then it goes to the end of the line.
 *
 * Long texts leave the last stream to short ones, if there are enough streams. A short text then waits for short ones alone.
 *
 * After a server went away the threads that find no stream that lives wait in the same lines, holding none. The first of a line tries the
 * server when that is due (redial.h). */
#include "pool.h"

#include <limits.h>

#include "transfer.h"

/* How many milliseconds it may be overtaken; and between two looks of one whose time is up. */
enum { ENOUGH_STREAMS = 4, OVERTAKEN = 10, LOOK = 1000 };

/* A thread that waits. */
struct turn {
    pthread_cond_t come; /* it is the first, and a stream may be free */
    long long since;
    struct turn *next;
};

void slot_lock(struct slot *slot) {
    atomic_fetch_add(&slot->wanted, 1);
    pthread_mutex_lock(&slot->mutex);
    atomic_fetch_sub(&slot->wanted, 1);
    gate_enter(&slot->stream.pass);
}

bool slot_try(struct slot *slot) {
    if (atomic_load(&slot->wanted) > 0 || pthread_mutex_trylock(&slot->mutex) != 0)
        return false;
    gate_enter(&slot->stream.pass);
    return true;
}

/* Unlocks a slot that was only looked at. Nobody is told. */
static void put_back(struct slot *slot) {
    gate_leave(&slot->stream.pass);
    pthread_mutex_unlock(&slot->mutex);
}

/* Tells the first of a line to look again. */
static void call_first(const struct line *line) {
    if (line->first)
        pthread_cond_signal(&line->first->come);
}

/* Closes a stream before its server ends it, so that no text is lost with it. The next one goes to a stream that is connected, if there
   is one that nobody uses. Where a descriptor of UTF-7 is open the stream is used to its end. */
static void retire(struct iconvd_pool *pool, struct slot *slot) {
    if (slot->stream.fd >= 0 && stream_is_worn(&slot->stream) && !remote_has_own(&slot->remote))
        slot_reset(pool, slot);
}

void slot_unlock(struct iconvd_pool *pool, struct slot *slot) {
    slot_settle(pool, slot);
    retire(pool, slot);
    put_back(slot);
    /* Who waits says so and then looks for a free stream; here it is the other way round. So one of the two sees the other. */
    atomic_thread_fence(memory_order_seq_cst);
    if (atomic_load(&pool->waiting) == 0)
        return;
    pthread_mutex_lock(&pool->lines_mutex);
    call_first(&pool->lines[SHORT_TEXT]);
    call_first(&pool->lines[LONG_TEXT]);
    pthread_mutex_unlock(&pool->lines_mutex);
}

/* Whether the first of a line has waited for so long that nobody may overtake it. */
static bool has_waited(struct line *line) {
    long long since = atomic_load(&line->since);
    return since > 0 && now_in_milliseconds() > since + OVERTAKEN;
}

/* What a stream is to be that is taken. */
enum wanted { WITH_PAIR, CONNECTED, ANY };

static bool suits(const struct slot *slot, const struct pair *pair, enum wanted wanted) {
    return wanted == ANY || (wanted == CONNECTED ? slot->stream.fd >= 0 : remote_has(&slot->remote, pair));
}

/* The first stream that nobody uses and that suits, locked. Streams are tried in one order, so that a second connection is made only
   when the first is in use. */
static struct slot *first_free(struct iconvd_pool *pool, const struct pair *pair, enum text text, enum wanted wanted) {
    bool shares = pool->slot_count < ENOUGH_STREAMS;
    size_t last = pool->slot_count - 1;
    size_t end = text == SHORT_TEXT || shares || atomic_load(&pool->redial.in_doubt) ? last : last - 1;
    size_t i = text == SHORT_TEXT && !shares && has_waited(&pool->lines[LONG_TEXT]) ? last : 0;
    for (; i <= end; i++) {
        struct slot *slot = &pool->slots[i];
        if (!slot_try(slot))
            continue;
        if (suits(slot, pair, wanted))
            return slot;
        put_back(slot);
    }
    return NULL;
}

/* Whether a new stream may be tried, or it is known that it cannot be had, which the call is then told. */
static bool may_connect(struct iconvd_pool *pool) {
    return redial_allows(&pool->redial) || now_in_milliseconds() < atomic_load(&pool->down_until);
}

/* A stream that nobody uses, locked: one that has the pair open, else one that is connected, since a server whose places are taken lets
   a new connection wait, else any, unless it is too early to try the server again. NULL: all are in use. */
static struct slot *take_free(struct iconvd_pool *pool, const struct pair *pair, enum text text) {
    struct slot *slot = first_free(pool, pair, text, WITH_PAIR);
    if (!slot)
        slot = first_free(pool, pair, text, CONNECTED);
    return slot || !may_connect(pool) ? slot : first_free(pool, pair, text, ANY);
}

struct slot *pool_pick(struct iconvd_pool *pool) {
    static const struct pair NONE = {.to = NULL};
    fork_check(pool);
    struct slot *slot = take_free(pool, &NONE, LONG_TEXT);
    if (slot)
        slot_unlock(pool, slot);
    return slot ? slot : &pool->slots[atomic_fetch_add(&pool->next_pick, 1) % pool->slot_count];
}

/* The first one may have found a stream in use that this thread was only looking at, and looks again. */
static void join(struct line *line, struct turn *turn) {
    call_first(line);
    if (line->first)
        line->last->next = turn;
    else
        line->first = turn;
    line->last = turn;
    atomic_store(&line->since, line->first->since);
}

/* One leaves, and the first of the others looks whether there is another free stream. */
static void leave(struct line *line, const struct turn *turn) {
    struct turn *before = NULL, **at = &line->first;
    while (*at != turn) {
        before = *at;
        at = &before->next;
    }
    *at = turn->next;
    if (line->last == turn)
        line->last = before;
    atomic_store(&line->since, line->first ? line->first->since : 0);
    call_first(line);
}

/* Whether a thread has waited until `end` for a server that went away. Where a stream lives it will have that. */
static bool is_over(struct iconvd_pool *pool, long long end) {
    return atomic_load(&pool->redial.in_doubt) && atomic_load(&pool->live) == 0 && now_in_milliseconds() >= end;
}

/* Waits until it is called, the server may be tried if that is what it waits for, or the time is up, after which it looks now and then. */
static void wait_for_call(struct iconvd_pool *pool, struct turn *turn, bool waits_for_try, long long end) {
    long long now = now_in_milliseconds(), until = now < end ? end : now + LOOK;
    long long next = waits_for_try ? redial_next(&pool->redial) : LLONG_MAX;
    timed_condition_wait(&turn->come, &pool->lines_mutex, next < until ? next : until);
}

/* Waits in a line until it is the first and there is a stream. NULL: the time is up. */
static struct slot *await_slot(struct iconvd_pool *pool, const struct pair *pair, enum text text, struct turn *turn, long long end) {
    struct line *line = &pool->lines[text];
    for (;;) {
        /* Asked first, so that a try which falls due meanwhile is seen the next time. */
        bool waits_for_try = line->first == turn && !may_connect(pool);
        struct slot *slot = line->first == turn ? take_free(pool, pair, text) : NULL;
        if (slot || is_over(pool, end))
            return slot;
        wait_for_call(pool, turn, waits_for_try, end);
    }
}

static struct slot *take_in_turn(struct iconvd_pool *pool, const struct pair *pair, enum text text, long long end) {
    struct line *line = &pool->lines[text];
    struct turn turn = {.since = now_in_milliseconds()};
    timed_condition_begin(&turn.come);
    pthread_mutex_lock(&pool->lines_mutex);
    atomic_fetch_add(&pool->waiting, 1);
    join(line, &turn);
    struct slot *slot = await_slot(pool, pair, text, &turn, end);
    leave(line, &turn);
    atomic_fetch_sub(&pool->waiting, 1);
    pthread_mutex_unlock(&pool->lines_mutex);
    pthread_cond_destroy(&turn.come);
    return slot;
}

struct slot *pool_take(struct iconvd_pool *pool, const struct pair *pair, enum text text, long long end) {
    fork_check(pool);
    struct slot *slot = has_waited(&pool->lines[text]) ? NULL : take_free(pool, pair, text);
    if (!slot)
        slot = take_in_turn(pool, pair, text, end);
    if (!slot)
        tries_over(pool);
    return slot;
}

void turns_renew(struct iconvd_pool *pool) {
    for (size_t i = 0; i < pool->slot_count; i++) {
        pthread_mutex_init(&pool->slots[i].mutex, NULL);
        atomic_store(&pool->slots[i].wanted, 0);
    }
    pthread_mutex_init(&pool->lines_mutex, NULL);
    for (int text = 0; text <= LONG_TEXT; text++) {
        pool->lines[text].first = NULL;
        atomic_store(&pool->lines[text].since, 0);
    }
    atomic_store(&pool->waiting, 0);
}
