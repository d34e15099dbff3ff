/* Shares the streams of a process among its threads. */
#include "pool.h"

#include "transfer.h"

/* From how many bytes on a text is long. */
enum { LONG = 16384 };

void pool_note(struct iconvd_pool *pool, struct refusal *refusal) {
    atomic_fetch_add(&pool->uploads, refusal->uploads);
    const struct encoding *encoding = refusal->encoding;
    if (!encoding)
        return;
    if (refusal->status == ICONVD_BADMAP)
        pool_log(pool, "charmap %s: line %u: cause %u", encoding->name, refusal->line, refusal->cause);
    else
        pool_log(pool, "charmap %s: %s", encoding->name, iconvd_status_text(refusal->status));
}

/* Gives those streams up that nobody uses and that have ended: whatever ended one may have ended others. */
static void lose_ended(struct iconvd_pool *pool) {
    for (size_t i = 0; i < pool->slot_count; i++) {
        struct slot *slot = &pool->slots[i];
        struct tries none = {.lost = 0};
        if (!slot_try(slot))
            continue;
        if (slot->stream.fd >= 0 && stream_has_ended(&slot->stream))
            slot_lose(pool, slot, &none);
        slot_unlock(pool, slot);
    }
}

/* What is done with a stream once the pair is open on it. */
typedef iconvd_status pool_action(struct iconvd_pool *pool, struct slot *slot, const struct place *place, void *context);

/* What is done, and how often it was tried. */
struct doing {
    pool_action *act;
    void *context;
    struct tries tries;
};

/* Opens the pair on a stream that is locked, acts, and unlocks it. */
static iconvd_status try_pair(struct iconvd_pool *pool, struct slot *slot, const struct pair *pair, struct doing *doing) {
    struct refusal refusal = {.encoding = NULL};
    struct place place;
    iconvd_status status = ICONVD_LOST;
    bool ready = slot_ready(pool, slot, &doing->tries);
    if (ready) {
        status = remote_find(&slot->remote, &slot->stream, pair, &place, &refusal);
        if (status == ICONVD_OK)
            status = doing->act(pool, slot, &place, doing->context);
    }
    if (ready && status == ICONVD_LOST)
        slot_lose(pool, slot, &doing->tries);
    slot_unlock(pool, slot);
    pool_note(pool, &refusal);
    if (!refusal.encoding || refusal.status != ICONVD_BADMAP)
        return status;
    atomic_store(&refusal.encoding->refused, true);
    return ICONVD_UNSUPPORTED;
}

/* A slot for the next try. The second is on another stream, where one lives that nobody uses: a new connection may be refused, or wait
   for a place until the time is up. Where none lives it is on a new connection. The third is on a new one in any case: where streams end
   one after the other, as those of a server that is being stopped, a third one would end too. NULL: the time is up. */
static struct slot *next_slot(struct iconvd_pool *pool, const struct pair *pair, enum text text, const struct tries *tries,
                              struct slot *last) {
    if (tries->next == AT_ONCE && tries->lost == 2) {
        /* Who used it meanwhile has connected it anew. */
        slot_lock(last);
        return last;
    }
    if (tries->next == AT_ONCE)
        lose_ended(pool);
    return pool_take(pool, pair, text, tries->end);
}

/* The same, with more tries where there is no stream that answers.

   Why this ends: three streams may be lost. Each try waits for one stream, holds no other meanwhile, and gives it back before the next.
   Each wait for the service has the pool's time limit; once that was up there is no next try. A try that there is no stream for is
   followed by a wait until another one is due, which ends with the time limit of the call. */
static iconvd_status with_pair(struct iconvd_pool *pool, const struct pair *pair, enum text text, pool_action *act, void *context) {
    struct doing doing = {.act = act, .context = context, .tries = tries_begin(pool)};
    int cancelling = cancelling_off();
    struct slot *slot = pool_take(pool, pair, text, doing.tries.end);
    iconvd_status status = slot ? try_pair(pool, slot, pair, &doing) : ICONVD_LOST;
    while (slot && status == ICONVD_LOST && doing.tries.next != NEVER) {
        slot = next_slot(pool, pair, text, &doing.tries, slot);
        if (slot)
            status = try_pair(pool, slot, pair, &doing);
    }
    cancelling_as(cancelling);
    return status;
}

/* The pair by which a text is tried first. It has light charmaps only where the whole ones fit in one caller, too, and where a character
   that the target lacks stops the conversion. */
static struct pair first_pair(const struct pair *pair) {
    struct pair first = *pair;
    if (pair->strict && (uint64_t)pair->to->map.mappings + pair->from->map.mappings <= CALLER_MAPPINGS) {
        first.to = encoding_first(pair->to);
        first.from = encoding_first(pair->from);
    }
    return first;
}

/* Whether a conversion stopped at what a light charmap may lack. From now on the whole one is used. */
static bool needs_more(const struct pair *pair, const struct pair *first, iconvd_status status) {
    bool from = first->from != pair->from && (status == ICONVD_EILSEQ || status == ICONVD_UNSUPPORTED);
    bool to = first->to != pair->to && (status == ICONVD_ENOCHAR || status == ICONVD_UNSUPPORTED);
    if (from)
        atomic_store(&pair->from->needed, true);
    if (to)
        atomic_store(&pair->to->needed, true);
    return from || to;
}

static iconvd_status do_nothing(struct iconvd_pool *pool, struct slot *slot, const struct place *place, void *context) {
    (void)pool, (void)slot, (void)place, (void)context;
    return ICONVD_OK;
}

static iconvd_status convert_one(struct iconvd_pool *pool, struct slot *slot, const struct place *place, void *context) {
    atomic_fetch_add_explicit(&pool->round_trips, 1, memory_order_relaxed);
    return remote_convert(&slot->stream, place, context);
}

/* Puts the bytes that are meant in the place of placeholders. */
static void settle(const struct pair *pair, const struct work *work) {
    if (pair->to->has_placeholders)
        repairs_settle(&pair->to->repairs, work->out, work->produced);
}

iconvd_status pool_convert_mapped(struct iconvd_pool *pool, const struct pair *pair, struct work *work) {
    iconvd_status status;
    struct pair first;
    do {
        first = first_pair(pair);
        work->used = work->produced = work->replaced = 0;
        status = with_pair(pool, &first, work->in_length < LONG ? SHORT_TEXT : LONG_TEXT, convert_one, work);
    } while (needs_more(pair, &first, status));
    settle(pair, work);
    /* The whole charmap is refused, in the middle of a text. */
    return status == ICONVD_UNSUPPORTED ? ICONVD_LOST : status;
}

static iconvd_status convert_many(struct iconvd_pool *pool, struct slot *slot, const struct place *place, void *context) {
    struct batch *batch = context;
    iconvd_status status = remote_convert_batch(&slot->stream, place, batch);
    atomic_fetch_add_explicit(&pool->round_trips, batch->done, memory_order_relaxed);
    return status;
}

iconvd_status pool_convert_batch(struct iconvd_pool *pool, const struct pair *pair, struct batch *batch) {
    struct pair first = first_pair(pair);
    batch->done = 0;
    iconvd_status status = with_pair(pool, &first, LONG_TEXT, convert_many, batch);
    while (needs_more(pair, &first, status)) {
        /* The piece that stopped is sent again, with those after it. */
        batch->done -= batch->done > 0;
        batch->status = ICONVD_OK;
        first = first_pair(pair);
        status = with_pair(pool, &first, LONG_TEXT, convert_many, batch);
    }
    for (size_t i = 0; i < batch->done; i++)
        settle(pair, &batch->works[i]);
    return status == ICONVD_UNSUPPORTED ? ICONVD_LOST : status;
}

static bool is_known(struct iconvd_pool *pool, const struct pair *pair) {
    bool known = false;
    pthread_mutex_lock(&pool->known_mutex);
    for (size_t i = 0; i < pool->known_count && !known; i++)
        known = pool->known[i].to == pair->to && pool->known[i].from == pair->from && pool->known[i].strict == pair->strict;
    pthread_mutex_unlock(&pool->known_mutex);
    return known;
}

/* Remembers a pair. Where memory lacks the service is asked again. */
static void remember(struct iconvd_pool *pool, const struct pair *pair) {
    pthread_mutex_lock(&pool->known_mutex);
    struct pair *known = realloc(pool->known, (pool->known_count + 1) * sizeof *known);
    if (known) {
        pool->known = known;
        known[pool->known_count++] = *pair;
    }
    pthread_mutex_unlock(&pool->known_mutex);
}

iconvd_status pool_open(struct iconvd_pool *pool, const struct pair *pair) {
    fork_check(pool);
    if (is_known(pool, pair))
        return ICONVD_OK;
    iconvd_status status;
    struct pair first;
    do {
        first = first_pair(pair);
        status = with_pair(pool, &first, SHORT_TEXT, do_nothing, NULL);
    } while (needs_more(pair, &first, status));
    if (status == ICONVD_OK)
        remember(pool, pair);
    return status;
}
