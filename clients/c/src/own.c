/* Conversions from and to UTF-7, whose descriptor has a state.
 *
 * The protocol can neither say nor set that state. So what the descriptor has read since the last reset is kept, and fed again to a new
 * descriptor when the stream is lost. */
#include "convert.h"

enum { HISTORY = 1 << 20 }; /* how much is kept; past it a lost stream is an error until the next reset */

struct own {
    struct slot *slot;
    uint64_t generation; /* of the slot when the descriptor was opened */
    bool open;
    struct place place;
    struct buffer history;
    bool too_long;
};

struct own *own_begin(struct iconvd_pool *pool) {
    struct own *own = calloc(1, sizeof *own);
    if (own)
        own->slot = pool_pick(pool);
    return own;
}

bool own_history(const struct iconvd_cd *cd, const char **bytes, size_t *length) {
    *bytes = cd->own->history.bytes;
    *length = cd->own->history.length;
    return !cd->own->too_long;
}

/* Feeds the history to a new descriptor. The output, which the caller has had, is dropped. */
static iconvd_status feed(struct own *own) {
    char *dropped = malloc(ICONVD_MAX_ROOM);
    if (!dropped)
        return ICONVD_ENOMEM;
    iconvd_status status = ICONVD_OK;
    size_t fed = 0;
    while (status == ICONVD_OK && fed < own->history.length) {
        size_t length = own->history.length - fed;
        struct work work = {.in = own->history.bytes + fed,
                            .in_length = length < 100000 ? length : 100000,
                            .out = dropped,
                            .room = ICONVD_MAX_ROOM};
        status = remote_convert(&own->slot->stream, &own->place, &work);
        fed += work.used;
        if (status == ICONVD_EINVAL && work.used > 0)
            status = ICONVD_OK;
    }
    free(dropped);
    return status == ICONVD_OK || status == ICONVD_ENOMEM ? status : ICONVD_LOST;
}

/* Opens the descriptor if it is not there, and brings it to where the caller is. The slot is locked. */
static iconvd_status restore(struct iconvd_cd *cd, struct tries *tries, struct refusal *refusal) {
    struct own *own = cd->own;
    if (!slot_ready(cd->pool, own->slot, tries))
        return ICONVD_LOST;
    if (own->open && own->generation == own->slot->generation)
        return ICONVD_OK;
    own->open = false;
    if (own->too_long)
        return ICONVD_LOST;
    iconvd_status status = remote_open(&own->slot->remote, &own->slot->stream, &cd->pair, &own->place, refusal);
    if (status != ICONVD_OK)
        return status;
    own->open = true;
    own->generation = own->slot->generation;
    return feed(own);
}

/* Locks the slot for the next try. Where that has no stream now, the descriptor moves to a slot that has one, or may be connected. False:
   the time is up. */
static bool lock_slot(struct iconvd_cd *cd, const struct tries *tries) {
    static const struct pair NONE = {.to = NULL};
    struct own *own = cd->own;
    if (tries->next != LATER) {
        slot_lock(own->slot);
        return true;
    }
    struct slot *slot = pool_take(cd->pool, &NONE, SHORT_TEXT, tries->end);
    if (!slot)
        return false;
    own->open &= slot == own->slot;
    own->slot = slot;
    return true;
}

/* What is done with the descriptor once it is there. */
typedef iconvd_status own_action(struct own *own, void *context);

static iconvd_status with_own(struct iconvd_cd *cd, own_action *act, void *context) {
    struct own *own = cd->own;
    struct tries tries = tries_begin(cd->pool);
    iconvd_status status;
    int cancelling = cancelling_off();
    fork_check(cd->pool);
    do {
        struct refusal refusal = {.encoding = NULL};
        status = ICONVD_LOST;
        if (!lock_slot(cd, &tries))
            break;
        status = restore(cd, &tries, &refusal);
        if (status == ICONVD_OK)
            status = act(own, context);
        if (status == ICONVD_LOST && own->slot->stream.fd >= 0)
            slot_lose(cd->pool, own->slot, &tries);
        if (own->too_long)
            tries.next = NEVER;
        slot_unlock(cd->pool, own->slot);
        pool_note(cd->pool, &refusal);
    } while (status == ICONVD_LOST && tries.next != NEVER);
    cancelling_as(cancelling);
    return status == ICONVD_BADMAP ? ICONVD_UNSUPPORTED : status;
}

static iconvd_status do_nothing(struct own *own, void *context) {
    (void)own, (void)context;
    return ICONVD_OK;
}

iconvd_status own_open(struct iconvd_cd *cd) {
    return with_own(cd, do_nothing, NULL);
}

static iconvd_status convert(struct own *own, void *context) {
    return remote_convert(&own->slot->stream, &own->place, context);
}

/* Remembers input that was used. Where it is too much, or memory lacks, the history ends. */
static void remember(struct own *own, const char *bytes, size_t length) {
    if (own->too_long)
        return;
    if (own->history.length + length > HISTORY || !buffer_append(&own->history, bytes, length)) {
        own->too_long = true;
        buffer_free(&own->history);
    }
}

iconvd_status own_convert(struct iconvd_cd *cd, struct work *work) {
    work->used = work->produced = work->replaced = 0;
    iconvd_status status = with_own(cd, convert, work);
    atomic_fetch_add_explicit(&cd->pool->round_trips, 1, memory_order_relaxed);
    if (cd->pair.to->has_placeholders)
        repairs_settle(&cd->pair.to->repairs, work->out, work->produced);
    if (status != ICONVD_LOST)
        remember(cd->own, work->in, work->used);
    return status;
}

/* What a reset may write. */
struct closing {
    char bytes[8];
    size_t room;
    size_t length;
};

static iconvd_status reset(struct own *own, void *context) {
    struct closing *closing = context;
    return remote_reset(&own->slot->stream, &own->place, closing->bytes, closing->room, &closing->length);
}

static iconvd_status close_descriptor(struct own *own, void *context) {
    (void)context;
    own->open = false;
    return remote_close(&own->slot->remote, &own->slot->stream, &own->place);
}

/* RESET with room 0 gives an open shift up, where iconv() says E2BIG and leaves it open. So without room the service is asked with
   some; where it wrote something the descriptor, which is at its start now, is given back, and the next call makes another one. */
iconvd_status own_reset(struct iconvd_cd *cd, char **out, size_t *out_left) {
    struct own *own = cd->own;
    bool writes = out && *out;
    struct closing closing = {.room = 0};
    if (own->history.length == 0 && !own->too_long)
        return ICONVD_OK;
    if (writes)
        closing.room = *out_left > 0 && *out_left < sizeof closing.bytes ? *out_left : sizeof closing.bytes;
    iconvd_status status = with_own(cd, reset, &closing);
    if (status != ICONVD_OK)
        return status;
    if (writes && closing.length > *out_left) {
        with_own(cd, close_descriptor, NULL);
        return ICONVD_E2BIG;
    }
    own->history.length = 0;
    own->too_long = false;
    if (writes) {
        memcpy(*out, closing.bytes, closing.length);
        *out += closing.length;
        *out_left -= closing.length;
    }
    return ICONVD_OK;
}

void own_change(struct iconvd_cd *cd) {
    struct own *own = cd->own;
    int cancelling = cancelling_off();
    fork_check(cd->pool);
    slot_lock(own->slot);
    bool there = own->open && own->generation == own->slot->generation && stream_is_intact(&own->slot->stream);
    struct tries none = {.lost = 0};
    if (there && close_descriptor(own, NULL) == ICONVD_LOST)
        slot_lose(cd->pool, own->slot, &none);
    own->open = false;
    slot_unlock(cd->pool, own->slot);
    cancelling_as(cancelling);
}

void own_end(struct iconvd_cd *cd) {
    if (!cd->own)
        return;
    own_change(cd);
    buffer_free(&cd->own->history);
    free(cd->own);
}
