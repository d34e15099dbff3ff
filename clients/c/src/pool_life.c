/* Makes pools and ends them; the host's own charmaps. */
#define _GNU_SOURCE
#include <sched.h>
#include <stdarg.h>
#include <stdio.h>

#include "pool.h"

void pool_log(const struct iconvd_pool *pool, const char *format, ...) {
    if (!pool->log)
        return;
    char line[400];
    va_list arguments;
    va_start(arguments, format);
    vsnprintf(line, sizeof line, format, arguments);
    va_end(arguments);
    pool->log(pool->context, line);
}

/* As many as there are processors: a short text then rarely waits for the long one of another thread. A set that does not fit is of more
   than 1,024 processors. */
static unsigned usual_streams(void) {
    cpu_set_t processors;
    int number = sched_getaffinity(0, sizeof processors, &processors) == 0 ? CPU_COUNT(&processors) : MOST_STREAMS;
    return number < LEAST_USUAL_STREAMS ? LEAST_USUAL_STREAMS : (unsigned)number;
}

iconvd_status pool_begin(const char *where, const iconvd_options *options, struct iconvd_pool **pool) {
    static const iconvd_options USUAL = {.streams = 0};
    const iconvd_options *wanted = options ? options : &USUAL;
    struct iconvd_pool *made = calloc(1, sizeof *made);
    if (!made)
        return ICONVD_ENOMEM;
    iconvd_status status = address_read(&made->address, where);
    made->timeout = wanted->timeout ? wanted->timeout : USUAL_TIMEOUT;
    made->waits = true;
    made->log = wanted->log;
    made->context = wanted->context;
    made->slot_count = wanted->streams ? wanted->streams : usual_streams();
    if (made->slot_count > MOST_STREAMS)
        made->slot_count = MOST_STREAMS;
    gate_begin(&made->gate);
    for (size_t i = 0; i < MOST_STREAMS; i++) {
        pthread_mutex_init(&made->slots[i].mutex, NULL);
        made->slots[i].stream.fd = -1;
        gate_add(&made->gate, &made->slots[i].stream.pass);
    }
    redial_begin(&made->redial);
    pthread_mutex_init(&made->known_mutex, NULL);
    pthread_mutex_init(&made->lines_mutex, NULL);
    const char *charmaps = wanted->charmaps ? wanted->charmaps : "/usr/share/i18n/charmaps";
    bool memory = encodings_begin(&made->encodings, charmaps) && fork_begin(made);
    if (status == ICONVD_OK && !memory)
        status = ICONVD_ENOMEM;
    if (status == ICONVD_OK)
        *pool = made;
    else
        iconvd_disconnect(made);
    return status;
}

iconvd_status iconvd_connect(const char *where, const iconvd_options *options, iconvd_pool **pool) {
    iconvd_status status = pool_begin(where, options, pool);
    if (status != ICONVD_OK)
        return status;
    struct slot *slot = &(*pool)->slots[0];
    struct tries tries = tries_begin(*pool);
    int cancelling = cancelling_off();
    slot_lock(slot);
    bool connected = slot_ready(*pool, slot, &tries);
    slot_unlock(*pool, slot);
    cancelling_as(cancelling);
    if (connected)
        return ICONVD_OK;
    iconvd_disconnect(*pool);
    *pool = NULL;
    return ICONVD_LOST;
}

void iconvd_disconnect(iconvd_pool *pool) {
    if (!pool)
        return;
    fork_check(pool);
    for (size_t i = 0; i < MOST_STREAMS; i++) {
        stream_close(&pool->slots[i].stream);
        remote_forget(&pool->slots[i].remote);
        pthread_mutex_destroy(&pool->slots[i].mutex);
    }
    fork_end(pool);
    gate_end(&pool->gate);
    redial_end(&pool->redial);
    encodings_end(&pool->encodings);
    address_free(&pool->address);
    pthread_mutex_destroy(&pool->known_mutex);
    pthread_mutex_destroy(&pool->lines_mutex);
    free(pool->known);
    free(pool);
}

void iconvd_count(const iconvd_pool *pool, iconvd_counters *counters) {
    *counters = (iconvd_counters){.conversions = atomic_load(&pool->conversions),
                                  .round_trips = atomic_load(&pool->round_trips),
                                  .connections = atomic_load(&pool->connections),
                                  .uploads = atomic_load(&pool->uploads)};
}

/* Uploads a charmap and opens it by its name, on one stream, once. */
static iconvd_status upload(struct iconvd_pool *pool, struct slot *slot, const struct pair *pair, struct tries *tries,
                            struct refusal *refusal) {
    struct place place;
    if (!slot_ready(pool, slot, tries))
        return ICONVD_LOST;
    iconvd_status status = remote_find(&slot->remote, &slot->stream, pair, &place, refusal);
    if (status == ICONVD_LOST)
        slot_lose(pool, slot, tries);
    return status;
}

/* Lets an encoding be found whose charmap the service has taken, and unlocks the slot. */
static iconvd_status keep(struct iconvd_pool *pool, struct slot *slot, struct encoding *made, iconvd_status status) {
    /* The name is free, so what the service finds taken, or does not find, is another one: the text's. */
    if (status == ICONVD_UNSUPPORTED || status == ICONVD_EXISTS)
        status = ICONVD_NONAME;
    if (status == ICONVD_OK)
        status = encodings_publish(&pool->encodings, made);
    /* What the server holds of a charmap that is not kept is given back with the stream. */
    if (status != ICONVD_OK)
        slot_reset(pool, slot);
    slot_unlock(pool, slot);
    return status;
}

/* Uploads the charmap, and lets it be found. */
static iconvd_status add_charmap(struct iconvd_pool *pool, struct encoding *made, struct refusal *refusal) {
    struct pair pair = {.to = encoding_builtin(UTF_8), .from = made, .strict = true};
    iconvd_status status = ICONVD_LOST;
    struct tries tries = tries_begin(pool);
    int cancelling = cancelling_off();
    struct slot *slot = pool_take(pool, &pair, SHORT_TEXT, tries.end);
    while (slot && (status = upload(pool, slot, &pair, &tries, refusal)) == ICONVD_LOST) {
        slot_unlock(pool, slot);
        slot = tries.next == NEVER ? NULL : pool_take(pool, &pair, SHORT_TEXT, tries.end);
    }
    if (slot)
        status = keep(pool, slot, made, status);
    cancelling_as(cancelling);
    return status;
}

iconvd_status iconvd_put_charmap(iconvd_pool *pool, const char *name, const void *text, size_t length, iconvd_badmap *bad) {
    fork_check(pool);
    struct encoding *made = NULL;
    struct refusal refusal = {.encoding = NULL};
    iconvd_status status = encodings_make(&pool->encodings, name, text, length, &made);
    if (status == ICONVD_OK)
        status = add_charmap(pool, made, &refusal);
    atomic_fetch_add(&pool->uploads, refusal.uploads);
    if (bad && status == ICONVD_BADMAP)
        *bad = (iconvd_badmap){.line = refusal.line, .cause = refusal.cause};
    if (status != ICONVD_OK)
        encoding_free(made);
    return status;
}
