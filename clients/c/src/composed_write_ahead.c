/* What a conversion to an encoding that composes will meet after a fault of its source.
 *
 * A caller that goes on a byte after each fault makes a call for each. So after a fault a call looks further (stretches.h). The characters
 * between the faults are brought to UTF-16BE and prepared for the target, with a surrogate alone for each fault. Calls then convert from
 * that text, and foresight.c answers them by few round trips, as long as the bytes are those that were looked at. */
#include "composed.h"
#include "stretches.h"

enum { LEAST = 256, GROWTH = 8 };

struct composed_write_ahead {
    struct stretches stretches; /* of the source, in UTF-16BE */
    struct buffer text;         /* what the target is given, with the faults */
    size_t next;                /* which stretch calls are in */
    size_t used, at, read;      /* where they are in the source's bytes, in the units and in the text */
    size_t begun;               /* how many bytes of the stretch they have had */
    size_t end;                 /* where its units end */
    uint32_t held;              /* the letter that is held there */
    size_t window;              /* how far the next look goes */
};

/* Prepares all stretches. False: out of memory. */
static bool prepare_all(const struct iconvd_cd *cd, struct composed_write_ahead *ahead) {
    struct preparing preparing = {.by = cd->composed->by, .held = cd->composed->held};
    const struct buffer *units = &ahead->stretches.out;
    size_t count = stretch_count(&ahead->stretches);
    ahead->text.length = 0;
    if (!buffer_reserve(&ahead->text, COMPOSING_PARTS * units->length + 2 * count + 8))
        return false;
    preparing.units = units->bytes;
    for (size_t i = 0; i < count; i++) {
        preparing.length += stretch_at(&ahead->stretches, i)->written;
        composed_prepare(&preparing, SIZE_MAX, &ahead->text);
        units_append(&ahead->text, COMPOSED_FAULT);
    }
    return true;
}

/* Looks at the bytes before the caller. It looks further than before if calls have had all of that. False: there is no fault. */
static bool look(struct iconvd_cd *cd, struct composed_write_ahead *ahead, const struct progress *progress) {
    bool all = ahead->next > 0 && ahead->next == stretch_count(&ahead->stretches);
    size_t unit = unit_length(cd->composed->source->pair.from->kind);
    size_t window = all ? GROWTH * ahead->window : LEAST * unit;
    ahead->window = window < MOST_WINDOW * unit ? window : MOST_WINDOW * unit;
    ahead->next = ahead->used = ahead->at = ahead->read = ahead->begun = 0;
    ahead->held = cd->composed->held;
    if (!stretches_find(&ahead->stretches, cd->composed->source, progress, ahead->window))
        return false;
    ahead->end = stretch_at(&ahead->stretches, 0)->written;
    cd->composed->target->ahead = AHEAD_AFTER_STOP;
    if (prepare_all(cd, ahead))
        return true;
    stretches_forget(&ahead->stretches);
    return false;
}

/* Whether the rest of the stretch, and the bytes that decide what follows it, are the caller's. */
static bool is_next(const struct iconvd_cd *cd, const struct composed_write_ahead *ahead, const struct progress *progress) {
    const struct stretches *stretches = &ahead->stretches;
    if (ahead->next >= stretch_count(stretches) || ahead->held != cd->composed->held)
        return false;
    size_t left = stretches->in.length - ahead->used, needed = stretch_at(stretches, ahead->next)->length - ahead->begun + CODE;
    needed = needed < left ? needed : left;
    return needed <= progress->in_left && memcmp(stretches->in.bytes + ahead->used, progress->in, needed) == 0;
}

/* How many bytes of the source the next characters have. */
static size_t measure(struct iconvd_cd *cd, const struct composed_write_ahead *ahead, size_t characters) {
    const struct buffer *in = &ahead->stretches.in;
    struct fronts fronts;
    size_t at = ahead->used, length;
    if (fronts_of(cd->composed->source->pair.from, &fronts) != ICONVD_OK)
        return 0;
    for (; characters > 0 && front_at(&fronts, in->bytes + at, in->length - at, &length) == WELL_FORMED; characters--)
        at += length;
    return at - ahead->used;
}

/* Moves on by what the target has used of a stretch, and to the next one if that is all of it. */
static void move_on(struct iconvd_cd *cd, struct composed_write_ahead *ahead, struct progress *progress,
                    const struct preparing *preparing, bool whole) {
    size_t used = measure(cd, ahead, units_count(preparing->units, preparing->at));
    progress->in += used;
    progress->in_left -= used;
    if (used > 0)
        cd->composed->last = (struct composed_place){.in = progress->in};
    cd->composed->held = ahead->held = preparing->held;
    ahead->used += used;
    ahead->begun += used;
    ahead->at += preparing->at;
    ahead->read += preparing->given;
    if (!whole)
        return;
    ahead->used += unit_length(cd->composed->source->pair.from->kind);
    ahead->read += 2;
    ahead->begun = 0;
    if (++ahead->next < stretch_count(&ahead->stretches))
        ahead->end += stretch_at(&ahead->stretches, ahead->next)->written;
}

iconvd_status composed_write_ahead(struct iconvd_cd *cd, struct progress *progress) {
    struct composed *composed = cd->composed;
    if (!composed->write_ahead && composed->faulty)
        composed->write_ahead = calloc(1, sizeof *composed->write_ahead);
    struct composed_write_ahead *ahead = composed->write_ahead;
    if (!ahead || (!is_next(cd, ahead, progress) && !(composed->faulty && look(cd, ahead, progress))))
        return ICONVD_OK;
    struct preparing preparing = {
        .by = composed->by, .units = ahead->stretches.out.bytes + ahead->at, .length = ahead->end - ahead->at, .held = ahead->held};
    struct prepared prepared = {.text = ahead->text.bytes + ahead->read, .end = preparing};
    composed_prepare(&prepared.end, SIZE_MAX, NULL);
    prepared.length = prepared.end.given;
    prepared.beyond = ahead->text.length - ahead->read - prepared.length;
    iconvd_status status = composed_put(cd, &prepared, progress, &preparing);
    move_on(cd, ahead, progress, &preparing, status == ICONVD_OK);
    return status == ICONVD_OK ? ICONVD_EILSEQ : status;
}

void composed_write_ahead_end(struct composed *composed) {
    struct composed_write_ahead *ahead = composed->write_ahead;
    if (!ahead)
        return;
    stretches_free(&ahead->stretches);
    buffer_free(&ahead->text);
    free(ahead);
    composed->write_ahead = NULL;
}
