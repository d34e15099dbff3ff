/* What a conversion from an encoding that composes will meet after a fault.
 *
 * A caller that goes on a byte after each fault makes a call for each. So after a fault a call looks further: it brings a window of the
 * source to UTF-16BE, with a surrogate alone for each fault. Calls then convert from that text, and foresight.c answers them by few round
 * trips, as long as the bytes are those that were looked at. */
#include "composed.h"
#include "stretches.h"

enum { LEAST = 1024, GROWTH = 16, MOST = 65536 };

struct composed_read_ahead {
    struct buffer in;    /* the window up to its last fault, and the bytes that decide that it is one */
    struct buffer codes; /* its well-formed codes */
    struct buffer units; /* their characters */
    struct buffer text;  /* what is read, with the faults */
    struct composed_reading reading; /* where calls are in all of these */
    size_t read;                     /* and in the text */
    size_t window;                   /* how far the next look goes */
};

static void forget(struct composed_read_ahead *ahead) {
    ahead->in.length = ahead->codes.length = ahead->units.length = ahead->text.length = ahead->read = 0;
}

/* How far the first `window` bytes of a text go up to their last fault, or the text up to its first. 0: there is none. */
static size_t find_faults(const struct composed_reading *reading, size_t window, size_t *faults) {
    const char *at = reading->now.in, *begin = at;
    size_t found = 0, length;
    *faults = 0;
    while (at < reading->end && (size_t)(at - begin) < MOST && ((size_t)(at - begin) < window || found == 0)) {
        enum front front = composed_front(reading, at, &length);
        if (front == CUT_OFF)
            break;
        at += front == FAULTY ? 1 : length;
        *faults += front == FAULTY;
        found = front == FAULTY ? (size_t)(at - begin) : found;
    }
    return found;
}

/* Whether a fault is at a place of a text between characters. */
static bool is_fault(const char *units) {
    return ((unsigned char)*units & 0xfc) == 0xdc;
}

/* Cuts a text after its last fault: what is behind that only decides that it is one. */
static void cut(struct buffer *text, size_t faults) {
    size_t at = 0, width;
    for (; faults > 0; at += width) {
        units_read(text->bytes + at, &width);
        faults -= is_fault(text->bytes + at);
    }
    text->length = at;
}

/* Has the service convert the codes of the window, and reads them. */
static iconvd_status fill(struct iconvd_cd *cd, struct composed_read_ahead *ahead, size_t faults) {
    struct composed_reading *reading = &ahead->reading;
    iconvd_status status = composed_decode(cd, reading, &ahead->codes, &ahead->units);
    if (status != ICONVD_OK)
        return status;
    struct composed_reading all = *reading;
    if (!buffer_reserve(&ahead->text, 4 * ahead->codes.length + 2 * ahead->in.length + 8))
        return ICONVD_ENOMEM;
    composed_read(&all, SIZE_MAX, &ahead->text);
    cut(&ahead->text, faults);
    reading->marks_faults = false;
    return ICONVD_OK;
}

/* Looks at the bytes before the caller. It looks further than before if calls have had all of that. False: there is no fault. */
static bool look(struct iconvd_cd *cd, struct composed_read_ahead *ahead, const struct progress *progress) {
    bool all = ahead->text.length > 0 && ahead->read == ahead->text.length;
    size_t window = all ? GROWTH * ahead->window : LEAST;
    ahead->window = window < MOST ? window : MOST;
    forget(ahead);
    struct composed_reading *reading = &ahead->reading;
    *reading = (struct composed_reading){.by = cd->composed->by, .marks_faults = true};
    if (fronts_of(cd->from, &reading->fronts) != ICONVD_OK)
        return false;
    reading->now = (struct composed_place){.in = progress->in, .held = cd->composed->held};
    reading->end = progress->in + progress->in_left;
    size_t faults, length = find_faults(reading, ahead->window, &faults), looked = length + CODE;
    if (length == 0 || !buffer_append(&ahead->in, progress->in, looked < progress->in_left ? looked : progress->in_left))
        return false;
    reading->now.in = ahead->in.bytes;
    reading->end = ahead->in.bytes + ahead->in.length;
    cd->composed->target->ahead = AHEAD_AFTER_STOP;
    if (fill(cd, ahead, faults) == ICONVD_OK)
        return true;
    forget(ahead);
    return false;
}

/* Whether the bytes up to the next fault, and those that decide that it is one, are the caller's. */
static bool is_next(const struct iconvd_cd *cd, const struct composed_read_ahead *ahead, const struct progress *progress) {
    const struct composed_reading *reading = &ahead->reading;
    if (ahead->read >= ahead->text.length || reading->now.held != cd->composed->held)
        return false;
    const char *at = reading->now.in;
    size_t length, left = (size_t)(reading->end - at);
    while (composed_front(reading, at, &length) == WELL_FORMED)
        at += length;
    size_t needed = (size_t)(at - reading->now.in) + CODE;
    needed = needed < left ? needed : left;
    return needed <= progress->in_left && memcmp(reading->now.in, progress->in, needed) == 0;
}

/* Moves on by what was converted of the text, up to the fault if that has stopped it. */
static void move_on(struct iconvd_cd *cd, struct composed_read_ahead *ahead, struct progress *progress, size_t used,
                    iconvd_status status) {
    struct composed_reading *reading = &ahead->reading;
    const char *before = reading->now.in;
    reading->characters = 0;
    composed_read(reading, units_count(ahead->text.bytes + ahead->read, used), NULL);
    if (status == ICONVD_EILSEQ)
        composed_read(reading, SIZE_MAX, NULL);
    size_t length = (size_t)(reading->now.in - before);
    progress->in += length;
    progress->in_left -= length;
    cd->composed->held = reading->now.held;
    ahead->read += used;
    if (status == ICONVD_EILSEQ) {
        ahead->read += 2;
        reading->now.in++;
    }
}

iconvd_status composed_read_ahead(struct iconvd_cd *cd, struct progress *progress) {
    struct composed *composed = cd->composed;
    if (!composed->read_ahead && composed->faulty)
        composed->read_ahead = calloc(1, sizeof *composed->read_ahead);
    struct composed_read_ahead *ahead = composed->read_ahead;
    if (!ahead || (!is_next(cd, ahead, progress) && !(composed->faulty && look(cd, ahead, progress))))
        return ICONVD_OK;
    struct progress part = *progress;
    part.in = ahead->text.bytes + ahead->read;
    part.in_left = ahead->text.length - ahead->read;
    size_t left = part.in_left, width;
    /* A fault needs no room. */
    bool stops = is_fault(part.in) && part.out_left == 0;
    iconvd_status status = stops ? ICONVD_EILSEQ : convert_any(composed->target, &part);
    progress->out = part.out;
    progress->out_left = part.out_left;
    progress->replaced = part.replaced;
    if (status == ICONVD_ENOCHAR)
        composed->lacking = units_read(part.in, &width);
    move_on(cd, ahead, progress, left - part.in_left, status);
    return status;
}

void composed_read_ahead_end(struct composed *composed) {
    struct composed_read_ahead *ahead = composed->read_ahead;
    if (!ahead)
        return;
    buffer_free(&ahead->in);
    buffer_free(&ahead->codes);
    buffer_free(&ahead->units);
    buffer_free(&ahead->text);
    free(ahead);
    composed->read_ahead = NULL;
}
