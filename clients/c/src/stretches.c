/* Finds stretches of characters between faults, and converts all of them at once. */
#include "stretches.h"

#include "sift.h"

struct stretch *stretch_at(const struct stretches *stretches, size_t number) {
    return (struct stretch *)(void *)stretches->parts.bytes + number;
}

size_t stretch_count(const struct stretches *stretches) {
    return stretches->parts.length / sizeof(struct stretch);
}

void stretches_forget(struct stretches *stretches) {
    stretches->in.length = stretches->kept.length = stretches->out.length = stretches->parts.length = 0;
}

void stretches_free(struct stretches *stretches) {
    buffer_free(&stretches->in);
    buffer_free(&stretches->kept);
    buffer_free(&stretches->out);
    buffer_free(&stretches->parts);
    phrases_free(&stretches->phrases);
}

/* Finds stretches at the front of a text, and keeps their characters. False: there is none, or memory lacks. */
static bool find(struct stretches *stretches, const struct fronts *from, const struct progress *progress, size_t window) {
    const char *text = progress->in;
    const size_t unit = unit_length(from->kind), most = MOST_WINDOW * unit;
    struct stretch stretch = {.length = 0};
    size_t at = 0, length = 0, left = progress->in_left;
    enum front front = WELL_FORMED;
    while (at < most && (at < window || stretches->parts.length == 0) && at < left &&
           (front = front_at(from, text + at, left - at, &length)) != CUT_OFF) {
        at += front == FAULTY ? unit : length;
        if (front == WELL_FORMED) {
            stretch.length += length;
            stretch.characters++;
            continue;
        }
        if (!buffer_append(&stretches->parts, (const char *)&stretch, sizeof stretch) ||
            !buffer_append(&stretches->kept, text + at - unit - stretch.length, stretch.length))
            return false;
        stretch = (struct stretch){.length = 0};
    }
    size_t looked = at + CODE < left ? at + CODE : left;
    return stretches->parts.length > 0 && buffer_append(&stretches->in, text, looked);
}

/* Keeps the first stretches alone. */
static void cut(struct stretches *stretches, size_t number) {
    stretches->parts.length = number * sizeof(struct stretch);
}

/* Shares out what was written among the stretches whose characters were all used. */
static void share_out(struct stretches *stretches, const struct fronts *to, size_t used) {
    size_t at = 0, number = 0, length;
    for (; number < stretch_count(stretches); number++) {
        struct stretch *stretch = stretch_at(stretches, number);
        size_t begin = at, left = stretch->characters;
        if (stretch->length > used)
            break;
        while (left > 0 && at < stretches->out.length &&
               front_at(to, stretches->out.bytes + at, stretches->out.length - at, &length) == WELL_FORMED) {
            at += length;
            left--;
        }
        if (left > 0)
            break;
        stretch->written = at - begin;
        used -= stretch->length;
    }
    cut(stretches, number);
}

/* Converts characters to the front of a buffer that is empty. */
static iconvd_status convert(struct iconvd_cd *cd, const struct buffer *characters, struct buffer *out) {
    size_t room = room_for(cd, characters->length, SIZE_MAX);
    if (!buffer_reserve(out, room))
        return ICONVD_ENOMEM;
    struct work work = {.in = characters->bytes, .in_length = characters->length, .out = out->bytes, .room = room};
    iconvd_status status = characters->length > 0 ? convert_piece(cd, &work) : ICONVD_OK;
    out->length = work.produced;
    return status;
}

/* What is kept on its way to what is written, with phrases for what the target lacks. */
struct weaving {
    struct sift sift;
    struct walk walk;
    struct buffer converted; /* the characters that the target has */
    size_t at;               /* in these */
};

/* Writes the next character, or what stands for it. False: nothing can be told of it. */
static bool weave_one(struct weaving *weaving, struct buffer *out, struct stretch *stretch) {
    const struct buffer *converted = &weaving->converted;
    struct part part = sift_next(&weaving->sift, &weaving->walk);
    stretch->ends_empty = part.kind == REPLACED && part.phrase->length == 0;
    if (part.kind == REPLACED) {
        stretch->replaced++;
        return buffer_append(out, weaving->sift.phrases.bytes.bytes + part.phrase->at, part.phrase->length);
    }
    size_t length, left = converted->length - weaving->at;
    const char *bytes = converted->bytes + weaving->at;
    if (part.kind != KEPT || left == 0 || front_at(&weaving->sift.to, bytes, left, &length) != WELL_FORMED)
        return false;
    weaving->at += length;
    return buffer_append(out, bytes, length);
}

/* Writes stretches one after another. Those after one that cannot be written are dropped. */
static void weave_all(struct weaving *weaving, struct stretches *stretches) {
    size_t number = 0, end = 0;
    for (; number < stretch_count(stretches); number++) {
        struct stretch *stretch = stretch_at(stretches, number);
        size_t begin = stretches->out.length;
        end += stretch->length;
        while (weaving->walk.used < end && weave_one(weaving, &stretches->out, stretch))
            ;
        if (weaving->walk.used != end)
            break;
        stretch->written = stretches->out.length - begin;
    }
    cut(stretches, number);
}

/* Converts what is kept by //TRANSLIT. */
static iconvd_status weave(struct stretches *stretches, struct iconvd_cd *cd, const struct fronts *from, const struct fronts *to) {
    const struct buffer *kept = &stretches->kept;
    struct weaving weaving = {.sift = {.cd = cd, .from = *from, .to = *to, .lacks = true, .phrases = stretches->phrases}};
    struct sums sums;
    weaving.sift.in = kept->bytes;
    weaving.sift.length = weaving.sift.whole = kept->length;
    iconvd_status status = sift_gather(&weaving.sift, &sums);
    if (status == ICONVD_OK)
        status = convert(cd, &weaving.sift.kept, &weaving.converted);
    if (status != ICONVD_LOST && status != ICONVD_ENOMEM)
        weave_all(&weaving, stretches);
    stretches->phrases = weaving.sift.phrases;
    buffer_free(&weaving.sift.text);
    buffer_free(&weaving.sift.kept);
    buffer_free(&weaving.converted);
    return status;
}

/* Converts what is kept. */
static iconvd_status convert_kept(struct stretches *stretches, struct iconvd_cd *cd, const struct fronts *from) {
    struct fronts to;
    if (fronts_of(cd->pair.to, &to) != ICONVD_OK)
        return ICONVD_ENOMEM;
    if (!stretches->lacks) {
        iconvd_status status = convert(cd, &stretches->kept, &stretches->out);
        stretches->lacks = status == ICONVD_ENOCHAR && cd->policy & ICONVD_TRANSLIT;
        if (!stretches->lacks) {
            share_out(stretches, &to, stretches->kept.length);
            return status;
        }
        stretches->out.length = 0;
    }
    return weave(stretches, cd, from, &to);
}

bool stretches_find(struct stretches *stretches, struct iconvd_cd *cd, const struct progress *progress, size_t window) {
    struct fronts from;
    stretches_forget(stretches);
    if (fronts_of(cd->pair.from, &from) == ICONVD_OK && find(stretches, &from, progress, window)) {
        iconvd_status status = convert_kept(stretches, cd, &from);
        if (status != ICONVD_LOST && status != ICONVD_ENOMEM && stretch_count(stretches) > 0)
            return true;
    }
    stretches_forget(stretches);
    return false;
}
