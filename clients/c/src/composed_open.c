/* Opens, resets and closes conversions from and to encodings that compose. */
#include "composed.h"

/* A conversion from or to UTF-16BE, which stands behind another one. NULL: out of memory. */
static struct iconvd_cd *make_part(const struct iconvd_cd *cd, struct encoding *to, struct encoding *from) {
    struct iconvd_cd *made = malloc(sizeof *made);
    if (made)
        *made = (struct iconvd_cd){.pool = cd->pool, .to = to, .from = from, .policy = cd->policy, .ahead = SIZE_MAX};
    return made;
}

static iconvd_status open_reading(struct iconvd_cd *cd, bool to_wide) {
    struct encoding *middle = encoding_builtin(UTF_16BE);
    struct pair pair = {.to = middle, .from = cd->from, .strict = true};
    iconvd_status status = pool_open(cd->pool, &pair);
    if (status != ICONVD_OK)
        return status;
    cd->composed->target = make_part(cd, cd->to, middle);
    return cd->composed->target ? convert_open(cd->composed->target, to_wide) : ICONVD_ENOMEM;
}

static iconvd_status open_writing(struct iconvd_cd *cd) {
    /* What is left of these at a stop means something to their descriptor alone: they cannot be read again. */
    if (cd->from->kind == UTF_7 || cd->from->kind == SHIFTED)
        return ICONVD_UNSUPPORTED;
    struct encoding *middle = encoding_builtin(UTF_16BE);
    struct iconvd_cd *target = cd->composed->target = make_part(cd, cd->to, middle);
    struct iconvd_cd *source = cd->composed->source = make_part(cd, middle, cd->from);
    if (!target || !source)
        return ICONVD_ENOMEM;
    source->policy = cd->policy & ICONVD_IGNORE;
    source->from_wide = cd->from_wide;
    source->is_copy = cd->from->kind == UTF_16BE;
    source->is_single = cd->from->kind == BUILTIN_COUNT && encoding_most_bytes(cd->from) == 1;
    /* By single codes: what is composed is prepared before. */
    iconvd_status status = open_pair(target);
    return status == ICONVD_OK ? open_pair(source) : status;
}

/* From GB18030 to UTF-7 a text goes by way of UTF-16BE, too, and nothing is composed. */
static const struct composing NOTHING = {.kind = COMPOSES_ONCE};

iconvd_status composed_open(struct iconvd_cd *cd, bool to_wide) {
    struct composed *composed = cd->composed = calloc(1, sizeof *composed);
    if (!composed)
        return ICONVD_ENOMEM;
    bool reads = composing_reads(cd->from->composing);
    composed->by = reads ? cd->from->composing : cd->to->composing ? cd->to->composing : &NOTHING;
    composed->to_wide = to_wide;
    return reads ? open_reading(cd, to_wide) : open_writing(cd);
}

iconvd_status composed_write_held(struct composed *composed, char **out, size_t *out_left) {
    char bytes[4];
    struct buffer text = {.bytes = bytes};
    units_append(&text, composed->held);
    struct progress progress = {.in = bytes, .in_left = text.length, .out = *out, .out_left = *out_left};
    iconvd_status status = convert_any(composed->target, &progress);
    *out = progress.out;
    *out_left = progress.out_left;
    composed->replaced = progress.replaced;
    if (status != ICONVD_OK)
        return status;
    composed->held = 0;
    return progress.skipped > 0 ? ICONVD_ENOCHAR : ICONVD_OK;
}

iconvd_status composed_reset(struct iconvd_cd *cd, char **out, size_t *out_left) {
    struct composed *composed = cd->composed;
    bool writes = out && *out;
    composed->replaced = 0;
    iconvd_status status = composed->source ? iconvd_reset(composed->source, NULL, NULL) : ICONVD_OK;
    if (status == ICONVD_OK && writes && composed->held)
        status = composed_write_held(composed, out, out_left);
    if (status != ICONVD_OK)
        return status;
    composed->held = 0;
    composed->stopped = composed->faulty = false;
    composed_read_ahead_end(composed);
    composed_write_ahead_end(composed);
    return iconvd_reset(composed->target, out, out_left);
}

void composed_end(struct iconvd_cd *cd) {
    if (!cd->composed)
        return;
    composed_read_ahead_end(cd->composed);
    composed_write_ahead_end(cd->composed);
    iconvd_close(cd->composed->source);
    iconvd_close(cd->composed->target);
    free(cd->composed);
}
