/* Opens, resets and closes conversions from and to encodings with shifts. */
#include "shifted.h"

/* Opens the side with shifts, if there is one. */
static iconvd_status open_side(struct iconvd_pool *pool, const struct encoding *encoding, bool writes, struct shifter **side) {
    if (encoding->kind != SHIFTED)
        return ICONVD_OK;
    *side = malloc(sizeof **side);
    return *side ? shifter_open(pool, *side, encoding, writes) : ICONVD_ENOMEM;
}

iconvd_status shifted_open(struct iconvd_cd *cd, bool to_wide) {
    struct shifted *shifted = cd->shifted = calloc(1, sizeof *shifted);
    if (!shifted)
        return ICONVD_ENOMEM;
    shifted->to_wide = to_wide;
    iconvd_status status = open_side(cd->pool, cd->from, false, &shifted->from);
    if (status == ICONVD_OK)
        status = open_side(cd->pool, cd->to, true, &shifted->to);
    if (status != ICONVD_OK)
        return status;
    if (shifted->from)
        shifted->reading = shift_begin(shifted->from, false);
    if (shifted->to)
        shifted->writing = shift_begin(shifted->to, true);
    if (shifted->from && shifted->to)
        return ICONVD_OK;
    /* What is left of UTF-7 at a stop means something to its descriptor alone: it cannot be read again. */
    if (cd->from->kind == UTF_7)
        return ICONVD_UNSUPPORTED;
    struct encoding *middle = encoding_builtin(UTF_16BE);
    shifted->inner = (struct iconvd_cd){.pool = cd->pool,
                                        .to = shifted->to ? middle : cd->to,
                                        .from = shifted->from ? middle : cd->from,
                                        .policy = shifted->to ? cd->policy & ICONVD_IGNORE : cd->policy,
                                        .ahead = SIZE_MAX,
                                        .from_wide = cd->from_wide};
    return open_pair(&shifted->inner);
}

iconvd_status shifted_reset(struct iconvd_cd *cd, char **out, size_t *out_left) {
    struct shifted *shifted = cd->shifted;
    bool writes = out && *out;
    iconvd_status status = ICONVD_OK;
    /* The source's side first, which has nothing to write: as in the C library it is reset even where the other one has no room. */
    if (shifted->from)
        shifted->reading = shift_begin(shifted->from, false);
    else
        status = iconvd_reset(&shifted->inner, NULL, NULL);
    if (!shifted->to)
        status = iconvd_reset(&shifted->inner, out, out_left);
    else if (writes && !shift_end(shifted->to, &shifted->writing, out, out_left))
        status = ICONVD_E2BIG;
    if (status != ICONVD_OK)
        return status;
    if (shifted->to)
        shifted->writing = shift_begin(shifted->to, true);
    shifted->stopped = shifted->faulty = false;
    shift_ahead_end(shifted);
    return ICONVD_OK;
}

void shifted_end(struct iconvd_cd *cd) {
    if (!cd->shifted)
        return;
    shift_ahead_end(cd->shifted);
    own_end(&cd->shifted->inner);
    foresight_end(&cd->shifted->inner);
    free(cd->shifted->from);
    free(cd->shifted->to);
    free(cd->shifted);
}
