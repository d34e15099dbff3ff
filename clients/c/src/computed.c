/* Conversions by the shared descriptor of a pair, with what is computed: pool_convert(). */
#include "computed.h"

static void end(struct computing *computing) {
    buffer_free(&computing->kept);
    buffer_free(&computing->output);
    buffer_free(&computing->text);
}

size_t computing_measure(const struct fronts *fronts, const char *in, size_t length, size_t characters) {
    size_t at = 0, one;
    for (; characters > 0 && at < length && front_at(fronts, in + at, length - at, &one) == WELL_FORMED; characters--)
        at += one;
    return at;
}

iconvd_status computing_convert_kept(struct computing *computing, struct pair pair, size_t room, struct work *work) {
    const struct buffer *kept = &computing->kept;
    if (!buffer_reserve(&computing->output, room + 1))
        return ICONVD_ENOMEM;
    *work = (struct work){.in = kept->bytes, .in_length = kept->length, .out = computing->output.bytes, .room = room};
    iconvd_status status = kept->length > 0 ? pool_convert_mapped(computing->pool, &pair, work) : ICONVD_OK;
    computing->output.length = work->produced;
    return status;
}

iconvd_status computing_convert_mapped(struct iconvd_pool *pool, const struct pair *pair, struct work *work) {
    enum front front;
    iconvd_status status = pool_convert_mapped(pool, pair, work);
    const unsigned char *rest = (const unsigned char *)work->in + work->used;
    bool begins = pair->from->is_computed && status == ICONVD_EILSEQ;
    return begins && plane_front(rest, work->in_length - work->used, &front) ? ICONVD_EINVAL : status;
}

/* Whether one of the codes is in a text; or, since characters are not told apart here, bytes that look so. */
static bool may_have_planes(const char *in, size_t length) {
    const unsigned char *bytes = (const unsigned char *)in;
    uint32_t character;
    for (size_t i = 1; i + 2 < length; i++)
        if (bytes[i] >= 0x30 && bytes[i] <= 0x39 && plane_read(bytes + i - 1, &character))
            return true;
    return false;
}

static iconvd_status compute(struct iconvd_pool *pool, const struct pair *pair, struct work *work, computed_way *way) {
    const struct encoding *computed = pair->from->is_computed ? pair->from : pair->to;
    struct computing computing = {.pool = pool, .from = pair->from, .repairs = &computed->repairs};
    work->used = work->produced = work->replaced = 0;
    iconvd_status status = fronts_of(pair->from, &computing.fronts);
    if (status == ICONVD_OK)
        status = way(&computing, pair, work);
    end(&computing);
    return status;
}

/* Goes on where the service has met a character that the charmap of the target lacks. */
static iconvd_status write_rest(struct iconvd_pool *pool, const struct pair *pair, struct work *work) {
    struct work rest = {.in = work->in + work->used,
                        .in_length = work->in_length - work->used,
                        .out = work->out + work->produced,
                        .room = work->room - work->produced};
    iconvd_status status = compute(pool, pair, &rest, computed_write);
    work->used += rest.used;
    work->produced += rest.produced;
    work->replaced += rest.replaced;
    return status;
}

iconvd_status pool_convert(struct iconvd_pool *pool, const struct pair *pair, struct work *work) {
    if (pair->from->is_computed && may_have_planes(work->in, work->in_length))
        return compute(pool, pair, work, computed_read);
    if (pair->to->is_computed && !pair->strict)
        return compute(pool, pair, work, computed_write);
    iconvd_status status = computing_convert_mapped(pool, pair, work);
    return pair->to->is_computed && status == ICONVD_ENOCHAR ? write_rest(pool, pair, work) : status;
}
