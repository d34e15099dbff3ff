/* Conversions from GB18030 with characters that are computed. */
#include "computed.h"
#include "repertoire.h"

static size_t count_characters(const struct fronts *fronts, const char *text, size_t length) {
    size_t characters = 0, one;
    for (size_t at = 0; at < length && front_at(fronts, text + at, length - at, &one) == WELL_FORMED; characters++)
        at += one;
    return characters;
}

/* Keeps the characters of GB18030 that its charmap has. Returns how many bytes of characters there are, and what ends them. */
static size_t keep_mapped(struct computing *computing, const struct work *work, iconvd_status *stop) {
    size_t at = 0, length;
    uint32_t character;
    *stop = buffer_reserve(&computing->kept, work->in_length + 1) ? ICONVD_OK : ICONVD_ENOMEM;
    while (*stop == ICONVD_OK && at < work->in_length) {
        enum front front = front_at(&computing->fronts, work->in + at, work->in_length - at, &length);
        if (front != WELL_FORMED) {
            *stop = front == FAULTY ? ICONVD_EILSEQ : ICONVD_EINVAL;
            break;
        }
        if (length < PLANE_CODE || !plane_read((const unsigned char *)work->in + at, &character))
            buffer_append(&computing->kept, work->in + at, length);
        at += length;
    }
    return at;
}

/* Puts the text together in a form of Unicode. False: out of memory, or the service wrote something else. */
static bool join_text(struct computing *computing, const struct fronts *form, const char *in, size_t length) {
    const struct buffer *output = &computing->output;
    size_t from = 0, one, written;
    uint32_t character;
    if (!buffer_reserve(&computing->text, output->length + length + 1))
        return false;
    for (size_t at = 0; at < length; at += one) {
        char *out = computing->text.bytes + computing->text.length;
        front_at(&computing->fronts, in + at, length - at, &one);
        if (one == PLANE_CODE && plane_read((const unsigned char *)in + at, &character)) {
            computing->text.length += character_write(form->kind, character, out);
            continue;
        }
        const char *bytes = output->bytes + from;
        if (from == output->length || front_at(form, bytes, output->length - from, &written) != WELL_FORMED)
            return false;
        memcpy(out, bytes, written);
        computing->text.length += written;
        from += written;
    }
    return true;
}

/* Copies the characters of a text that have room. */
static iconvd_status copy_text(const struct fronts *form, struct work *text) {
    size_t at = 0, length;
    while (at < text->in_length && front_at(form, text->in + at, text->in_length - at, &length) == WELL_FORMED &&
           length <= text->room - at)
        at += length;
    if (at > 0)
        memcpy(text->out, text->in, at);
    text->used = text->produced = at;
    return at < text->in_length ? ICONVD_E2BIG : ICONVD_OK;
}

/* From GB18030, by way of a form of Unicode. */
static iconvd_status read_by_unicode(struct computing *computing, const struct pair *pair, struct work *work) {
    struct encoding *middle = is_unicode(pair->to->kind) ? pair->to : encoding_builtin(UTF_8);
    const struct fronts form = {.kind = middle->kind};
    struct pair decoding = {.to = middle, .from = pair->from, .strict = true};
    struct pair encoding = {.to = pair->to, .from = middle, .strict = pair->strict};
    struct work mapped = {.used = 0};
    iconvd_status stop;
    size_t length = keep_mapped(computing, work, &stop);
    iconvd_status status = stop;
    if (stop != ICONVD_ENOMEM)
        status = computing_convert_kept(computing, decoding, 4 * computing->kept.length, &mapped);
    if (status != ICONVD_OK)
        return status == ICONVD_ENOMEM ? status : ICONVD_LOST;
    if (!join_text(computing, &form, work->in, length))
        return ICONVD_LOST;
    struct work text = {
        .in = computing->text.bytes, .in_length = computing->text.length, .out = work->out, .room = work->room};
    if (middle == pair->to)
        status = copy_text(&form, &text);
    else if (text.in_length > 0)
        status = pool_convert(computing->pool, &encoding, &text);
    work->used = computing_measure(&computing->fronts, work->in, length, count_characters(&form, text.in, text.used));
    work->produced = text.produced;
    work->replaced = text.replaced;
    return status == ICONVD_OK ? stop : status;
}

/* The length of the characters at the front that the charmap of GB18030 has. `computed` gets the one after them, or 0. */
static size_t mapped_run(const struct fronts *fronts, const struct work *work, uint32_t *computed) {
    const unsigned char *in = (const unsigned char *)work->in;
    size_t at = 0, length;
    *computed = 0;
    while (*computed == 0 && at < work->in_length && front_at(fronts, work->in + at, work->in_length - at, &length) == WELL_FORMED)
        if (length < PLANE_CODE || !plane_read(in + at, computed))
            at += length;
    return at;
}

/* From GB18030. Where nothing is computed, or the target lacks the first character that is, the service is asked once. */
iconvd_status computed_read(struct computing *computing, const struct pair *pair, struct work *work) {
    uint32_t computed;
    struct work front = *work;
    front.in_length = mapped_run(&computing->fronts, work, &computed);
    if (computed == 0)
        return computing_convert_mapped(computing->pool, pair, work);
    iconvd_status status = repertoire_prepare(computing->pool, pair->to);
    if (status != ICONVD_OK)
        return status;
    if (!pair->strict || repertoire_has(pair->to, computed))
        return read_by_unicode(computing, pair, work);
    if (front.in_length > 0)
        status = pool_convert_mapped(computing->pool, pair, &front);
    work->used = front.used;
    work->produced = front.produced;
    return status == ICONVD_OK ? ICONVD_ENOCHAR : status;
}
