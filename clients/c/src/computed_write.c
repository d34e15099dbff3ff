/* Conversions to GB18030 with characters that are computed. */
#include "computed.h"

/* Brings the source to UTF-8, and says what ends its characters. */
static iconvd_status decode(struct computing *computing, const struct work *work) {
    struct pair decoding = {.to = encoding_builtin(UTF_8), .from = computing->from, .strict = true};
    size_t room = computing->from->kind == UTF_8 ? work->in_length : 4 * (work->in_length / encoding_least_bytes(computing->from) + 1);
    if (!buffer_reserve(&computing->text, room + 1) || !buffer_reserve(&computing->kept, room + 1))
        return ICONVD_ENOMEM;
    if (computing->from->kind == UTF_8) {
        size_t run = front_run(&computing->fronts, work->in, work->in_length), length;
        buffer_append(&computing->text, work->in, run);
        if (run == work->in_length)
            return ICONVD_OK;
        return front_at(&computing->fronts, work->in + run, work->in_length - run, &length) == FAULTY ? ICONVD_EILSEQ : ICONVD_EINVAL;
    }
    struct work text = {.in = work->in, .in_length = work->in_length, .out = computing->text.bytes, .room = room};
    iconvd_status status = pool_convert_mapped(computing->pool, &decoding, &text);
    computing->text.length = text.produced;
    return status;
}

/* Whether the code of a character is computed. */
static bool is_computed(const struct computing *computing, uint32_t character) {
    return character > 0xffff && !repairs_have(computing->repairs, character);
}

/* How many bytes a code of GB18030 has that the service wrote. */
static size_t code_length(const char *code) {
    const unsigned char *bytes = (const unsigned char *)code;
    return bytes[0] < 0x80 ? 1 : bytes[1] >= 0x30 && bytes[1] <= 0x39 ? PLANE_CODE : 2;
}

/* Writes the next character of the text. OK, E2BIG; UNSUPPORTED: the service wrote no more. */
static iconvd_status weave_one(const struct computing *computing, const char *text, size_t *from, struct work *work) {
    unsigned char code[PLANE_CODE];
    const char *bytes = (const char *)code;
    size_t length = PLANE_CODE;
    uint32_t character;
    utf8_read(text, &character);
    bool computed = is_computed(computing, character);
    if (computed) {
        plane_write(code, character);
    } else if (*from == computing->output.length) {
        return ICONVD_UNSUPPORTED;
    } else {
        bytes = computing->output.bytes + *from;
        length = code_length(bytes);
    }
    if (length > work->room - work->produced)
        return ICONVD_E2BIG;
    memcpy(work->out + work->produced, bytes, length);
    work->produced += length;
    *from += computed ? 0 : length;
    return ICONVD_OK;
}

/* There is room for them. */
static void keep_not_computed(struct computing *computing) {
    const struct buffer *text = &computing->text;
    uint32_t character;
    size_t one;
    for (size_t at = 0; at < text->length; at += one) {
        one = utf8_read(text->bytes + at, &character);
        if (!is_computed(computing, character))
            buffer_append(&computing->kept, text->bytes + at, one);
    }
}

/* To GB18030. */
iconvd_status computed_write(struct computing *computing, const struct pair *pair, struct work *work) {
    struct pair encoding = {.to = pair->to, .from = encoding_builtin(UTF_8), .strict = pair->strict};
    struct work mapped = {.used = 0};
    iconvd_status stop = decode(computing, work);
    const struct buffer *text = &computing->text;
    if (stop == ICONVD_LOST || stop == ICONVD_ENOMEM)
        return stop;
    size_t at = 0, from = 0, characters = 0;
    keep_not_computed(computing);
    iconvd_status status = computing_convert_kept(computing, encoding, 2 * computing->kept.length, &mapped);
    if (status == ICONVD_LOST || status == ICONVD_ENOMEM)
        return status;
    iconvd_status woven = ICONVD_OK;
    while (at < text->length && (woven = weave_one(computing, text->bytes + at, &from, work)) == ICONVD_OK) {
        at += utf8_length((unsigned char)text->bytes[at]);
        characters++;
    }
    work->used = computing_measure(&computing->fronts, work->in, work->in_length, characters);
    work->replaced = woven == ICONVD_OK ? mapped.replaced : 0;
    if (woven == ICONVD_UNSUPPORTED)
        return status == ICONVD_OK ? ICONVD_LOST : status;
    return woven == ICONVD_OK ? stop : woven;
}
