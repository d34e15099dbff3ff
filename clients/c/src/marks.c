/* Byte order marks of UTF-16 and UTF-32.
 *
 * The C library writes the machine's order with a mark, and without a mark reads the machine's order. The service writes and reads the
 * highest byte first. So the client has the marks to itself, and asks the service for the encodings that have an order and no mark. */
#include "convert.h"

bool machine_is_little(void) {
    const uint16_t one = 1;
    return *(const unsigned char *)&one == 1;
}

struct encoding *mark_free(struct encoding *encoding, bool little) {
    if (encoding->kind == UTF_16)
        return encoding_builtin(little ? UTF_16LE : UTF_16BE);
    if (encoding->kind == UTF_32)
        return encoding_builtin(little ? UTF_32LE : UTF_32BE);
    return encoding;
}

static size_t mark_length(const struct encoding *encoding) {
    return encoding->kind == UTF_16 ? 2 : encoding->kind == UTF_32 ? 4 : 0;
}

/* U+FEFF in two or four bytes. */
static void spell_mark(unsigned char *out, size_t length, bool little) {
    memset(out, 0, length);
    out[little ? 0 : length - 1] = 0xff;
    out[little ? 1 : length - 2] = 0xfe;
}

iconvd_status mark_read(struct iconvd_cd *cd, struct progress *progress) {
    size_t length = mark_length(cd->from);
    if (length == 0 || cd->order_known || progress->in_left == 0)
        return ICONVD_OK;
    if (progress->in_left < length)
        return ICONVD_EINVAL;
    bool little = machine_is_little();
    for (int order = 0; order < 2; order++) {
        unsigned char mark[4];
        spell_mark(mark, length, order == 0);
        if (memcmp(progress->in, mark, length) != 0)
            continue;
        little = order == 0;
        progress->in += length;
        progress->in_left -= length;
        break;
    }
    struct encoding *from = mark_free(cd->from, little);
    if (cd->own && from != cd->pair.from)
        own_change(cd);
    cd->pair.from = from;
    cd->order_known = true;
    return ICONVD_OK;
}

void mark_reserve(const struct iconvd_cd *cd, struct progress *progress) {
    size_t length = cd->mark_written ? 0 : mark_length(cd->to);
    if (progress->out_left < length) {
        progress->out_left = 0;
        return;
    }
    progress->out += length;
    progress->out_left -= length;
}

void mark_settle(struct iconvd_cd *cd, struct progress *progress, const struct progress *before, iconvd_status status) {
    size_t length = cd->mark_written ? 0 : mark_length(cd->to);
    if (length == 0)
        return;
    if (before->out_left < length) {
        progress->out_left = before->out_left;
        return;
    }
    if (progress->out > before->out + length || status == ICONVD_E2BIG) {
        spell_mark((unsigned char *)before->out, length, machine_is_little());
        cd->mark_written = true;
    } else {
        progress->out = before->out;
        progress->out_left = before->out_left;
    }
}
