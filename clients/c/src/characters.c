/* What can be told of an encoding's bytes without converting them. */
#include "convert.h"

size_t utf8_length(unsigned char first) {
    if (first >= 0xc2 && first <= 0xdf)
        return 2;
    if ((first & 0xf0) == 0xe0)
        return 3;
    return (first & 0xf8) == 0xf0 ? 4 : 1;
}

static bool is_continuation(char byte) {
    return ((unsigned char)byte & 0xc0) == 0x80;
}

/* As the C library: the first byte, and as many continuation bytes as its sequence would have; behind a byte that begins no
   sequence, up to four. */
static size_t faulty_utf8(const char *in, size_t length) {
    size_t most = utf8_length((unsigned char)*in);
    if (most == 1)
        most = 5;
    if (most > length)
        most = length;
    size_t faulty = 1;
    while (faulty < most && is_continuation(in[faulty]))
        faulty++;
    return faulty;
}

size_t unit_length(enum builtin kind) {
    if (kind == UTF_16BE || kind == UTF_16LE)
        return 2;
    return kind == UTF_32BE || kind == UTF_32LE ? 4 : 1;
}

size_t faulty_length(enum builtin from, const char *in, size_t length) {
    size_t unit = unit_length(from);
    if (from == UTF_8)
        return faulty_utf8(in, length);
    return unit < length ? unit : length;
}

/* A surrogate that begins a pair, in the two bytes at `in`. */
static bool is_high_surrogate(const char *in, bool big) {
    return ((unsigned char)in[big ? 0 : 1] & 0xfc) == 0xd8;
}

bool may_be_completed(enum builtin from, const char *in, size_t length) {
    if (length == 0 || length < unit_length(from))
        return true;
    if (from == UTF_16BE || from == UTF_16LE)
        return length < 4 && is_high_surrogate(in, from == UTF_16BE);
    if (from != UTF_8 || length >= utf8_length((unsigned char)*in))
        return false;
    return faulty_utf8(in, length) == length;
}

/* Cuts before the last sequence where that is not whole. */
static size_t cut_utf8(const char *in, size_t length) {
    for (size_t back = 1; back < 4 && back <= length; back++)
        if (!is_continuation(in[length - back]))
            return utf8_length((unsigned char)in[length - back]) > back ? length - back : length;
    return length;
}

static size_t cut_utf16(const char *in, size_t length, bool big) {
    length -= length % 2;
    return is_high_surrogate(in + length - 2, big) ? length - 2 : length;
}

size_t cut_length(const struct encoding *from, const char *in, size_t length) {
    if (length < 8)
        return 0;
    if (from->kind == UTF_8)
        return cut_utf8(in, length);
    if (from->kind == UTF_16BE || from->kind == UTF_16LE)
        return cut_utf16(in, length, from->kind == UTF_16BE);
    if (from->kind == UTF_32BE || from->kind == UTF_32LE)
        return length - length % 4;
    return encoding_most_bytes(from) == 1 ? length : 0;
}

size_t utf8_read(const char *text, uint32_t *character) {
    const unsigned char *bytes = (const unsigned char *)text;
    size_t length = utf8_length(bytes[0]);
    uint32_t value = length == 1 ? bytes[0] : bytes[0] & (0x7fu >> length);
    for (size_t i = 1; i < length; i++)
        value = value << 6 | (bytes[i] & 0x3fu);
    *character = value;
    return length;
}
