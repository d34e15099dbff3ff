/* Writes characters in forms of Unicode, and takes texts in UTF-16BE apart. */
#include "convert.h"

bool is_unicode(enum builtin form) {
    return form == UTF_8 || form == UTF_16BE || form == UTF_16LE || form == UTF_32BE || form == UTF_32LE;
}

static size_t write_utf8(uint32_t character, char *out) {
    static const unsigned char FIRST[] = {0, 0, 0xc0, 0xe0, 0xf0};
    size_t length = character < 0x80 ? 1 : character < 0x800 ? 2 : character < 0x10000 ? 3 : 4;
    for (size_t i = length; i > 1; i--, character >>= 6)
        out[i - 1] = (char)(0x80 | (character & 0x3f));
    out[0] = (char)(FIRST[length] | character);
    return length;
}

static size_t write_unit(uint32_t unit, size_t length, bool big, char *out) {
    for (size_t i = 0; i < length; i++)
        out[big ? length - 1 - i : i] = (char)(unit >> 8 * i);
    return length;
}

static size_t write_utf16(uint32_t character, bool big, char *out) {
    if (character < 0x10000)
        return write_unit(character, 2, big, out);
    write_unit(0xd7c0 + (character >> 10), 2, big, out);
    write_unit(0xdc00 | (character & 0x3ff), 2, big, out + 2);
    return 4;
}

size_t character_write(enum builtin form, uint32_t character, char *out) {
    if (form == UTF_8)
        return write_utf8(character, out);
    if (form == UTF_16BE || form == UTF_16LE)
        return write_utf16(character, form == UTF_16BE, out);
    return write_unit(character, 4, form == UTF_32BE, out);
}

uint32_t units_read(const char *units, size_t *width) {
    static const struct fronts FRONTS = {.kind = UTF_16BE};
    uint32_t character;
    *width = ((unsigned char)*units & 0xfc) == 0xd8 ? 4 : 2;
    front_character(&FRONTS, units, *width, &character);
    return character;
}

iconvd_status units_copy(struct work *work) {
    static const struct fronts FRONTS = {.kind = UTF_16BE};
    enum front front = WELL_FORMED;
    size_t at = 0, length;
    work->used = work->produced = work->replaced = 0;
    while (at < work->in_length && (front = front_at(&FRONTS, work->in + at, work->in_length - at, &length)) == WELL_FORMED &&
           length <= work->room - at)
        at += length;
    if (at > 0)
        memcpy(work->out, work->in, at);
    work->used = work->produced = at;
    if (at == work->in_length)
        return ICONVD_OK;
    return front == WELL_FORMED ? ICONVD_E2BIG : front == FAULTY ? ICONVD_EILSEQ : ICONVD_EINVAL;
}

void units_append(struct buffer *units, uint32_t character) {
    units->length += character_write(UTF_16BE, character, units->bytes + units->length);
}

size_t units_count(const char *units, size_t length) {
    size_t count = 0;
    for (size_t at = 0; at < length; at += 2)
        count += ((unsigned char)units[at] & 0xfc) != 0xdc;
    return count;
}
