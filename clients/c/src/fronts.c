/* What is at the front of a text in an encoding: a character, the beginning of one, or bytes that are none.
 *
 * It is told without converting, and as the service tells it, so that hostile text costs no round trips. */
#include "convert.h"
#include "planes.h"

static enum front front_of_utf8(const unsigned char *in, size_t left, size_t *length) {
    *length = utf8_length(in[0]);
    if (*length == 1)
        return in[0] < 0x80 ? WELL_FORMED : FAULTY;
    if (left < *length)
        return may_be_completed(UTF_8, (const char *)in, left) ? CUT_OFF : FAULTY;
    for (size_t i = 1; i < *length; i++)
        if ((in[i] & 0xc0) != 0x80)
            return FAULTY;
    uint32_t character;
    utf8_read((const char *)in, &character);
    static const uint32_t LEAST[] = {0, 0, 0x80, 0x800, 0x10000};
    bool is_scalar = character < 0xd800 || (character >= 0xe000 && character < 0x110000);
    return character >= LEAST[*length] && is_scalar ? WELL_FORMED : FAULTY;
}

static uint32_t unit_at(const unsigned char *in, size_t length, bool big) {
    uint32_t unit = 0;
    for (size_t i = 0; i < length; i++)
        unit = unit << 8 | in[big ? i : length - 1 - i];
    return unit;
}

static enum front front_of_utf16(const unsigned char *in, size_t left, bool big, size_t *length) {
    *length = 2;
    if (left < 2)
        return CUT_OFF;
    uint32_t unit = unit_at(in, 2, big);
    if (unit < 0xd800 || unit >= 0xe000)
        return WELL_FORMED;
    if (unit >= 0xdc00)
        return FAULTY;
    if (left < 4)
        return CUT_OFF;
    uint32_t low = unit_at(in + 2, 2, big);
    bool pair = low >= 0xdc00 && low < 0xe000;
    *length = pair ? 4 : 2;
    return pair ? WELL_FORMED : FAULTY;
}

static enum front front_of_utf32(const unsigned char *in, size_t left, bool big, size_t *length) {
    *length = 4;
    if (left < 4)
        return CUT_OFF;
    uint32_t unit = unit_at(in, 4, big);
    return unit < 0xd800 || (unit >= 0xe000 && unit < 0x110000) ? WELL_FORMED : FAULTY;
}

iconvd_status fronts_of(struct encoding *encoding, struct fronts *fronts) {
    *fronts = (struct fronts){.kind = encoding->kind, .is_computed = encoding->is_computed};
    if (encoding->kind == BUILTIN_COUNT)
        fronts->codes = encoding_codes(encoding);
    return encoding->kind == BUILTIN_COUNT && !fronts->codes ? ICONVD_ENOMEM : ICONVD_OK;
}

static enum front front_of_charmap(const struct fronts *fronts, const unsigned char *in, size_t left, size_t *length) {
    enum front front;
    *length = PLANE_CODE;
    if (fronts->is_computed && plane_front(in, left, &front))
        return front;
    return codes_front(fronts->codes, in, left, length);
}

enum front front_at(const struct fronts *fronts, const char *text, size_t left, size_t *length) {
    const unsigned char *in = (const unsigned char *)text;
    *length = 1;
    switch (fronts->kind) {
    case US_ASCII: return in[0] < 0x80 ? WELL_FORMED : FAULTY;
    case ISO_8859_1: return WELL_FORMED;
    case UTF_8: return front_of_utf8(in, left, length);
    case UTF_16BE:
    case UTF_16LE: return front_of_utf16(in, left, fronts->kind == UTF_16BE, length);
    case UTF_32BE:
    case UTF_32LE: return front_of_utf32(in, left, fronts->kind == UTF_32BE, length);
    default: return front_of_charmap(fronts, in, left, length);
    }
}

size_t front_run(const struct fronts *fronts, const char *text, size_t left) {
    size_t run = 0, length;
    while (run < left && front_at(fronts, text + run, left - run, &length) == WELL_FORMED)
        run += length;
    return run;
}

bool front_character(const struct fronts *fronts, const char *text, size_t length, uint32_t *character) {
    const unsigned char *in = (const unsigned char *)text;
    bool big = fronts->kind == UTF_16BE || fronts->kind == UTF_32BE;
    switch (fronts->kind) {
    case US_ASCII:
    case ISO_8859_1: *character = in[0]; return true;
    case UTF_8: utf8_read(text, character); return true;
    case UTF_32BE:
    case UTF_32LE: *character = unit_at(in, 4, big); return true;
    case UTF_16BE:
    case UTF_16LE: break;
    default: return false;
    }
    *character = unit_at(in, 2, big);
    if (length == 4)
        *character = 0x10000 + ((*character & 0x3ff) << 10 | (unit_at(in + 2, 2, big) & 0x3ff));
    return true;
}
