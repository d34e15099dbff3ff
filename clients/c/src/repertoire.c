/* Which characters an encoding has: a bit for each, from the text of its charmap. */
#include "repertoire.h"

#include "convert.h"

/* The codes of the characters that the text has other names for than <Uxxxx>. False: out of memory. */
static bool find_named(const struct encoding *encoding, struct buffer *codes) {
    struct charmap_lines lines = charmap_lines(encoding->map.text.bytes, encoding->map.text.length);
    struct mapping mapping;
    while (charmap_next(&lines, &mapping)) {
        char code[8];
        for (unsigned i = 0; i < mapping.bytes; i++)
            code[i] = (char)(mapping.code >> 8 * (mapping.bytes - 1 - i));
        if (mapping.is_named && !buffer_append(codes, code, mapping.bytes))
            return false;
    }
    return true;
}

/* Sets the bits of the characters of a text in UTF-8. */
static void add_text(unsigned char *bits, const char *text, size_t length) {
    for (size_t at = 0; at < length;) {
        uint32_t character;
        at += utf8_read(text + at, &character);
        bits[character / 8] |= (unsigned char)(1u << character % 8);
    }
}

/* Asks the service which characters the names are, by one round trip: their codes are a text in the encoding. */
static iconvd_status ask_named(struct iconvd_pool *pool, struct encoding *encoding, unsigned char *bits) {
    struct pair pair = {.to = encoding_builtin(UTF_8), .from = encoding, .strict = true};
    struct buffer codes = {.bytes = NULL}, text = {.bytes = NULL};
    iconvd_status status = ICONVD_ENOMEM;
    size_t most = ICONVD_MAX_ROOM / 4;
    if (find_named(encoding, &codes) && buffer_reserve(&text, 4 * codes.length + 1)) {
        size_t length = codes.length < most ? codes.length : most;
        struct work work = {.in = codes.bytes, .in_length = length, .out = text.bytes, .room = 4 * length};
        status = pool_convert(pool, &pair, &work);
        add_text(bits, text.bytes, work.produced);
    }
    buffer_free(&codes);
    buffer_free(&text);
    return status == ICONVD_EINVAL ? ICONVD_OK : status;
}

iconvd_status repertoire_prepare(struct iconvd_pool *pool, struct encoding *encoding) {
    if (encoding->kind != BUILTIN_COUNT || atomic_load(&encoding->repertoire))
        return ICONVD_OK;
    bool symbols = false;
    unsigned char *bits = charmap_repertoire(encoding->map.text.bytes, encoding->map.text.length, &symbols);
    if (!bits)
        return ICONVD_ENOMEM;
    if (encoding->is_computed)
        memset(bits + 0x10000 / 8, 0xff, (0x110000 - 0x10000) / 8);
    iconvd_status status = symbols ? ask_named(pool, encoding, bits) : ICONVD_OK;
    unsigned char *none = NULL;
    /* Another thread may have been faster. */
    if (status != ICONVD_OK || !atomic_compare_exchange_strong(&encoding->repertoire, &none, bits))
        free(bits);
    return status;
}

bool repertoire_has(const struct encoding *encoding, uint32_t character) {
    if (encoding->kind == US_ASCII)
        return character < 0x80;
    if (encoding->kind == ISO_8859_1)
        return character < 0x100;
    if (encoding->kind != BUILTIN_COUNT)
        return true;
    const unsigned char *bits = atomic_load_explicit(&encoding->repertoire, memory_order_relaxed);
    return character < 0x110000 && (bits[character / 8] >> character % 8 & 1) != 0;
}
