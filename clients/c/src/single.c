/* Encodings of one byte a character, behind another conversion: the service is asked once which character each byte is.
 *
 * A byte that composes may become two characters on the other side, and these are sent. So what is sent stays below the bound that
 * iconvd.h promises, and such a text takes one round trip instead of two. */
#include "convert.h"

enum { BYTES = 256, NONE = 0xffffff };

/* Asks the service for the characters of all bytes that have one. */
static iconvd_status ask(struct iconvd_pool *pool, struct encoding *encoding, uint32_t *characters) {
    struct pair pair = {.to = encoding_builtin(UTF_16BE), .from = encoding, .strict = true};
    struct fronts fronts;
    char codes[BYTES], units[4 * BYTES];
    size_t count = 0, length;
    iconvd_status status = fronts_of(encoding, &fronts);
    if (status != ICONVD_OK)
        return status;
    for (unsigned byte = 0; byte < BYTES; byte++) {
        codes[count] = (char)byte;
        characters[byte] = NONE;
        count += front_at(&fronts, &codes[count], 1, &length) == WELL_FORMED;
    }
    struct work work = {.in = codes, .in_length = count, .out = units, .room = sizeof units};
    status = pool_convert(pool, &pair, &work);
    if (status != ICONVD_OK)
        return status == ICONVD_ENOMEM ? status : ICONVD_LOST;
    for (size_t i = 0, at = 0, width; i < count && at < work.produced; i++, at += width)
        characters[(unsigned char)codes[i]] = units_read(units + at, &width);
    return ICONVD_OK;
}

/* The characters of the bytes, which are asked for the first time. */
static iconvd_status prepare(struct iconvd_pool *pool, struct encoding *encoding, const uint32_t **characters) {
    uint32_t *known = atomic_load_explicit(&encoding->characters, memory_order_acquire), *none = NULL;
    if (!known) {
        known = malloc(BYTES * sizeof *known);
        iconvd_status status = known ? ask(pool, encoding, known) : ICONVD_ENOMEM;
        if (status != ICONVD_OK) {
            free(known);
            return status;
        }
        /* Another thread may have been faster. */
        if (!atomic_compare_exchange_strong(&encoding->characters, &none, known)) {
            free(known);
            known = none;
        }
    }
    *characters = known;
    return ICONVD_OK;
}

iconvd_status single_convert(struct iconvd_pool *pool, struct encoding *encoding, struct work *work) {
    const uint32_t *characters = NULL;
    work->used = work->produced = work->replaced = 0;
    iconvd_status status = prepare(pool, encoding, &characters);
    while (status == ICONVD_OK && work->used < work->in_length) {
        uint32_t character = characters[(unsigned char)work->in[work->used]];
        if (character == NONE)
            return ICONVD_EILSEQ;
        if (work->room - work->produced < (character > 0xffff ? 4 : 2))
            return ICONVD_E2BIG;
        work->produced += character_write(UTF_16BE, character, work->out + work->produced);
        work->used++;
    }
    return status;
}
