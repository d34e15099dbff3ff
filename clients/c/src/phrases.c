/* Chooses transliterations that a target has, and asks the service for their bytes. */
#include "phrases.h"

#include "repertoire.h"
#include "translit.h"

static bool has_all(const struct encoding *to, const char *text, size_t length) {
    for (size_t at = 0; at < length;) {
        uint32_t character;
        at += utf8_read(text + at, &character);
        if (!repertoire_has(to, character))
            return false;
    }
    return true;
}

/* The first candidate that the target has, else `?`. NULL: it has none of them. */
static const char *choose(const struct encoding *to, size_t number, size_t *length) {
    const char *end;
    for (const char *at = translit_candidates(number); *at; at = end + 1) {
        end = strchr(at, '\xff');
        *length = (size_t)(end - at);
        if (has_all(to, at, *length))
            return at;
    }
    *length = 1;
    return repertoire_has(to, '?') ? "?" : NULL;
}

/* False: out of memory. */
static bool make_room(struct phrases *phrases) {
    size_t count = translit_count() + 1;
    if (!phrases->phrases)
        phrases->phrases = calloc(count, sizeof *phrases->phrases);
    if (!phrases->fresh)
        phrases->fresh = malloc(count * sizeof *phrases->fresh);
    return phrases->phrases && phrases->fresh;
}

const struct phrase *phrases_find(struct phrases *phrases, const struct encoding *to, uint32_t character) {
    size_t number = translit_number(character);
    if (!make_room(phrases))
        return NULL;
    struct phrase *phrase = &phrases->phrases[number];
    if (phrase->state != UNKNOWN)
        return phrase;
    size_t length;
    const char *text = choose(to, number, &length);
    if (!text) {
        phrase->state = NONE;
        return phrase;
    }
    *phrase = (struct phrase){.state = TEXT, .at = phrases->text.length, .length = length};
    phrases->fresh[phrases->fresh_count++] = (uint32_t)number;
    return buffer_append(&phrases->text, text, length) ? phrase : NULL;
}

/* How many bytes the first characters of the target have, which are those of a text in UTF-8. 0: they are not all there. */
static size_t measure(const struct fronts *fronts, const char *bytes, size_t left, const char *text, size_t length) {
    size_t used = 0, one;
    uint32_t character;
    for (size_t at = 0; at < length; at += utf8_read(text + at, &character)) {
        if (used == left || front_at(fronts, bytes + used, left - used, &one) != WELL_FORMED)
            return 0;
        used += one;
    }
    return used;
}

/* Finds the places of the new phrases among their bytes. False: there are other bytes. */
static bool place(struct phrases *phrases, const struct fronts *fronts, size_t begin) {
    size_t at = begin;
    for (size_t i = 0; i < phrases->fresh_count; i++) {
        struct phrase *phrase = &phrases->phrases[phrases->fresh[i]];
        const char *text = phrases->text.bytes + phrase->at;
        size_t length = measure(fronts, phrases->bytes.bytes + at, phrases->bytes.length - at, text, phrase->length);
        if (length == 0 && phrase->length > 0)
            return false;
        *phrase = (struct phrase){.state = ENCODED, .at = at, .length = length};
        at += length;
    }
    return at == phrases->bytes.length;
}

iconvd_status phrases_encode(struct phrases *phrases, struct iconvd_cd *cd) {
    struct pair pair = {.to = cd->pair.to, .from = encoding_builtin(UTF_8), .strict = true};
    struct buffer *bytes = &phrases->bytes;
    size_t begin = bytes->length, room = phrases->text.length * encoding_most_bytes(pair.to);
    struct fronts fronts;
    if (phrases->fresh_count == 0)
        return ICONVD_OK;
    iconvd_status status = fronts_of(pair.to, &fronts);
    if (status != ICONVD_OK || !buffer_reserve(bytes, room + 1))
        return ICONVD_ENOMEM;
    struct work work = {.in = phrases->text.bytes, .in_length = phrases->text.length, .out = bytes->bytes + begin, .room = room};
    if (work.in_length > 0)
        status = pool_convert(cd->pool, &pair, &work);
    bytes->length += work.produced;
    if (status != ICONVD_OK)
        return status == ICONVD_ENOMEM ? status : ICONVD_LOST;
    if (!place(phrases, &fronts, begin))
        return ICONVD_LOST;
    phrases->fresh_count = 0;
    phrases->text.length = 0;
    return ICONVD_OK;
}

void phrases_free(struct phrases *phrases) {
    free(phrases->phrases);
    free(phrases->fresh);
    buffer_free(&phrases->text);
    buffer_free(&phrases->bytes);
}
