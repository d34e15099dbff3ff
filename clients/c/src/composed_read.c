/* Reads texts in an encoding that composes, step by step as the C library does. */
#include "composed.h"

enum front composed_front(const struct composed_reading *reading, const char *at, size_t *length) {
    size_t left = (size_t)(reading->end - at);
    unsigned char first = (unsigned char)*at;
    bool waits = reading->by->kind == COMPOSES_PAIRS && left == 1 && first > 0x80 && first < 0xff;
    return waits ? CUT_OFF : front_at(&reading->fronts, at, left, length);
}

/* Copies the well-formed codes up to what ends the text. False: out of memory. */
static bool gather(const struct composed_reading *reading, struct buffer *codes) {
    size_t length;
    if (!buffer_reserve(codes, (size_t)(reading->end - reading->now.in) + 1))
        return false;
    for (const char *at = reading->now.in; at < reading->end; at += length) {
        enum front front = composed_front(reading, at, &length);
        if (front == WELL_FORMED)
            buffer_append(codes, at, length);
        else if (front == CUT_OFF || !(reading->ignores || reading->marks_faults))
            return true;
        else
            length = 1;
    }
    return true;
}

iconvd_status composed_decode(struct iconvd_cd *cd, struct composed_reading *reading, struct buffer *codes, struct buffer *units) {
    struct pair pair = {.to = encoding_builtin(UTF_16BE), .from = cd->from, .strict = true};
    /* A code may be two characters. */
    if (!gather(reading, codes) || !buffer_reserve(units, 4 * codes->length + 1))
        return ICONVD_ENOMEM;
    struct work work = {.in = codes->bytes, .in_length = codes->length, .out = units->bytes, .room = 4 * codes->length};
    iconvd_status status = ICONVD_OK;
    if (work.in_length > 0)
        status = reading->by->kind == COMPOSES_PAIRS ? pool_convert(cd->pool, &pair, &work) : single_convert(cd->pool, cd->from, &work);
    units->length = work.produced;
    reading->units = units->bytes;
    return status == ICONVD_OK || status == ICONVD_ENOMEM ? status : ICONVD_LOST;
}

static void give(struct composed_reading *reading, uint32_t character, struct buffer *text) {
    if (text)
        units_append(text, character);
    reading->characters++;
}

/* Moves on over the character at the front. */
static void pass(struct composed_reading *reading, size_t length, size_t width) {
    reading->now.in += length;
    reading->units += width;
}

/* The next code of an encoding whose codes are pairs. */
static void read_pairs(struct composed_reading *reading, size_t length, size_t most, struct buffer *text) {
    size_t width;
    uint32_t character = units_read(reading->units, &width);
    const uint16_t *parts = composing_split(reading->by, character);
    pass(reading, length, width);
    give(reading, parts ? parts[0] : character, text);
    if (!parts)
        return;
    if (reading->characters < most)
        give(reading, parts[1], text);
    else
        reading->now.held = parts[1];
}

/* The next code of one that holds letters back. */
static void read_letters(struct composed_reading *reading, size_t length, size_t most, struct buffer *text) {
    const struct composing *by = reading->by;
    size_t width;
    uint32_t character = units_read(reading->units, &width), held = reading->now.held;
    uint32_t joined = held ? composing_join(by, held, character) : 0;
    bool is_letter = character >= by->first && character <= by->last;
    reading->now.held = 0;
    if (joined) {
        pass(reading, length, width);
        if (by->kind == COMPOSES_MORE && composing_has_letter(by, joined))
            reading->now.held = joined;
        else
            give(reading, joined, text);
        return;
    }
    if (held)
        give(reading, held, text);
    if (held && !is_letter && reading->characters >= most)
        return;
    pass(reading, length, width);
    if (is_letter)
        reading->now.held = character;
    else
        give(reading, character, text);
}

/* One step. */
static iconvd_status read_one(struct composed_reading *reading, size_t most, struct buffer *text) {
    size_t length;
    bool has_pairs = reading->by->kind == COMPOSES_PAIRS;
    if (has_pairs && reading->now.held) {
        give(reading, reading->now.held, text);
        reading->now.held = 0;
        return ICONVD_OK;
    }
    enum front front = composed_front(reading, reading->now.in, &length);
    if (front == CUT_OFF)
        return ICONVD_EINVAL;
    if (front == FAULTY && reading->marks_faults && text)
        units_append(text, COMPOSED_FAULT);
    else if (front == FAULTY && !reading->ignores)
        return ICONVD_EILSEQ;
    if (front == FAULTY) {
        reading->now.in++;
        reading->now.faults++;
    } else if (has_pairs) {
        read_pairs(reading, length, most, text);
    } else {
        read_letters(reading, length, most, text);
    }
    return ICONVD_OK;
}

iconvd_status composed_read(struct composed_reading *reading, size_t most, struct buffer *text) {
    iconvd_status status = ICONVD_OK;
    while (status == ICONVD_OK && reading->now.in < reading->end && reading->characters < most) {
        size_t before = reading->characters;
        status = read_one(reading, most, text);
        if (reading->characters > before)
            reading->last = reading->now;
    }
    return status;
}
