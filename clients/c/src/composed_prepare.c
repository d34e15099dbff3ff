/* Brings characters in UTF-16BE to a target that composes: takes them apart, or joins them, and has the service write their codes. */
#include "composed.h"
#include "repertoire.h"

/* A character that no encoding has: what a text has of those that stand for pairs. */
enum { NONE = 0xfdef };

static void give(struct preparing *preparing, uint32_t character, struct buffer *text) {
    preparing->given += character > 0xffff ? 4 : 2;
    if (text)
        units_append(text, character);
}

/* The next character, of an encoding whose codes are pairs. */
static void prepare_pair(struct preparing *preparing, uint32_t character, size_t width, struct buffer *text) {
    uint32_t held = preparing->held, joined = held ? composing_join(preparing->by, held, character) : 0;
    preparing->held = 0;
    if (held && !joined) {
        give(preparing, held, text);
        return;
    }
    preparing->at += width;
    if (joined)
        give(preparing, joined, text);
    else if (composing_has_letter(preparing->by, character))
        preparing->held = character;
    else
        give(preparing, composing_split(preparing->by, character) ? NONE : character, text);
}

/* The next character of another encoding. False: the target would be given more than `most` bytes. */
static bool prepare_parts(struct preparing *preparing, uint32_t character, size_t width, size_t most, struct buffer *text) {
    const uint16_t *parts = composing_split(preparing->by, character);
    size_t count = 0;
    while (parts && parts[count])
        count++;
    if (preparing->given + (parts ? 2 * count : width) > most)
        return false;
    for (size_t i = 0; i < count; i++)
        give(preparing, parts[i], text);
    if (!parts)
        give(preparing, character, text);
    preparing->at += width;
    return true;
}

void composed_prepare(struct preparing *preparing, size_t most, struct buffer *text) {
    bool more = true;
    while (more && preparing->at < preparing->length && preparing->given < most) {
        size_t width;
        uint32_t character = units_read(preparing->units + preparing->at, &width);
        if (preparing->by->kind == COMPOSES_PAIRS)
            prepare_pair(preparing, character, width, text);
        else
            more = prepare_parts(preparing, character, width, most, text);
    }
}

/* A letter is held where there is any room at all. */
static iconvd_status hold(const struct progress *progress, struct preparing *preparing, iconvd_status status) {
    bool has_room = progress->out_left > 0;
    if (preparing->by->kind != COMPOSES_PAIRS)
        return status;
    if (status == ICONVD_OK && preparing->held && preparing->at > 0 && !has_room) {
        preparing->held = 0;
        preparing->at -= 2;
        return ICONVD_E2BIG;
    }
    if (status == ICONVD_E2BIG && has_room && !preparing->held && preparing->at < preparing->length) {
        size_t width;
        uint32_t character = units_read(preparing->units + preparing->at, &width);
        if (composing_has_letter(preparing->by, character)) {
            preparing->held = character;
            preparing->at += width;
        }
    }
    return status;
}

/* Whether a target lacks one of the characters of a text. */
static iconvd_status find_lacking(const struct iconvd_cd *target, const struct progress *progress, bool *lacks) {
    size_t width;
    iconvd_status status = repertoire_prepare(target->pool, target->pair.to);
    *lacks = false;
    for (size_t at = 0; status == ICONVD_OK && !*lacks && at < progress->in_left; at += width)
        *lacks = !repertoire_has(target->pair.to, units_read(progress->in + at, &width));
    return status;
}

iconvd_status composed_convert_units(struct iconvd_cd *target, struct progress *progress) {
    bool plain = !target->own && !target->shifted && !target->composed, lacks = false;
    iconvd_status status = ICONVD_OK;
    target->ahead = SIZE_MAX;
    if (plain && target->policy & (ICONVD_IGNORE | ICONVD_TRANSLIT))
        status = find_lacking(target, progress, &lacks);
    if (lacks)
        status = convert_sifted(target, progress, ICONVD_ENOCHAR);
    return status == ICONVD_OK && progress->in_left > 0 ? convert_any(target, progress) : status;
}

iconvd_status composed_put(struct iconvd_cd *cd, const struct prepared *prepared, struct progress *progress,
                           struct preparing *preparing) {
    struct composed *composed = cd->composed;
    struct progress inner = *progress;
    inner.in = prepared->text;
    inner.in_left = prepared->length + prepared->beyond;
    iconvd_status status = ICONVD_OK;
    /* A fault needs no room. */
    if (prepared->length > 0 || (prepared->beyond > 0 && progress->out_left > 0))
        status = prepared->beyond > 0 ? convert_any(composed->target, &inner) : composed_convert_units(composed->target, &inner);
    size_t used = (size_t)(inner.in - prepared->text), width;
    if (status == ICONVD_ENOCHAR)
        composed->lacking = units_read(prepared->text + used, &width);
    inner.in = progress->in;
    inner.in_left = progress->in_left;
    *progress = inner;
    if (used == prepared->length && (status == ICONVD_OK || status == ICONVD_EILSEQ)) {
        *preparing = prepared->end;
        return hold(progress, preparing, ICONVD_OK);
    }
    composed_prepare(preparing, used, NULL);
    /* A part of a character is not written: each part is a byte. */
    size_t over = (used - preparing->given) / 2;
    progress->out -= over;
    progress->out_left += over;
    return hold(progress, preparing, status);
}
