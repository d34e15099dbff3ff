/* Conversions to an encoding that composes.
 *
 * A piece of the source is brought to UTF-16BE, where its characters are taken apart, or joined, and from there to the target. Where the
 * target stops before the end of the piece, the source is read again, up to the character that was the last. */
#include "composed.h"

/* A piece on its way. */
struct piece {
    size_t length;            /* of the source */
    struct buffer units;      /* its characters, in UTF-16BE */
    struct progress end;      /* where the source is after all of them */
    struct iconvd_cd source;  /* as it was before the piece */
    iconvd_status status;     /* why the source ends there */
    struct buffer text;       /* what the target is given */
};

/* Takes the source's part of a piece. */
static iconvd_status take(struct iconvd_cd *cd, const struct progress *progress, struct piece *piece) {
    struct iconvd_cd *source = cd->composed->source;
    size_t room = (piece->length / encoding_least_bytes(source->pair.from) + 1) * 4;
    piece->source = *source;
    if (!buffer_reserve(&piece->units, room))
        return ICONVD_ENOMEM;
    piece->end = (struct progress){.in = progress->in, .in_left = piece->length, .out = piece->units.bytes, .out_left = room};
    source->ahead = SIZE_MAX;
    piece->status = convert_any(source, &piece->end);
    piece->units.length = (size_t)(piece->end.out - piece->units.bytes);
    /* A character may become three, and one is held from before. */
    bool has_memory = buffer_reserve(&piece->text, COMPOSING_PARTS * piece->units.length + 8);
    return has_memory && piece->status != ICONVD_ENOMEM ? ICONVD_OK : ICONVD_ENOMEM;
}

/* Goes back to where the source was after the characters that the target has used. */
static iconvd_status go_back(struct iconvd_cd *cd, const char *in, struct piece *piece, size_t used) {
    struct iconvd_cd *source = cd->composed->source;
    *source = piece->source;
    source->ahead = SIZE_MAX;
    piece->end = (struct progress){.in = in, .in_left = piece->length, .out = piece->units.bytes, .out_left = used};
    iconvd_status status = convert_any(source, &piece->end);
    return status == ICONVD_E2BIG || piece->end.out_left == 0 ? ICONVD_OK : status;
}

static void move_to(struct progress *progress, const struct composed_place *place) {
    progress->skipped += place->faults;
    progress->in_left -= (size_t)(place->in - progress->in);
    progress->in = place->in;
}

/* Moves on by the source of a piece, and notes where that was after its last character. */
static void move_on(struct iconvd_cd *cd, struct progress *progress, const struct piece *piece) {
    const struct progress *end = &piece->end;
    const struct composed_place now = {.in = end->in, .faults = end->skipped};
    if (piece->units.length > 0)
        cd->composed->last = (struct composed_place){.in = end->in - end->loose};
    move_to(progress, &now);
}

/* Brings a piece that was taken to the target. */
static iconvd_status put(struct iconvd_cd *cd, struct piece *piece, struct progress *progress, struct preparing *preparing) {
    struct prepared prepared = {.end = *preparing};
    composed_prepare(&prepared.end, SIZE_MAX, &piece->text);
    prepared.text = piece->text.bytes;
    prepared.length = piece->text.length;
    return composed_put(cd, &prepared, progress, preparing);
}

/* Converts one piece. OK: there may be more. */
static iconvd_status convert_one(struct iconvd_cd *cd, struct progress *progress, struct piece *piece) {
    struct composed *composed = cd->composed;
    const struct progress before = *progress;
    iconvd_status status = take(cd, progress, piece);
    if (status != ICONVD_OK)
        return status;
    struct preparing preparing = {
        .by = composed->by, .units = piece->units.bytes, .length = piece->units.length, .held = composed->held};
    status = put(cd, piece, progress, &preparing);
    if (status != ICONVD_OK && preparing.at == 0) {
        composed->held = preparing.held;
        *composed->source = piece->source;
        move_to(progress, &composed->last);
        return status;
    }
    if (preparing.at < piece->units.length && go_back(cd, before.in, piece, preparing.at) != ICONVD_OK) {
        *progress = before;
        return ICONVD_LOST;
    }
    composed->held = preparing.held;
    move_on(cd, progress, piece);
    return status == ICONVD_OK ? piece->status : status;
}

/* From WCHAR_T there is no step between: the C library looks for room, and writes what is held, before it looks at the next value. */
static iconvd_status settle_wide(struct iconvd_cd *cd, struct progress *progress, iconvd_status status) {
    struct composed *composed = cd->composed;
    bool is_source = status == ICONVD_OK || status == ICONVD_EILSEQ || status == ICONVD_EINVAL;
    if (is_source && progress->out_left == 0) {
        progress->in_left += (size_t)(progress->in - composed->last.in);
        progress->in = composed->last.in;
        return progress->in_left >= 4 ? ICONVD_E2BIG : progress->in_left > 0 ? ICONVD_EINVAL : ICONVD_OK;
    }
    if (status != ICONVD_EILSEQ || !composed->held)
        return status;
    iconvd_status held = composed_write_held(composed, &progress->out, &progress->out_left);
    return held == ICONVD_OK ? status : held;
}

iconvd_status composed_write(struct iconvd_cd *cd, struct progress *progress) {
    struct composed *composed = cd->composed;
    size_t most = composed->stopped ? COMPOSED_AFTER_STOP : input_for_room(COMPOSED_PIECE, progress->out_left);
    iconvd_status status = mark_read(composed->source, progress);
    const struct progress before = *progress;
    composed->last = (struct composed_place){.in = progress->in};
    if (status == ICONVD_OK && progress->in_left > 0 && composed_looks_ahead(cd))
        status = composed_write_ahead(cd, progress);
    while (status == ICONVD_OK && progress->in_left > 0) {
        size_t left = progress->in_left;
        struct piece piece = {.length = left < most ? left : most};
        status = convert_one(cd, progress, &piece);
        buffer_free(&piece.units);
        buffer_free(&piece.text);
        /* The piece cut a character. */
        if (status == ICONVD_EINVAL && piece.length < left && progress->in_left < left)
            status = ICONVD_OK;
        most = COMPOSED_PIECE;
    }
    return cd->from_wide && before.in_left > 0 ? settle_wide(cd, progress, status) : status;
}
