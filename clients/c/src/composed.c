/* Conversions from an encoding that composes.
 *
 * A piece of the source is brought to UTF-16BE, and from there to the target. Where the target stops before the end of the piece, the
 * source is read again, up to the character that was the last. So both sides stop at the same place. */
#include "composed.h"

/* A piece on its way. */
struct piece {
    struct composed_reading reading;
    struct composed_place begin;
    size_t length;
    struct buffer codes; /* the well-formed ones */
    struct buffer units; /* their characters */
    struct buffer text;  /* what was read */
};

static void end(struct piece *piece) {
    buffer_free(&piece->codes);
    buffer_free(&piece->units);
    buffer_free(&piece->text);
}

static void begin_reading(struct piece *piece) {
    piece->reading.now = piece->reading.last = piece->begin;
    piece->reading.units = piece->units.bytes;
    piece->reading.characters = 0;
}

/* Takes a piece of the source. */
static iconvd_status take(struct iconvd_cd *cd, struct piece *piece) {
    struct composed_reading *reading = &piece->reading;
    reading->by = cd->composed->by;
    reading->ignores = (cd->policy & ICONVD_IGNORE) != 0;
    reading->end = piece->begin.in + piece->length;
    begin_reading(piece);
    iconvd_status status = fronts_of(cd->from, &reading->fronts);
    if (status == ICONVD_OK)
        status = composed_decode(cd, reading, &piece->codes, &piece->units);
    /* A code may be two characters, and one is held from before. */
    return status == ICONVD_OK && !buffer_reserve(&piece->text, 4 * piece->codes.length + 8) ? ICONVD_ENOMEM : status;
}

/* How many characters are read at most: where there is no step between, the C library looks for room before it looks at a code. */
static size_t most_characters(const struct iconvd_cd *cd, const struct progress *progress) {
    return cd->composed->to_wide ? progress->out_left / 4 : SIZE_MAX;
}

/* Brings what was read to the target. `used` gets how much of it was. */
static iconvd_status put(struct iconvd_cd *cd, const struct piece *piece, struct progress *progress, size_t *used) {
    struct progress inner = *progress;
    *used = 0;
    if (piece->text.length == 0)
        return ICONVD_OK;
    inner.in = piece->text.bytes;
    inner.in_left = piece->text.length;
    iconvd_status status = composed_convert_units(cd->composed->target, &inner);
    *used = piece->text.length - inner.in_left;
    inner.in = progress->in;
    inner.in_left = progress->in_left;
    *progress = inner;
    size_t width;
    if (status == ICONVD_ENOCHAR)
        cd->composed->lacking = units_read(piece->text.bytes + *used, &width);
    return status;
}

static void move_to(struct iconvd_cd *cd, struct progress *progress, const struct composed_place *place) {
    progress->skipped += place->faults;
    progress->in_left -= (size_t)(place->in - progress->in);
    progress->in = place->in;
    cd->composed->held = place->held;
}

/* Converts one piece. OK: there may be more. */
static iconvd_status convert_one(struct iconvd_cd *cd, struct progress *progress, struct piece *piece) {
    struct composed_reading *reading = &piece->reading;
    size_t used;
    iconvd_status status = take(cd, piece);
    if (status != ICONVD_OK)
        return status;
    iconvd_status stop = composed_read(reading, most_characters(cd, progress), &piece->text);
    bool is_half = cd->composed->by->kind == COMPOSES_PAIRS && reading->now.held;
    if (stop == ICONVD_OK && (reading->now.in < reading->end || is_half))
        stop = ICONVD_E2BIG;
    status = put(cd, piece, progress, &used);
    if (status != ICONVD_OK && used == 0) {
        move_to(cd, progress, &cd->composed->last);
        return status;
    }
    if (used < piece->text.length) {
        begin_reading(piece);
        composed_read(reading, units_count(piece->text.bytes, used), NULL);
    }
    move_to(cd, progress, &reading->now);
    if (reading->characters > 0) {
        cd->composed->last = reading->last;
        cd->composed->last.faults = 0;
    }
    return status == ICONVD_OK ? stop : status;
}

bool composed_looks_ahead(const struct iconvd_cd *cd) {
    const struct composed *composed = cd->composed;
    return !composed->to_wide && !composed->target->own && (cd->policy == ICONVD_STRICT || cd->policy == ICONVD_TRANSLIT);
}

/* A call where the source composes. */
static iconvd_status convert_pieces(struct iconvd_cd *cd, struct progress *progress) {
    struct composed *composed = cd->composed;
    size_t most = composed->stopped ? COMPOSED_AFTER_STOP : input_for_room(COMPOSED_PIECE, progress->out_left);
    iconvd_status status = ICONVD_OK;
    composed->last = (struct composed_place){.in = progress->in, .held = composed->held};
    if (progress->in_left > 0 && composed_looks_ahead(cd))
        status = composed_read_ahead(cd, progress);
    while (status == ICONVD_OK && progress->in_left > 0) {
        size_t left = progress->in_left;
        struct piece piece = {.begin = {.in = progress->in, .held = composed->held}, .length = left < most ? left : most};
        status = convert_one(cd, progress, &piece);
        end(&piece);
        /* The piece cut a code. */
        if (status == ICONVD_EINVAL && piece.length < left && progress->in_left < left)
            status = ICONVD_OK;
        most = COMPOSED_PIECE;
    }
    return status;
}

iconvd_status composed_convert(struct iconvd_cd *cd, struct progress *progress) {
    iconvd_status status = cd->composed->source ? composed_write(cd, progress) : convert_pieces(cd, progress);
    cd->composed->stopped = status == ICONVD_ENOCHAR || status == ICONVD_EILSEQ;
    cd->composed->faulty = status == ICONVD_EILSEQ;
    return status;
}

/* How many bytes the next character has. */
static size_t first_length(struct iconvd_cd *cd, const struct progress *progress) {
    struct piece piece = {.begin = {.in = progress->in}, .length = progress->in_left < 8 ? progress->in_left : 8};
    size_t length = 0;
    if (take(cd, &piece) == ICONVD_OK) {
        composed_read(&piece.reading, 1, NULL);
        length = (size_t)(piece.reading.now.in - progress->in);
        /* Letters that are held have one byte. */
        if (piece.reading.characters > 0 && piece.reading.now.held && cd->composed->by->kind != COMPOSES_PAIRS)
            length--;
    }
    end(&piece);
    return length;
}

void composed_describe(struct iconvd_cd *cd, const struct progress *progress, iconvd_stop *stop) {
    struct composed *composed = cd->composed;
    const struct iconvd_cd *source = composed->source;
    if (stop->status == ICONVD_EILSEQ)
        stop->length = source ? faulty_length(source->pair.from->kind, progress->in, progress->in_left) : 1;
    if (stop->status != ICONVD_ENOCHAR)
        return;
    stop->character = composed->lacking;
    uint32_t character;
    if (source && next_character(composed->source, progress, &character, &stop->length) != ICONVD_OK)
        stop->character = 0;
    if (source)
        return;
    /* A character that is held has been used. */
    if (composed->held == composed->lacking)
        composed->held = 0;
    else
        stop->length = first_length(cd, progress);
}
