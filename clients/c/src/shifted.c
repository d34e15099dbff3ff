/* Conversions from and to encodings with shifts.
 *
 * A piece of the source is brought to UTF-16BE, and from there to the target. Where the target stops before the end of the piece, the
 * source is read again, up to the character that was the last. So both sides stop at the same place, each with its state there. */
#include "shifted.h"

/* PIECE is how much of the source is taken at once. AFTER_STOP is how much is taken first where a text has just stopped, since there may
   be more of what is in the way; and GROWTH times as much then. */
enum { PIECE = 131072, AFTER_STOP = 64, GROWTH = 16 };

/* A piece on its way. */
struct piece {
    size_t length;               /* of the source */
    struct buffer units;         /* its characters, in UTF-16BE */
    struct progress end;         /* where the source is after all of them */
    struct shift_reading reading;
    struct iconvd_cd inner;      /* as it was before the piece */
    iconvd_status status;        /* why the source ends there */
};

static struct shift_reading begin_reading(const struct iconvd_cd *cd, const struct progress *progress, size_t length) {
    return (struct shift_reading){.shifter = cd->shifted->from,
                                  .state = cd->shifted->reading,
                                  .ignores = (cd->policy & ICONVD_IGNORE) != 0,
                                  .in = progress->in,
                                  .left = length};
}

/* How many characters a target takes that is WCHAR_T: the C library looks for room before it looks at a sequence. */
static size_t most_characters(const struct iconvd_cd *cd, const struct progress *progress) {
    return cd->shifted->to_wide ? progress->out_left / 4 : SIZE_MAX;
}

/* Takes a piece out of a source with shifts. */
static iconvd_status take_shifted(struct iconvd_cd *cd, const struct progress *progress, struct piece *piece) {
    struct shift_text text = {.plan = {.bytes = NULL}};
    piece->reading = begin_reading(cd, progress, piece->length);
    piece->status = shift_read(&piece->reading, most_characters(cd, progress), &text);
    iconvd_status status = piece->status == ICONVD_ENOMEM ? ICONVD_ENOMEM : ICONVD_OK;
    if (status == ICONVD_OK && text.plan.length > 0)
        status = shift_text_convert(cd->pool, cd->shifted->from, &text, &piece->units);
    if (piece->status == ICONVD_OK && piece->reading.left > 0)
        piece->status = ICONVD_E2BIG;
    shift_text_free(&text);
    return status;
}

/* Takes a piece of any other source. */
static iconvd_status take_plain(struct iconvd_cd *cd, const struct progress *progress, struct piece *piece) {
    struct iconvd_cd *inner = &cd->shifted->inner;
    size_t room = (piece->length / encoding_least_bytes(inner->pair.from) + 1) * 4;
    piece->inner = *inner;
    if (!buffer_reserve(&piece->units, room))
        return ICONVD_ENOMEM;
    piece->end = (struct progress){.in = progress->in, .in_left = piece->length, .out = piece->units.bytes, .out_left = room};
    inner->ahead = SIZE_MAX;
    piece->status = convert_part(inner, &piece->end);
    piece->units.length = (size_t)(piece->end.out - piece->units.bytes);
    return piece->status == ICONVD_ENOMEM ? ICONVD_ENOMEM : ICONVD_OK;
}

/* Goes back to where the source was after the characters that the target has used. */
static iconvd_status go_back(struct iconvd_cd *cd, const struct progress *progress, struct piece *piece, size_t used) {
    struct iconvd_cd *inner = &cd->shifted->inner;
    if (cd->shifted->from) {
        piece->reading = begin_reading(cd, progress, piece->length);
        return shift_read(&piece->reading, units_count(piece->units.bytes, used), NULL);
    }
    *inner = piece->inner;
    inner->ahead = SIZE_MAX;
    piece->end = (struct progress){.in = progress->in, .in_left = piece->length, .out = piece->units.bytes, .out_left = used};
    iconvd_status status = convert_part(inner, &piece->end);
    return status == ICONVD_E2BIG || piece->end.out_left == 0 ? ICONVD_OK : status;
}

/* Moves to a place of the source. */
static void move_to(struct iconvd_cd *cd, struct progress *progress, const struct shift_place *place) {
    progress->skipped += place->faults;
    progress->in_left -= (size_t)(place->in - progress->in);
    progress->in = place->in;
    if (cd->shifted->from)
        cd->shifted->reading = place->state;
}

/* Moves on by the source of a piece, and notes where that was after its last character. */
static void move_on(struct iconvd_cd *cd, struct progress *progress, const struct piece *piece) {
    const struct shift_reading *reading = &piece->reading;
    const struct progress *end = &piece->end;
    struct shift_place now = {.in = end->in, .faults = end->skipped};
    struct shift_place last = {.in = end->in - end->loose, .faults = end->skipped - end->loose_faults};
    if (cd->shifted->from) {
        now = (struct shift_place){.state = reading->state, .in = reading->in, .faults = reading->faults};
        last = reading->last;
    }
    if (piece->units.length > 0) {
        cd->shifted->last = last;
        cd->shifted->last.faults += progress->skipped;
    }
    move_to(cd, progress, &now);
}

/* Goes back to where the call was after its last character: sequences and faults after that are read again by the next one. */
static void move_back(struct iconvd_cd *cd, struct progress *progress, const struct piece *piece) {
    if (!cd->shifted->from)
        cd->shifted->inner = piece->inner;
    progress->skipped = 0;
    move_to(cd, progress, &cd->shifted->last);
}

/* Brings a piece to a target with shifts. */
static iconvd_status put_shifted(struct iconvd_cd *cd, const struct piece *piece, struct progress *progress, size_t *used) {
    struct shift_plan plan = {.planned = {.bytes = NULL}};
    iconvd_status status = shift_plan(cd, &plan, &piece->units);
    *used = 0;
    if (status == ICONVD_OK)
        status = shift_write(cd, &plan, progress, used);
    shift_plan_free(&plan);
    return status;
}

/* Brings it to any other target. */
static iconvd_status put_plain(struct iconvd_cd *cd, const struct piece *piece, struct progress *progress, size_t *used) {
    struct progress inner = *progress;
    inner.in = piece->units.bytes;
    inner.in_left = piece->units.length;
    cd->shifted->inner.ahead = SIZE_MAX;
    iconvd_status status = convert_part(&cd->shifted->inner, &inner);
    *used = piece->units.length - inner.in_left;
    inner.in = progress->in;
    inner.in_left = progress->in_left;
    *progress = inner;
    return status;
}

/* Brings a piece that was taken to the target, and moves on by what was done of it. */
static iconvd_status put_piece(struct iconvd_cd *cd, struct progress *progress, struct piece *piece) {
    struct progress before = *progress;
    struct shift_state writing = cd->shifted->writing;
    size_t used = 0, width;
    iconvd_status status = ICONVD_OK;
    if (piece->units.length > 0)
        status = cd->shifted->to ? put_shifted(cd, piece, progress, &used) : put_plain(cd, piece, progress, &used);
    if (status == ICONVD_ENOCHAR)
        cd->shifted->lacking = units_read(piece->units.bytes + used, &width);
    if (used == 0 && status != ICONVD_OK) {
        move_back(cd, progress, piece);
        return status;
    }
    if (used < piece->units.length) {
        iconvd_status back = go_back(cd, &before, piece, used);
        if (back != ICONVD_OK) {
            *progress = before;
            cd->shifted->writing = writing;
            return back == ICONVD_ENOMEM ? back : ICONVD_LOST;
        }
    }
    move_on(cd, progress, piece);
    return status == ICONVD_OK ? piece->status : status;
}

/* Converts one piece. OK: there may be more. */
static iconvd_status convert_one(struct iconvd_cd *cd, struct progress *progress, size_t length) {
    struct piece piece = {.length = length};
    size_t left = progress->in_left;
    iconvd_status status = cd->shifted->from ? take_shifted(cd, progress, &piece) : take_plain(cd, progress, &piece);
    if (status == ICONVD_OK)
        status = put_piece(cd, progress, &piece);
    buffer_free(&piece.units);
    /* The piece cut a character. */
    if (status == ICONVD_EINVAL && length < left && progress->in_left < left)
        return ICONVD_OK;
    return status;
}

/* What is done before the first piece of a call. */
static iconvd_status begin(struct iconvd_cd *cd, struct progress *progress) {
    struct shift_plan none = {.planned = {.bytes = NULL}};
    iconvd_status status = cd->shifted->from ? ICONVD_OK : mark_read(&cd->shifted->inner, progress);
    size_t used;
    /* Without a step between, the header does not wait for a character. */
    if (cd->from_wide && progress->in_left > 0)
        status = shift_write(cd, &none, progress, &used);
    cd->shifted->last = (struct shift_place){.state = cd->shifted->reading, .in = progress->in};
    return status;
}

/* Whether a call goes on by what shifted_ahead.c knows: to a target without marks, shifts or a state. */
static bool looks_ahead(const struct iconvd_cd *cd) {
    const struct iconvd_cd *inner = &cd->shifted->inner;
    bool plain = inner->pair.to && inner->pair.to == encoding_written(inner->to) && !inner->own && !cd->shifted->to_wide;
    return cd->shifted->faulty && cd->shifted->from && plain && !(cd->policy & (ICONVD_IGNORE | ICONVD_SUBSTITUTE));
}

iconvd_status shifted_convert(struct iconvd_cd *cd, struct progress *progress) {
    iconvd_status status = begin(cd, progress);
    if (status == ICONVD_OK && progress->in_left > 0 && looks_ahead(cd))
        status = shift_ahead_convert(cd, progress);
    size_t most = cd->shifted->stopped ? AFTER_STOP : input_for_room(PIECE, progress->out_left);
    while (status == ICONVD_OK && progress->in_left > 0) {
        status = convert_one(cd, progress, progress->in_left < most ? progress->in_left : most);
        most = cd->shifted->stopped && most < PIECE / GROWTH ? GROWTH * most : PIECE;
    }
    if (status == ICONVD_EILSEQ && cd->from_wide && progress->out_left < shift_least_room(cd->shifted->to, &cd->shifted->writing))
        status = ICONVD_E2BIG;
    cd->shifted->stopped = status == ICONVD_ENOCHAR || status == ICONVD_EILSEQ;
    cd->shifted->faulty = status == ICONVD_EILSEQ;
    return status;
}

void shifted_describe(struct iconvd_cd *cd, const struct progress *progress, iconvd_stop *stop) {
    struct shift_reading reading = begin_reading(cd, progress, progress->in_left);
    if (stop->status == ICONVD_EILSEQ && cd->shifted->from)
        stop->length = shift_faulty_length(&reading);
    if (stop->status != ICONVD_ENOCHAR)
        return;
    stop->character = cd->shifted->lacking;
    if (!cd->shifted->from) {
        uint32_t character;
        if (next_character(&cd->shifted->inner, progress, &character, &stop->length) != ICONVD_OK)
            stop->character = 0;
    } else if (shift_read(&reading, 1, NULL) == ICONVD_OK) {
        stop->length = progress->in_left - reading.left;
    }
}
