/* Writes texts with shifts and escapes. */
#include "shifted.h"

/* Where a text is written. */
struct writer {
    const struct shifter *shifter;
    const struct shift_plan *plan;
    struct shift_state state;
    char *out;
    size_t out_left;
    size_t at[GROUPS]; /* how much of the codes of each group was written */
};

/* False: there is no room. */
static bool put(struct writer *writer, const unsigned char *bytes, size_t length) {
    if (writer->out_left < length)
        return false;
    if (length > 0)
        memcpy(writer->out, bytes, length);
    writer->out += length;
    writer->out_left -= length;
    return true;
}

static bool put_sequence(struct writer *writer, const struct shifted_sequence *sequence) {
    return put(writer, sequence->bytes, sequence->length);
}

/* Brings the first set into use again. */
static bool put_start(struct writer *writer) {
    unsigned char start = writer->shifter->encoding->start;
    if (writer->state.out && !put_sequence(writer, writer->shifter->of[IN]))
        return false;
    writer->state.out = false;
    if (writer->state.set != start && !put_sequence(writer, writer->shifter->ways[start]))
        return false;
    writer->state.set = start;
    return true;
}

/* Brings a set into use. What is written of that stays written where the rest has no room, as in the C library. */
static bool put_set(struct writer *writer, unsigned char set) {
    const struct shifter *shifter = writer->shifter;
    struct shift_state *state = &writer->state;
    const struct shifted_sequence *way = shifter->ways[set];
    if (set == shifter->encoding->start)
        return put_start(writer);
    if (way->meaning == USE || way->meaning == G2) {
        unsigned char *now = way->meaning == USE ? &state->set : &state->g2;
        if (*now != set && !put_sequence(writer, way))
            return false;
        *now = set;
        return true;
    }
    if (state->g1 != set && !put_sequence(writer, way))
        return false;
    state->g1 = set;
    if (!state->out && !put_sequence(writer, shifter->of[OUT]))
        return false;
    state->out = true;
    return true;
}

/* The bytes of a code, with the single shift before it, and how many; 0 where the service has written no such code. */
static size_t spell(const struct writer *writer, const struct planned *planned, unsigned char *bytes) {
    const struct shifter *shifter = writer->shifter;
    const struct shifted_set *set = shifted_set(planned->set);
    size_t group = shifter->group_of[planned->set], length = 0;
    const struct shifted_sequence *way = shifter->ways[planned->set], *itself = shifter->of[ITSELF];
    if (way && way->meaning == G2) {
        const struct shifted_sequence *single = shifter->of[SINGLE];
        memcpy(bytes, single->bytes, single->length);
        length = single->length;
    }
    if (planned->set == 0 && itself && itself->set == planned->code) {
        memcpy(bytes, itself->bytes, itself->length);
        return itself->length;
    }
    if (group == DIRECT) {
        bytes[length] = planned->code;
        return length + 1;
    }
    const struct buffer *codes = &writer->plan->codes[group];
    size_t there = (size_t)set->before_length + set->bytes;
    if (codes->length - writer->at[group] < there ||
        !set_from_service(set, (const unsigned char *)codes->bytes + writer->at[group], there, bytes + length))
        return 0;
    return length + set->bytes;
}

/* One character. OK, E2BIG, LOST. */
static iconvd_status put_character(struct writer *writer, const struct planned *planned) {
    const struct shifted_set *set = shifted_set(planned->set);
    unsigned char bytes[8], group = writer->shifter->group_of[planned->set];
    size_t length = spell(writer, planned, bytes);
    if (length == 0)
        return ICONVD_LOST;
    if (!put_set(writer, planned->set) || !put(writer, bytes, length))
        return ICONVD_E2BIG;
    if (group != DIRECT)
        writer->at[group] += (size_t)set->before_length + set->bytes;
    shift_written(writer->shifter, &writer->state, planned->set, planned->set == 0 ? planned->code : 0);
    return ICONVD_OK;
}

/* All of a transliteration, or nothing. */
static iconvd_status put_phrase(struct writer *writer, const struct planned *planned, size_t left) {
    struct writer before = *writer;
    iconvd_status status = put_character(writer, planned);
    for (size_t i = 1; status == ICONVD_OK && i < left && planned[i].kind == MORE; i++)
        status = put_character(writer, planned + i);
    if (status != ICONVD_OK)
        *writer = before;
    return status;
}

/* What is planned for one character of the text. */
static iconvd_status put_planned(struct writer *writer, const struct planned *planned, size_t left, struct progress *progress) {
    iconvd_status status = ICONVD_OK;
    if (planned->kind == MORE)
        return ICONVD_OK;
    if (writer->out_left < shift_least_room(writer->shifter, &writer->state))
        return ICONVD_E2BIG;
    if (planned->kind == LACKS)
        return ICONVD_ENOCHAR;
    if (planned->kind == WRITTEN)
        status = put_character(writer, planned);
    if (planned->kind == PHRASE)
        status = put_phrase(writer, planned, left);
    if (status == ICONVD_OK) {
        progress->replaced += planned->kind == PHRASE || planned->kind == EMPTY;
        progress->skipped += planned->kind == LEFT;
        progress->lacking += planned->kind == LEFT;
    }
    return status;
}

/* The header of a text, before its first character. */
static bool put_header(struct writer *writer) {
    if (writer->state.header_due && !put_sequence(writer, writer->shifter->of[HEADER]))
        return false;
    writer->state.header_due = false;
    return true;
}

iconvd_status shift_write(struct iconvd_cd *cd, const struct shift_plan *plan, struct progress *progress, size_t *used) {
    struct writer writer = {.shifter = cd->shifted->to,
                            .plan = plan,
                            .state = cd->shifted->writing,
                            .out = progress->out,
                            .out_left = progress->out_left};
    const struct planned *planned = (const struct planned *)(const void *)plan->planned.bytes;
    size_t count = plan->planned.length / sizeof *planned;
    iconvd_status status = put_header(&writer) ? ICONVD_OK : ICONVD_E2BIG;
    *used = 0;
    for (size_t i = 0; status == ICONVD_OK && i < count; i++) {
        status = put_planned(&writer, &planned[i], count - i, progress);
        if (status == ICONVD_OK)
            *used += planned[i].width;
    }
    cd->shifted->writing = writer.state;
    progress->out = writer.out;
    progress->out_left = writer.out_left;
    return status;
}

bool shift_end(const struct shifter *shifter, struct shift_state *state, char **out, size_t *out_left) {
    struct writer writer = {.shifter = shifter, .state = *state, .out = *out, .out_left = *out_left};
    if (!put_header(&writer) || !put_start(&writer))
        return false;
    *out = writer.out;
    *out_left = writer.out_left;
    return true;
}

size_t shift_spell(const struct shifter *shifter, const struct shift_state *state, char *out) {
    struct writer writer = {.shifter = shifter, .state = shift_begin(shifter, true), .out = out, .out_left = SHIFT_SEQUENCES};
    if (state->g2 != NO_SET)
        put_set(&writer, state->g2);
    if (state->set != shifter->encoding->start)
        put_set(&writer, state->set);
    if (state->out)
        put_set(&writer, state->g1);
    return SHIFT_SEQUENCES - writer.out_left;
}
