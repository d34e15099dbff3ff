/* Reads texts with shifts and escapes. */
#include "shifted.h"

/* What is at the front of a text. */
struct item {
    enum { CHARACTER, PASSED, FAULT, CUT } kind; /* PASSED: a sequence, which has changed the state */
    size_t length;
    unsigned char set;     /* of a character */
    unsigned char bytes[4]; /* as the service has it; a direct one has its code point here */
    size_t count;
};

static bool begins_sequence(const struct shifter *shifter, unsigned char byte) {
    return shifter->encoding->begins[byte / 32] >> byte % 32 & 1;
}

static const struct item A_FAULT = {.kind = FAULT, .length = 1};

/* A code of a set at the front of `left` bytes, one at least. */
static struct item code_at(const struct shifter *shifter, unsigned char number, const unsigned char *in, size_t left) {
    const struct shifted_set *set = shifted_set(number);
    const struct set_map *map = shifter->maps[number];
    struct item item = {.kind = CHARACTER, .length = set->bytes, .set = number};
    size_t length;
    if (left < set->bytes)
        return in[0] >= set->first_lead && in[0] <= set->last_lead ? (struct item){.kind = CUT} : A_FAULT;
    item.count = set_to_service(set, in, item.bytes);
    if (item.count == 0)
        return A_FAULT;
    if (map->codes && (codes_front(map->codes, item.bytes, item.count, &length) != WELL_FORMED || length != item.count))
        return A_FAULT;
    return item;
}

/* One code after a single shift. As in the C library, a fault is all of it where it has one byte, and else the shift. */
static struct item single_at(const struct shifter *shifter, unsigned char number, const unsigned char *in, size_t left, size_t shift) {
    if (number == NO_SET)
        return A_FAULT;
    if (left < shift + shifted_set(number)->bytes)
        return (struct item){.kind = CUT};
    struct item item = code_at(shifter, number, in + shift, left - shift);
    if (shifter->maps[number]->codes && shifted_set(number)->bytes == 1 && (in[shift] < 0x20 || in[shift] >= 0x80))
        return A_FAULT;
    bool is_half = item.kind == FAULT && shifted_set(number)->bytes > 1;
    item.length = is_half ? shift : shift + shifted_set(number)->bytes;
    return item;
}

/* Whether a sequence means something here. */
static bool applies(const struct shifter *shifter, const struct shift_state *state, const struct shifted_sequence *sequence) {
    bool at_start = shift_set(state) == shifter->encoding->start;
    if (sequence->meaning == LINE)
        return false;
    if (sequence->meaning == ITSELF || sequence->meaning == NOTHING)
        return at_start;
    return !shifter->encoding->strict || (sequence->set != shift_set(state) && (at_start || sequence->set == shifter->encoding->start));
}

/* Does what a sequence means. */
static struct item apply(const struct shifter *shifter, struct shift_state *state, const struct shifted_sequence *sequence,
                         const unsigned char *in, size_t left) {
    struct item item = {.kind = PASSED, .length = sequence->length};
    switch (sequence->meaning) {
    case USE: state->set = sequence->set; break;
    case G1:
    case HEADER: state->g1 = sequence->set; break;
    case G2: state->g2 = sequence->set; break;
    case OUT: state->out = state->g1 != NO_SET; break;
    case IN: state->out = false; break;
    case SINGLE: return single_at(shifter, state->g2, in, left, sequence->length);
    case ITSELF: item = (struct item){.kind = CHARACTER, .length = 2, .bytes = {sequence->set}, .count = 1}; break;
    default: break;
    }
    return item;
}

/* A sequence at the front. False: there is none. */
static bool sequence_at(const struct shifter *shifter, struct shift_state *state, const unsigned char *in, size_t left, struct item *item) {
    *item = (struct item){.kind = CUT};
    if (in[0] == 0x1b && left < shifter->encoding->least_escape)
        return true;
    for (size_t i = 0; i < shifter->encoding->count; i++) {
        const struct shifted_sequence *sequence = &shifter->sequences[i];
        size_t there = left < sequence->length ? left : sequence->length;
        if (memcmp(in, sequence->bytes, there) != 0 || (there == sequence->length && !applies(shifter, state, sequence)))
            continue;
        if (there == sequence->length)
            *item = apply(shifter, state, sequence, in, left);
        return true;
    }
    *item = A_FAULT;
    return shifter->encoding->strict;
}

static struct item item_at(const struct shifter *shifter, struct shift_state *state, const unsigned char *in, size_t left) {
    struct item item;
    if (begins_sequence(shifter, in[0]) && sequence_at(shifter, state, in, left, &item))
        return item;
    unsigned char set = shift_set(state);
    bool is_control = in[0] < 0x21 || in[0] == 0x7f, in_pairs = shifter->encoding->pairs && shifted_set(set)->bytes == 2;
    if (in[0] >= 0x80)
        return A_FAULT;
    if (set == 0 || (is_control && !in_pairs))
        return (struct item){.kind = CHARACTER, .length = 1, .bytes = {in[0]}, .count = 1};
    return code_at(shifter, set, in, left);
}

/* How many characters of ASCII are at the front, where that is in use. */
static size_t ascii_run(const struct shift_reading *reading, size_t most) {
    size_t run = 0;
    most = most < reading->left ? most : reading->left;
    if (shift_set(&reading->state) != 0)
        return 0;
    while (run < most && (reading->in[run] & 0x80) == 0 && !begins_sequence(reading->shifter, (unsigned char)reading->in[run]))
        run++;
    return run;
}

/* False: out of memory. */
static bool keep(const struct shifter *shifter, struct shift_text *text, const struct item *item) {
    char group = (char)shifter->group_of[item->set];
    struct buffer *to = shifter->group_of[item->set] == DIRECT ? &text->direct : &text->codes[shifter->group_of[item->set]];
    return buffer_append(&text->plan, &group, 1) && buffer_append(to, (const char *)item->bytes, item->count);
}

static bool keep_run(struct shift_text *text, const char *in, size_t length) {
    if (!buffer_reserve(&text->plan, length))
        return false;
    memset(text->plan.bytes + text->plan.length, (char)DIRECT, length);
    text->plan.length += length;
    return buffer_append(&text->direct, in, length);
}

static void pass(struct shift_reading *reading, size_t length, size_t characters) {
    reading->in += length;
    reading->left -= length;
    reading->characters += characters;
    if (characters > 0)
        reading->last = (struct shift_place){.state = reading->state, .in = reading->in, .faults = reading->faults};
}

iconvd_status shift_read(struct shift_reading *reading, size_t most, struct shift_text *text) {
    while (reading->left > 0 && reading->characters < most) {
        size_t run = ascii_run(reading, most - reading->characters);
        if (run > 0) {
            if (text && !keep_run(text, reading->in, run))
                return ICONVD_ENOMEM;
            pass(reading, run, run);
            continue;
        }
        struct item item = item_at(reading->shifter, &reading->state, (const unsigned char *)reading->in, reading->left);
        if (item.kind == CUT)
            return ICONVD_EINVAL;
        if (item.kind == FAULT && reading->marks_faults)
            item.length = 1;
        if (item.kind == FAULT && reading->marks_faults && !buffer_append(&text->plan, (const char[]){(char)FAULT_MARK}, 1))
            return ICONVD_ENOMEM;
        if (item.kind == FAULT && !reading->ignores && !reading->marks_faults)
            return ICONVD_EILSEQ;
        if (item.kind == CHARACTER && text && !keep(reading->shifter, text, &item))
            return ICONVD_ENOMEM;
        reading->faults += item.kind == FAULT;
        pass(reading, item.length, item.kind == CHARACTER);
    }
    return ICONVD_OK;
}

size_t shift_faulty_length(const struct shift_reading *reading) {
    struct shift_state state = reading->state;
    return reading->left == 0 ? 0 : item_at(reading->shifter, &state, (const unsigned char *)reading->in, reading->left).length;
}

void shift_text_free(struct shift_text *text) {
    buffer_free(&text->plan);
    buffer_free(&text->direct);
    for (size_t i = 0; i < GROUPS; i++)
        buffer_free(&text->codes[i]);
}

/* Puts the characters of all groups in their order again. */
static iconvd_status merge(const struct shift_text *text, const struct buffer *outs, struct buffer *units) {
    size_t direct = 0, at[GROUPS] = {0};
    if (!buffer_reserve(units, 4 * text->plan.length))
        return ICONVD_ENOMEM;
    char *to = units->bytes;
    for (size_t i = 0; i < text->plan.length; i++) {
        unsigned char group = (unsigned char)text->plan.bytes[i];
        if (group == DIRECT || group == FAULT_MARK) {
            *to++ = group == DIRECT ? 0 : (char)0xdc;
            *to++ = group == DIRECT ? text->direct.bytes[direct++] : 0;
            continue;
        }
        const char *from = outs[group].bytes + at[group];
        size_t left = outs[group].length - at[group];
        size_t width = left >= 4 && ((unsigned char)*from & 0xfc) == 0xd8 ? 4 : 2;
        if (left < width)
            return ICONVD_LOST;
        memcpy(to, from, width);
        to += width;
        at[group] += width;
    }
    units->length = (size_t)(to - units->bytes);
    return ICONVD_OK;
}

iconvd_status shift_text_convert(struct iconvd_pool *pool, const struct shifter *shifter, struct shift_text *text, struct buffer *units) {
    struct buffer outs[GROUPS] = {{.bytes = NULL}};
    iconvd_status status = ICONVD_OK;
    for (size_t i = 0; status == ICONVD_OK && i < shifter->group_count; i++) {
        struct pair pair = {.to = encoding_builtin(UTF_16BE), .from = shifter->groups[i], .strict = true};
        size_t room = (text->codes[i].length / encoding_least_bytes(pair.from) + 1) * 4;
        status = group_convert(pool, &pair, &text->codes[i], room, &outs[i]);
    }
    if (status == ICONVD_OK)
        status = merge(text, outs, units);
    for (size_t i = 0; i < GROUPS; i++)
        buffer_free(&outs[i]);
    return status;
}
