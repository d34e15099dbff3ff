/* Chooses the set that each character of a text is written in, and asks the service for the codes. */
#include "shifted.h"
#include "translit.h"

/* A text that is being planned. */
struct planning {
    struct iconvd_cd *cd;
    const struct shifter *shifter;
    struct shift_state state;
    struct shift_plan *plan;
    bool memory; /* none was lacking */
};

void shift_plan_free(struct shift_plan *plan) {
    buffer_free(&plan->planned);
    for (size_t i = 0; i < GROUPS; i++) {
        buffer_free(&plan->units[i]);
        buffer_free(&plan->codes[i]);
    }
}

/* The first set in the order of writing that has a character. */
static unsigned char first_set(const struct shifter *shifter, uint32_t character) {
    for (size_t i = 0; i < shifter->order_count; i++)
        if (set_has(shifter, shifter->order[i], character))
            return shifter->order[i];
    return NO_SET;
}

/* The set for a character: the one in use, the one that a single shift takes from, or the first that has it. */
static unsigned char choose(const struct shifter *shifter, const struct shift_state *state, uint32_t character) {
    unsigned char now = shift_set(state), start = shifter->encoding->start;
    if (character < 0x80) {
        bool stays = !shifter->encoding->ascii && now != start && character > 0x20 && character < 0x7f && set_has(shifter, now, character);
        return stays ? now : start;
    }
    if (now != start && set_has(shifter, now, character))
        return now;
    if (state->g2 != NO_SET && set_has(shifter, state->g2, character))
        return state->g2;
    return first_set(shifter, character);
}

void shift_written(const struct shifter *shifter, struct shift_state *state, unsigned char set, uint32_t character) {
    const struct shifted_sequence *line = character == 0x0a ? shifter->of[LINE] : NULL;
    if (set == shifter->encoding->start) {
        state->set = set;
        state->out = false;
    } else if (shifter->ways[set]->meaning == G2) {
        state->g2 = set;
    } else if (shifter->ways[set]->meaning == USE) {
        state->set = set;
    } else {
        state->g1 = set;
        state->out = true;
    }
    if (line)
        state->g2 = NO_SET;
    if (line && line->set > 1)
        state->g1 = NO_SET;
}

/* Adds a character, which a set has. */
static void add(struct planning *planning, enum planned_kind kind, unsigned char set, uint32_t character, size_t width) {
    struct shift_plan *plan = planning->plan;
    struct planned planned = {.kind = kind, .set = set, .code = (unsigned char)(character & 0x7f), .width = (unsigned char)width};
    planning->memory &= buffer_append(&plan->planned, (const char *)&planned, sizeof planned);
    if (kind > MORE)
        return;
    shift_written(planning->shifter, &planning->state, set, character);
    if (planning->shifter->group_of[set] == DIRECT)
        return;
    char units[4];
    size_t length = character_write(UTF_16BE, character, units);
    planning->memory &= buffer_append(&plan->units[planning->shifter->group_of[set]], units, length);
}

/* Whether each character of a candidate can be written. */
static bool has_all(const struct shifter *shifter, const char *text, size_t length) {
    for (size_t at = 0; at < length;) {
        uint32_t character;
        at += utf8_read(text + at, &character);
        if (character >= 0x80 && first_set(shifter, character) == NO_SET)
            return false;
    }
    return true;
}

/* The first candidate that can be written, else `?`. */
static const char *find_candidate(const struct shifter *shifter, uint32_t character, size_t *length) {
    const char *end;
    for (const char *at = translit_candidates(translit_number(character)); *at; at = end + 1) {
        end = strchr(at, '\xff');
        *length = (size_t)(end - at);
        if (has_all(shifter, at, *length))
            return at;
    }
    *length = 1;
    return "?";
}

static void add_transliteration(struct planning *planning, uint32_t lacking, size_t width) {
    size_t length;
    const char *text = find_candidate(planning->shifter, lacking, &length);
    enum planned_kind kind = PHRASE;
    if (length == 0)
        add(planning, EMPTY, 0, 0, width);
    for (size_t at = 0; at < length;) {
        uint32_t character;
        at += utf8_read(text + at, &character);
        add(planning, kind, choose(planning->shifter, &planning->state, character), character, kind == PHRASE ? width : 0);
        kind = MORE;
    }
}

/* Plans the next character. False: the text ends here. */
static bool plan_next(struct planning *planning, uint32_t character, size_t width) {
    unsigned char set = choose(planning->shifter, &planning->state, character);
    int policy = planning->cd->policy;
    if (set != NO_SET)
        add(planning, WRITTEN, set, character, width);
    else if (policy & ICONVD_TRANSLIT)
        add_transliteration(planning, character, width);
    else if (policy & ICONVD_SUBSTITUTE)
        add(planning, PHRASE, planning->shifter->encoding->start, '?', width);
    else
        add(planning, policy & ICONVD_IGNORE ? LEFT : LACKS, 0, 0, width);
    return set != NO_SET || policy != ICONVD_STRICT;
}

iconvd_status shift_plan(struct iconvd_cd *cd, struct shift_plan *plan, const struct buffer *text) {
    const struct shifter *shifter = cd->shifted->to;
    struct planning planning = {
        .cd = cd, .shifter = shifter, .state = cd->shifted->writing, .plan = plan, .memory = true};
    bool more = true;
    for (size_t at = 0, width; more && planning.memory && at < text->length; at += width) {
        uint32_t character = units_read(text->bytes + at, &width);
        more = plan_next(&planning, character, width);
    }
    iconvd_status status = planning.memory ? ICONVD_OK : ICONVD_ENOMEM;
    for (size_t i = 0; status == ICONVD_OK && i < shifter->group_count; i++) {
        struct pair pair = {.to = shifter->groups[i], .from = encoding_builtin(UTF_16BE), .strict = true};
        size_t room = plan->units[i].length / 2 * encoding_most_bytes(pair.to);
        status = group_convert(cd->pool, &pair, &plan->units[i], room, &plan->codes[i]);
    }
    return status;
}
