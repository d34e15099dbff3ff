/* What the client takes for characters, for faults and for beginnings of characters is what the service does, in each encoding that it
 * knows: over random bytes, damaged text, and texts that end anywhere. */
#include <string.h>

#include "../src/convert.h"
#include "check.h"

enum { LENGTH = 6000, PROBES = 300 };

static iconvd_pool *pool;

/* What the service says of the front of a text, with room for one character. */
static enum front ask(struct encoding *from, const char *in, size_t left, size_t *length) {
    struct pair pair = {.to = encoding_builtin(UTF_32BE), .from = from, .strict = true};
    char out[4];
    struct work work = {.in = in, .in_length = left, .out = out, .room = sizeof out};
    iconvd_status status = pool_convert(pool, &pair, &work);
    *length = work.used;
    check(status != ICONVD_LOST, "%s: the service", from->name);
    if (work.used > 0)
        return WELL_FORMED;
    return status == ICONVD_EINVAL || may_be_completed(from->kind, in, left) ? CUT_OFF : FAULTY;
}

static void compare(struct encoding *from, const struct fronts *fronts, const char *in, size_t left) {
    size_t length = 0, asked = 0;
    enum front front = front_at(fronts, in, left, &length), other = ask(from, in, left, &asked);
    check(front == other && (front != WELL_FORMED || length == asked), "%s, %zu bytes at %02x %02x %02x %02x: %d, %zu, the service %d, %zu",
          from->name, left, in[0] & 255, in[1] & 255, in[2] & 255, in[3] & 255, front, length, other, asked);
}

/* All that is well formed in a text is converted at once: it is as many characters. Some of the rest is asked for one by one. */
static void test_text(struct encoding *from, const struct fronts *fronts, uint64_t *state, const char *text) {
    static char kept[LENGTH], out[4 * LENGTH];
    size_t characters = 0, length = 0, one = 0;
    for (size_t at = 0; at < LENGTH; at += one) {
        bool is_character = front_at(fronts, text + at, LENGTH - at, &one) == WELL_FORMED;
        if (!is_character)
            one = 1;
        else
            memcpy(kept + length, text + at, one);
        length += is_character ? one : 0;
        characters += is_character;
    }
    struct pair pair = {.to = encoding_builtin(UTF_32BE), .from = from, .strict = true};
    struct work work = {.in = kept, .in_length = length, .out = out, .room = sizeof out};
    iconvd_status status = length > 0 ? pool_convert(pool, &pair, &work) : ICONVD_OK;
    check(status == ICONVD_OK && work.produced == 4 * characters, "%s: %zu characters, %zu by the service: %s", from->name, characters,
          work.produced / 4, iconvd_status_text(status));
    for (int probe = 0; probe < PROBES; probe++) {
        size_t at = next_random(state) % (LENGTH - 16);
        compare(from, fronts, text + at, 1 + next_random(state) % 10);
    }
}

/* Bytes of any kind, and bytes of which some go on from one another as codes do. */
static void fill(uint64_t *state, char *text, int kind) {
    for (size_t i = 0; i < LENGTH; i++) {
        uint32_t byte = next_random(state);
        if (kind == 1)
            byte = byte & 0x100 ? (byte & 0x7f) | 0x80 : byte & 0x200 ? 0x30 + byte % 10 : byte & 0x3f ? 0x81 + byte % 4 : byte;
        if (kind == 2 && i >= 4 && byte & 0x300)
            byte = (unsigned char)text[i - 2 - 2 * (byte >> 10 & 1)] + (byte >> 11 & 1);
        text[i] = (char)byte;
    }
}

/* Whether the service takes the encoding's charmap. */
static bool is_taken(struct encoding *encoding) {
    struct pair pair = {.to = encoding_builtin(UTF_32BE), .from = encoding, .strict = true};
    iconvd_status status = pool_open(pool, &pair);
    check(status == ICONVD_OK || status == ICONVD_UNSUPPORTED, "%s: %s", encoding->name, iconvd_status_text(status));
    return status == ICONVD_OK;
}

/* A name's encoding, the first time. */
static struct encoding *open_name(const char *name) {
    static bool done[2000];
    struct parsed_name parsed;
    struct encoding *encoding = NULL;
    int number = name_find(name);
    if (done[number] || number == UTF_7 || !name_parse(&parsed, name))
        return NULL;
    done[number] = true;
    check(encodings_find(&pool->encodings, parsed.name, &encoding) == ICONVD_OK, "%s", name);
    return encoding && is_taken(encoding) ? mark_free(encoding, true) : NULL;
}

static void connect_anew(void) {
    iconvd_options options = {.streams = 1, .timeout = 60000};
    iconvd_disconnect(pool);
    pool = NULL;
    if (!check(iconvd_connect(wanted("ICONVD"), &options, &pool) == ICONVD_OK, "no service at %s", wanted("ICONVD")))
        exit(checks_end("fronts"));
}

int main(void) {
    static char text[LENGTH];
    uint64_t state = 42;
    const char *name;
    size_t encodings = 0;
    connect_anew();
    for (size_t i = 0; (name = iconvd_name(i)); i++) {
        struct encoding *encoding = open_name(name);
        struct fronts fronts;
        if (!encoding || !check(fronts_of(encoding, &fronts) == ICONVD_OK, "%s: codes", name))
            continue;
        for (int kind = 0; kind < 3; kind++) {
            fill(&state, text, kind);
            test_text(encoding, &fronts, &state, text);
        }
        if (++encodings % 20 == 0)
            connect_anew();
    }
    iconvd_disconnect(pool);
    printf("fronts: %zu encodings\n", encodings);
    return checks_end("fronts");
}
