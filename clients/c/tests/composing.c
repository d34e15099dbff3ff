/* Compares conversions from and to encodings that compose with the C library's, call by call.
 *
 * Random texts of letters and marks, a third of them damaged, are cut anywhere and have any room. Between the calls are resets, with room or
 * without. After each call the return value, errno, both pointers, both counts and the bytes have to be equal.
 *
 * COMPARE_CALLS says how many calls (200,000), COMPARE_SEED where the numbers begin (1). */
#include <errno.h>
#include <locale.h>
#include <stdbool.h>
#include <string.h>

#include "libraries.h"

enum { TEXT = 400, ROOM = 1600 };

static const char *const COMPOSING[] = {"CP1255", "CP1258", "TCVN", "BIG5-HKSCS", "IBM1140", "IBM922"};
static const char *const OTHERS[] = {"UTF-8", "UTF-16LE", "UTF-32BE", "WCHAR_T", "ASCII", "LATIN1", "CP1255", "CP1258", "TCVN",
                                     "BIG5-HKSCS", "KOI8-R", "IBM922"};
static const char *const POLICIES[] = {"", "", "//IGNORE", "//TRANSLIT"};
enum { COMPOSING_COUNT = 6, OTHER_COUNT = 12 };

static struct library ours, theirs;
static unsigned long calls;

/* Letters, marks, what they are together, and others. */
static uint32_t random_character(uint64_t *state) {
    static const uint32_t RANGES[][2] = {
        {0x5d0, 0x1b},   {0x5b0, 0x13}, {0x5e9, 1},     {0x5bc, 1},     {0x5c1, 2},    {0xfb1d, 0x33}, {0x41, 0x3a},   {0x300, 0xd},
        {0x323, 1},      {0xc0, 0x40},  {0x102, 2},     {0x1a0, 0x11},  {0x1ea0, 0x5a}, {0xca, 1},     {0xea, 1},      {0x304, 1},
        {0x30c, 1},      {0x4e00, 0x50}, {0x1e4c, 4},   {0xfdd0, 4},    {0x340, 2},    {0x20, 0x10},
        {0x203e, 1},     {0x2500, 0x40}, {0xaf, 1},
    };
    const uint32_t *range = RANGES[next_random(state) % (sizeof RANGES / sizeof *RANGES)];
    return range[0] + next_random(state) % range[1];
}

/* A text in the encoding, written by the C library, which passes over what the encoding lacks. */
static size_t make_text(const char *name, uint64_t *state, char *text) {
    iconv_t cd = theirs.open(name, "UTF-32LE");
    char *out = text;
    size_t out_left = TEXT;
    bool is_long = next_random(state) % 16 == 0;
    unsigned wanted_length = 1 + next_random(state) % (is_long ? 300 : 24);
    for (unsigned i = 0; i < 8 * wanted_length && (size_t)(out - text) < wanted_length; i++) {
        uint32_t character = random_character(state);
        char *in = (char *)&character;
        size_t in_left = 4;
        theirs.convert(cd, &in, &in_left, &out, &out_left);
        if (next_random(state) % 2)
            theirs.convert(cd, NULL, NULL, &out, &out_left);
    }
    theirs.convert(cd, NULL, NULL, &out, &out_left);
    theirs.close(cd);
    bool is_damaged = next_random(state) % 3 == 0;
    for (unsigned times = 1 + next_random(state) % (is_long ? 60 : 3); is_damaged && times > 0 && out > text; times--) {
        size_t at = next_random(state) % (size_t)(out - text);
        /* Values that Unicode has not are a difference of every conversion. */
        bool is_wide = strcmp(name, "WCHAR_T") == 0 || strcmp(name, "UTF-32BE") == 0;
        unsigned byte = next_random(state) % (is_wide ? 0xd8 : 0xf0);
        /* And so are the tags of the plane 14. */
        text[is_wide && at > 0 ? at - at % 4 + 1 : at] = (char)(is_wide && byte == 0x0e ? 0x0f : byte);
    }
    return (size_t)(out - text);
}

struct result {
    size_t value;
    int error;
    size_t used, produced;
    char bytes[ROOM];
};

/* A call; a reset where there is no input. */
static void call(const struct library *library, iconv_t cd, const char *in, size_t length, size_t room, struct result *result) {
    char copy[TEXT + 8], *in_at = copy, *out_at = result->bytes;
    size_t in_left = length, out_left = room;
    if (in)
        memcpy(copy, in, length);
    errno = 0;
    result->value = library->convert(cd, in ? &in_at : NULL, in ? &in_left : NULL, &out_at, &out_left);
    result->error = result->value == (size_t)-1 ? errno : 0;
    result->used = length - in_left;
    result->produced = room - out_left;
    check(in_at == copy + result->used && out_at == result->bytes + result->produced, "pointers and counts differ");
}

static bool is_equal(const struct result *one, const struct result *other) {
    return one->value == other->value && one->error == other->error && one->used == other->used && one->produced == other->produced &&
           memcmp(one->bytes, other->bytes, one->produced) == 0;
}

/* One call of both. */
static bool compare_call(const iconv_t cds[2], const char *names, const char *in, size_t length, size_t room, struct result *mine) {
    static struct result other;
    call(&ours, cds[0], in, length, room, mine);
    call(&theirs, cds[1], in, length, room, &other);
    calls++;
    return check(is_equal(mine, &other),
                 "%s, %s%zu bytes at %02x %02x %02x, room %zu: value %zd errno %d used %zu wrote %zu, glibc %zd %d %zu %zu",
                 names, in ? "" : "reset, ", length, in ? in[0] & 255 : 0, in && length > 1 ? in[1] & 255 : 0,
                 in && length > 2 ? in[2] & 255 : 0, room, (ssize_t)mine->value, mine->error, mine->used, mine->produced,
                 (ssize_t)other.value, other.error, other.used, other.produced);
}

/* A whole text through both, in pieces. The caller goes on a unit after each fault, or sometimes. */
static void compare_text(const iconv_t cds[2], const char *names, const char *text, size_t length, uint64_t *state) {
    static struct result mine;
    size_t done = 0;
    bool is_loop = next_random(state) % 2;
    size_t unit = strncmp(names, "WCHAR_T", 7) == 0 || strncmp(names, "UTF-32", 6) == 0 ? 4 : 1;
    for (unsigned steps = 0; done < length && steps < 120; steps++) {
        bool is_small = next_random(state) % 3 > 0;
        size_t room = next_random(state) % (is_small ? 9 : 200);
        size_t part = next_random(state) % 2 ? length - done : 1 + next_random(state) % (length - done);
        bool resets = next_random(state) % 8 == 0;
        if (!compare_call(cds, names, resets ? NULL : text + done, resets ? 0 : part, room, &mine))
            return;
        done += mine.used;
        bool steps_over = is_loop ? mine.error == EILSEQ : mine.used == 0 && next_random(state) % 3 == 0;
        done += !resets && steps_over ? unit : 0;
    }
    compare_call(cds, names, NULL, 0, next_random(state) % 6, &mine);
    compare_call(cds, names, NULL, 0, 20, &mine);
}

static void compare_pair(uint64_t *state) {
    char text[TEXT + 8], target[40], names[100];
    const char *one = COMPOSING[next_random(state) % COMPOSING_COUNT], *other = OTHERS[next_random(state) % OTHER_COUNT];
    bool writes = next_random(state) % 2;
    const char *from = writes ? other : one;
    snprintf(target, sizeof target, "%s%s", writes ? one : other, POLICIES[next_random(state) % 4]);
    snprintf(names, sizeof names, "%s to %s", from, target);
    iconv_t cds[2] = {ours.open(target, from), theirs.open(target, from)};
    if (!check(cds[0] != (iconv_t)-1, "%s is not opened", names))
        return;
    size_t length = make_text(from, state, text);
    compare_text(cds, names, text, length, state);
    ours.close(cds[0]);
    theirs.close(cds[1]);
}

int main(void) {
    const char *count = getenv("COMPARE_CALLS"), *seed = getenv("COMPARE_SEED");
    unsigned long wanted_calls = count ? strtoul(count, NULL, 10) : 200000;
    uint64_t state = 0x9e3779b97f4a7c15u ^ (seed ? strtoul(seed, NULL, 10) : 1);
    setlocale(LC_ALL, "C.UTF-8"); /* whose transliterations ours are */
    ours = library_load(wanted("PRELOAD"));
    theirs = library_load("libc.so.6");
    while (calls < wanted_calls && checks_failed < 20)
        compare_pair(&state);
    printf("composing: %lu calls\n", calls);
    return checks_end("composing");
}
